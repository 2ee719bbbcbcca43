/* An ABIF item's elements or text. */
#ifndef VIEWER_SHOW_H
#define VIEWER_SHOW_H

#include "format.h"

enum status show_item(const struct file *file, uint32_t name, int32_t number);

#endif
