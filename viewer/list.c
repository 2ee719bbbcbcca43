#include "list.h"

enum status list_file(const struct file *file) {
    struct judgement judgement = judge(file);
    bool answered = true;
    print_line(file, &judgement);
    switch (judgement.format) {
    case FORMAT_ABIF:
        answered = list_abif(file);
        break;
    case FORMAT_SFF:
        answered = list_sff(file, &judgement.verdict);
        break;
    case FORMAT_GTC:
        answered = list_gtc(file);
        break;
    case FORMAT_UNKNOWN:
        break;
    }
    return answered ? status_of(&judgement) : STATUS_REFUSED;
}
