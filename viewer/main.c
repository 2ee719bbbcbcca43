/* jtview: judges, lists, shows, draws, exports and checks sequencing files. */
#include "check.h"
#include "folder.h"
#include "help.h"
#include "list.h"
#include "memory.h"
#include "options.h"
#include "output.h"
#include "show.h"
#include "words.h"

#include <signal.h>
#include <stdlib.h>
#include <string.h>
#include <unistd.h>

static void write_error(const char *text) {
    ssize_t written = write(STDERR_FILENO, text, strlen(text));
    (void)written;
}

/* Where a mapped file was cut, or its disk fails, there are no bytes any more. */
static void end_without_bytes(int signal) {
    (void)signal;
    output_abandon();
    write_error("jtview: ");
    write_error(file_at_hand());
    write_error(": was cut while it was read, or cannot be read\n");
    _exit(STATUS_UNREADABLE);
}

static void end_interrupted(int number) {
    output_abandon();
    signal(number, SIG_DFL);
    raise(number);
}

/* While the handler runs, the signal waits; one that is to be ignored, as by nohup, still is. */
static void watch(int number, void (*handler)(int)) {
    struct sigaction action = {.sa_handler = handler};
    struct sigaction before;
    sigemptyset(&action.sa_mask);
    if (sigaction(number, NULL, &before) == 0 && before.sa_handler != SIG_IGN) {
        sigaction(number, &action, NULL);
    }
}

static void watch_signals(void) {
    watch(SIGBUS, end_without_bytes);
    watch(SIGINT, end_interrupted);
    watch(SIGTERM, end_interrupted);
    watch(SIGHUP, end_interrupted);
    watch(SIGABRT, end_interrupted);
    atexit(output_abandon);
}

static enum status list_command(const struct file *file, const struct options *options) {
    (void)options;
    return list_file(file);
}

static enum status show_command(const struct file *file, const struct options *options) {
    return show_item(file, options->tag, options->number);
}

/* A picture whose place is not given stands beside its file. */
static enum status draw_command(const struct file *file, const struct options *options) {
    struct draw_options draw = options->draw;
    size_t room = strlen(file->path) + sizeof ".svg";
    char *beside = take(room, 1);
    snprintf(beside, room, "%s.svg", file->path);
    draw.output = draw.output != NULL ? draw.output : beside;
    enum status status = draw_file(file, &draw);
    free(beside);
    return status;
}

static enum status export_command(const struct file *file, const struct options *options) {
    return export_file(file, &options->export);
}

static enum status check_command(const struct options *options) {
    return check_paths(options->operands, options->operand_count, options->profile);
}

/* A command works on one file, or on all files and folders that are named. */
struct command {
    const char *name;
    enum status (*run)(const struct file *file, const struct options *options);
    enum status (*run_all)(const struct options *options);
};

/* NULL for what is no command's name. */
static const struct command *command_of(const char *name) {
    static const struct command commands[] = {{"list", list_command, NULL},
                                              {"show", show_command, NULL},
                                              {"draw", draw_command, NULL},
                                              {"export", export_command, NULL},
                                              {"check", NULL, check_command}};
    for (size_t i = 0; i < sizeof commands / sizeof commands[0]; i++) {
        if (strcmp(name, commands[i].name) == 0) {
            return &commands[i];
        }
    }
    return NULL;
}

static enum status run_command(const struct command *command, const struct options *options) {
    struct file file;
    if (command->run_all != NULL) {
        return command->run_all(options);
    }
    const char *reason = file_open(&file, options->operands[0]);
    if (reason != NULL) {
        tell_failure(options->operands[0], reason);
        return STATUS_UNREADABLE;
    }
    enum status status = command->run(&file, options);
    file_close(&file);
    return status;
}

static enum status run(int count, char *words[]) {
    const struct command *command = count > 1 ? command_of(words[1]) : NULL;
    const char *name = command != NULL ? command->name : NULL;
    int skipped = command != NULL;
    struct options options = options_read(name, count - skipped, words + skipped);
    switch (options.wish) {
    case WISH_HELP:
        print_help(name);
        return STATUS_WHOLE;
    case WISH_VERSION:
        print_version();
        return STATUS_WHOLE;
    case WISH_PROFILES:
        print_profiles();
        return STATUS_WHOLE;
    case WISH_WRONG:
        return STATUS_UNREADABLE;
    default:
        return command != NULL ? run_command(command, &options) : judge_paths(options.operands, options.operand_count);
    }
}

int main(int count, char *words[]) {
    watch_signals();
    enum status status = run(count, words);
    if (fflush(stdout) != 0 || ferror(stdout)) {
        fputs("jtview: the output cannot be written\n", stderr);
        return STATUS_UNREADABLE;
    }
    return (int)status;
}
