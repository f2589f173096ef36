/* pierheather: one command over the proved functions. It opens the file, joins the words to the text that a function
 * reads, and returns the status that the function hands back; the functions write by themselves. What is found here is
 * wrong usage (2) and what cannot be opened or read (4). command/commands.txt has the commands. */
#define _POSIX_C_SOURCE 200809L
#include "help.h"
#include <errno.h>
#include <fcntl.h>
#include <signal.h>
#include <stdio.h>
#include <string.h>
#include <unistd.h>

#ifndef PIERHEATHER_VERSION
#define PIERHEATHER_VERSION "unreleased"
#endif

#define ANY_COMMAND "pierheather COMMAND .. (pierheather help lists the commands)"

enum { DONE = 0, WRONG_USAGE = 2, NOT_ALL = 4 };

/* How to print: as the text says, by names or as a table whatever it says, or by names where it says nothing. */
enum { AS_SAID, NAMES, TABLE, NAMES_UNLESS_SAID };

/* The text for the proved function. One that fills this is longer than any that is taken, and is refused there. */
static uint8_t text[524288];
static size_t bytes;

static void put(const char *words) {
    for (; *words && bytes < sizeof text; words++)
        text[bytes++] = (uint8_t)*words;
}

static int wrong_usage(const char *right) {
    fprintf(stderr, "usage: %s\n", right);
    return WRONG_USAGE;
}

static int failed(const char *path) {
    fprintf(stderr, "pierheather: %s: %s\n", path, strerror(errno));
    return NOT_ALL;
}

static int print(const char *words) {
    return fputs(words, stdout) < 0 || fflush(stdout) ? failed("standard output") : DONE;
}

/* The form that the words name. Where the second word is none of its command's, it is the last one, and `wrong` is
 * set. */
static const struct form *form_of(int count, char **word, int *wrong) {
    const struct form *found = NULL;
    for (size_t i = 0; i < sizeof forms / sizeof *forms; i++) {
        if (strcmp(word[1], forms[i].name))
            continue;
        found = &forms[i];
        *wrong = found->second && (count < 3 || strcmp(word[2], found->second));
        if (!*wrong)
            break;
    }
    return found;
}

static int is_help(const char *word) {
    return !strcmp(word, "--help") || !strcmp(word, "-h");
}

static int help(int count, char **word) {
    int wrong;
    if (count < 2)
        return print(overview);
    const struct form *form = count == 2 ? form_of(count, word, &wrong) : NULL;
    return form ? print(form->help) : wrong_usage(ANY_COMMAND);
}

/* What the options of a form ask for. */
struct options {
    int given; /* which of them, and whether help is */
    const char *days, *edition;
};

enum { WITH_HELP = 1 << 8 };

/* The option that a word is, of those that a form takes; 0 where it is none. */
static int option_of(const struct form *form, const char *word) {
    static const struct {
        const char *name;
        int option;
    } all[] = {{"--names", WITH_NAMES}, {"--csv", WITH_CSV}, {"--true", WITH_TRUE}, {"--days", WITH_DAYS}, {"--edition", WITH_EDITION}};
    for (size_t i = 0; i < sizeof all / sizeof *all; i++)
        if (!strcmp(word, all[i].name))
            return all[i].option & form->options;
    return is_help(word) ? WITH_HELP : 0;
}

/* A word that can stand in a line with others behind it. */
static int in_line(const char *word) {
    return !strpbrk(word, "\n#");
}

/* Takes the options out of the words: the operands are left in front. How many they are, or -1 for wrong usage. */
static int operands(const struct form *form, int count, char **word, struct options *options) {
    int left = 0, ended = 0;
    for (int i = 0; i < count; i++) {
        if (ended || word[i][0] != '-' || !word[i][1]) {
            word[left++] = word[i];
        } else if (!strcmp(word[i], "--")) {
            ended = 1;
        } else {
            int option = option_of(form, word[i]), valued = option & (WITH_DAYS | WITH_EDITION);
            if (!option || (valued && (++i == count || !in_line(word[i]))))
                return -1;
            options->given |= option;
            options->days = option == WITH_DAYS ? word[i] : options->days;
            options->edition = option == WITH_EDITION ? word[i] : options->edition;
        }
    }
    return (options->given & (WITH_NAMES | WITH_CSV)) == (WITH_NAMES | WITH_CSV) ? -1 : left;
}

/* Puts the file on standard input, and says on a terminal what is waited for. */
static int open_input(const struct form *form, const char *path) {
    if (strcmp(path, "-")) {
        int file = open(path, O_RDONLY);
        if (file < 0 || (file != STDIN_FILENO && (dup2(file, STDIN_FILENO) < 0 || close(file))))
            return failed(path);
    } else if (isatty(STDIN_FILENO)) {
        fprintf(stderr, "pierheather: reading %s from the terminal; Ctrl-D on a line of its own ends it\n", form->waits);
    }
    return DONE;
}

/* Reads standard input to its end, or as far as there is room. */
static int read_input(const char *path) {
    while (bytes < sizeof text) {
        ssize_t got = read(STDIN_FILENO, text + bytes, sizeof text - bytes);
        if (got < 0 && errno != EINTR)
            return failed(strcmp(path, "-") ? path : "standard input");
        if (got == 0)
            break;
        bytes += got > 0 ? (size_t)got : 0;
    }
    return DONE;
}

/* An option's word and its value, where it is given. */
static void put_option(const char *word, const char *value) {
    if (value) {
        put(" ");
        put(word);
        put(value);
    }
}

/* The words of a line, and behind them those of the options. On a terminal a day alone is printed by names. */
static int put_line(const struct form *form, int count, char **word, struct options *options) {
    for (int i = 0; i < count; i++) {
        if (!in_line(word[i]))
            return wrong_usage(form->usage);
        put(i ? " " : "");
        put(word[i]);
    }
    if (!count)
        return wrong_usage(form->usage);
    if (!(options->given & WITH_CSV) && count == 1 && !strpbrk(word[0], " \t\r,") && isatty(STDOUT_FILENO))
        options->given |= form->options & WITH_NAMES;
    put_option("true", options->given & WITH_TRUE ? "" : NULL);
    put_option("print names", options->given & WITH_NAMES ? "" : NULL);
    put_option("print csv", options->given & WITH_CSV ? "" : NULL);
    put_option("days ", options->days);
    put_option(form->edition, options->edition);
    put("\n");
    return DONE;
}

/* A day in front of a page, the file, and a line for an edition; but behind a last line that is not ended, which is
 * refused as it is. */
static int put_file(const struct form *form, int count, char **word, const struct options *options) {
    int days = form->kind == DAY_PAGE;
    if (count < days || count > days + 1 || (days && !in_line(word[0])))
        return wrong_usage(form->usage);
    if (days) {
        put(word[0]);
        put("\n");
    }
    const char *path = count > days ? word[days] : "-";
    int status = open_input(form, path);
    if (status == DONE && form->kind != STREAM)
        status = read_input(path);
    if (options->edition && (!bytes || text[bytes - 1] == '\n')) {
        put(form->edition);
        put(options->edition);
        put("\n");
    }
    return status;
}

static uint32_t run(const struct form *form, const struct options *options) {
    if (form->of_input)
        return form->of_input();
    if (form->of_text)
        return form->of_text(text, bytes);
    if (options->given & (WITH_NAMES | WITH_CSV))
        return form->printed(text, bytes, options->given & WITH_NAMES ? NAMES : TABLE);
    return form->printed(text, bytes, isatty(STDOUT_FILENO) ? NAMES_UNLESS_SAID : AS_SAID);
}

int main(int count, char **word) {
    int wrong = 0;
    struct options options = {0};
    signal(SIGPIPE, SIG_DFL); /* a closed pipe ends it, also where who started it ignores that */
    if (count < 2)
        return wrong_usage(ANY_COMMAND);
    if (!strcmp(word[1], "--version"))
        return print("pierheather " PIERHEATHER_VERSION "\n");
    if (is_help(word[1]) || !strcmp(word[1], "help"))
        return help(count - 1, word + 1);
    const struct form *form = form_of(count, word, &wrong);
    if (!form)
        return wrong_usage(ANY_COMMAND);
    if (wrong)
        return count > 2 && is_help(word[2]) ? print(form->help) : wrong_usage(form->usages);
    int taken = form->second ? 3 : 2, left = operands(form, count - taken, word + taken, &options);
    if (left < 0)
        return wrong_usage(form->usage);
    if (options.given & WITH_HELP)
        return print(form->help);
    int status = form->kind == WORDS ? put_line(form, left, word + taken, &options) : put_file(form, left, word + taken, &options);
    if (status == DONE)
        status = (int)run(form, &options);
    return status != NOT_ALL && status != WRONG_USAGE && close(STDOUT_FILENO) ? failed("standard output") : status;
}
