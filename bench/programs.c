/* Times two programs side by side, whole runs of which nothing is kept: `programs` prints the headings of the rows,
 * `programs NAME MOST PAGE FIND PLAIN WORDS...` a row, for FIND with the page as its standard input and for PLAIN with
 * the words as its arguments. */
#include "turns.h"
#include <fcntl.h>
#include <spawn.h>
#include <stdlib.h>
#include <sys/wait.h>

extern char **environ;

typedef struct {
    char **words;
    const char *input;
} program;

static void run(const void *of) {
    const program *p = of;
    posix_spawn_file_actions_t files;
    pid_t child;
    int status;
    if (posix_spawn_file_actions_init(&files) || posix_spawn_file_actions_addopen(&files, 0, p->input, O_RDONLY, 0) ||
        posix_spawn_file_actions_addopen(&files, 1, "/dev/null", O_WRONLY, 0) || posix_spawn_file_actions_addopen(&files, 2, "/dev/null", O_WRONLY, 0) ||
        posix_spawn(&child, p->words[0], &files, NULL, p->words, environ) ||
        waitpid(child, &status, 0) != child || !WIFEXITED(status) || WEXITSTATUS(status)) {
        fprintf(stderr, "programs: %s does not run\n", p->words[0]);
        exit(1);
    }
    posix_spawn_file_actions_destroy(&files);
}

int main(int count, char **word) {
    if (count < 6) {
        head("the program find, whole run");
        return 0;
    }
    char *find[] = {word[4], NULL};
    program ours = {find, word[3]}, plain = {word + 5, "/dev/null"};
    in_turns(word[1], run, &ours, &plain, atof(word[2]));
    return 0;
}
