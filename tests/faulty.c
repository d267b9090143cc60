/* A worker that fails as the environment's FAULT tells it, and else is the proved program. A word and a number in FAULT, such as
 * `status 77`: one worker in five ends with this status; `kill 9`: by this signal; `deaf 0`: without reading, with this status;
 * `half 3`: after half a line; `after 9`: by this signal when all is written; `slow 1`: after so many seconds; `loud 0`: says where
 * it begins; `plan 9`, `end 9`: what makes the plan, or a last run, ends by this signal. */
#include <signal.h>
#include <stdio.h>
#include <stdlib.h>
#include <string.h>
#include <sys/wait.h>
#include <unistd.h>

/* Waits for the proved program: its status. */
static int run_proved(char **argv) {
    int status;
    pid_t pid = fork();
    if (pid == 0) return execv(PROVED, argv), 127;
    return waitpid(pid, &status, 0) < 0 || !WIFEXITED(status) ? 3 : WEXITSTATUS(status);
}

/* Whether this is the last run, on the numbers of all workers. */
static int is_last(char **argv) {
    while (*argv != NULL)
        if (strcmp(*argv++, "--foot") == 0) return 1;
    return 0;
}

int main(int argc, char **argv) {
    const char *fault = getenv("FAULT");
    char kind[16] = "";
    int number = 0, plan = argc > 2 && strcmp(argv[1], "--plan") == 0;
    if (fault != NULL) sscanf(fault, "%15s %d", kind, &number);
    if (strcmp(kind, "plan") == 0) kill(getpid(), number);
    if (strcmp(kind, "end") == 0 && is_last(argv)) kill(getpid(), number);
    if (plan || argc < 5 || is_last(argv)) return execv(PROVED, argv), 127;
    if (strcmp(kind, "loud") == 0) fprintf(stderr, "%s: %s\n", argv[argc - 3], argv[argc - 1]);
    if (strcmp(kind, "slow") == 0) sleep((unsigned)number);
    if (getpid() % 5 == 0) {
        if (strcmp(kind, "kill") == 0 || (strcmp(kind, "after") == 0 && run_proved(argv) < 3)) kill(getpid(), number);
        if (strcmp(kind, "deaf") == 0) return number;
        if (strcmp(kind, "half") == 0) return puts("half a li"), fflush(stdout), number;
        if (strcmp(kind, "status") == 0) {
            while (fgetc(stdin) != EOF) {
            }
            return number;
        }
    }
    execv(PROVED, argv);
    return 127;
}
