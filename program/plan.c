#include <sys/wait.h>

#include "driver.h"

struct plan plan;
const char *worker;

static void find_worker(void) {
    static char path[4096 + 32];
    ssize_t length = readlink("/proc/self/exe", path, 4096);
    if (length <= 0 || length == 4096) fail(FAILED, "cannot tell where this program is");
    strcpy(strrchr(path, '/') + 1, "cisternpea-proved");
    worker = path;
}

/* All that comes from a pipe, and a zero byte. */
static char *read_all(int pipe, size_t *length) {
    char *text = NULL;
    for (size_t room = 4096;; room *= 2) {
        if ((text = realloc(text, room + 1)) == NULL) fail(FAILED, "no memory");
        while (*length < room) {
            ssize_t got = read(pipe, text + *length, room - *length);
            if (got < 0 && errno == EINTR) continue;
            if (got > 0) *length += (size_t)got;
            text[*length] = 0;
            if (got <= 0) return text;
        }
    }
}

/* Runs `cisternpea-proved --plan FILE WORD..`: what it wrote to the file; if that is nothing, this program ends too. */
static char *ask(int argc, char **argv, size_t *length) {
    char **asked = calloc((size_t)argc + 3, sizeof *asked), name[32];
    int ends[2], status;
    if (asked == NULL || pipe(ends) != 0) fail(FAILED, "no memory or no files left"); /* opened by its number, so not closed */
    snprintf(name, sizeof name, "/dev/fd/%d", ends[1]);
    asked[0] = NAME;
    asked[1] = "--plan";
    asked[2] = name;
    memcpy(asked + 3, argv + 1, (size_t)argc * sizeof *asked); /* and the null behind them */
    signal(SIGCHLD, SIG_DFL); /* ignored, as some parents leave it, it would let ended workers vanish */
    pid_t pid = fork();
    if (pid == 0) {
        execv(worker, asked);
        _exit(127);
    }
    close(ends[1]);
    *length = 0;
    char *text = read_all(ends[0], length);
    close(ends[0]);
    while (pid > 0 && waitpid(pid, &status, 0) < 0 && errno == EINTR) {
    }
    if (pid < 0 || !WIFEXITED(status) || WEXITSTATUS(status) == 127) fail(FAILED, "cannot start %s", worker);
    if (WEXITSTATUS(status) != 0 || *length == 0) _exit(WEXITSTATUS(status)); /* it has said why, or helped */
    free(asked);
    return text;
}

/* Of a worker. A form that has no file of its own ends in - behind its name or value. */
static void take_word(char *word) {
    size_t length = strlen(word);
    if (length > 2 && word[length - 1] == '-' && strchr("=:", word[length - 2]) != NULL) plan.standard = true;
    sscanf(word, "--window-size=%" SCNu64, &plan.window);
    plan.words[plan.words_len++] = word;
}

/* Takes a line of the plan: a letter that says what it is, and the value. */
static void take_line(char kind, char *value) {
    static size_t output; /* named last */
    if (kind == 't') plan.threads = strtoull(value, NULL, 10);
    else if (kind == 'm') plan.memory = strtoull(value, NULL, 10);
    else if (kind == 'f') plan.fixed = strtoull(value, NULL, 10);
    else if (kind == 'e') plan.tenths = strtoull(value, NULL, 10);
    else if (kind == 'q') plan.quiet = true;
    else if (kind == 'n') plan.numbers = true;
    else if (kind == 's') plan.strands = true;
    else if (kind == 'w') take_word(value);
    else if (kind == 'F') plan.last[plan.last_len++] = value;
    else if (kind == 'i') plan.inputs[plan.inputs_len++] = strcmp(value, "-") == 0 ? NULL : value;
    else if (kind == 'h') plan.heads[output] = value;
    else if (kind == 'o') plan.outputs[output = 0] = value;
    else if (kind == 'x' && plan.outputs_len < MOST_OUTPUTS - 1) plan.outputs[output = plan.outputs_len++] = value;
    else fail(FAILED, "%s is of another version", worker);
    if (kind == 'o' || kind == 'x') plan.named = true;
}

/* Each line of a plan ends in a zero byte. */
void read_plan(int argc, char **argv) {
    size_t length;
    find_worker();
    char *text = ask(argc, argv, &length);
    char **room = calloc(3 * (length + 8), sizeof *room);
    if (room == NULL) fail(FAILED, "no memory");
    plan = (struct plan){.words = room, .last = room + length + 8, .inputs = room + 2 * (length + 8), .outputs_len = 1};
    plan.words[plan.words_len++] = plan.last[plan.last_len++] = NAME;
    for (char *line = text; line < text + length; line += strlen(line) + 1) take_line(*line, line + (*line != 0));
    if (plan.inputs_len == 0) fail(FAILED, "%s is of another version", worker);
    if (plan.numbers) plan.outputs_len++;
}
