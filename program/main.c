#include "driver.h"

static bool no_output; /* standard output is closed */

/* A file of ours must not get the number of a standard one that is closed, nor one that workers write to. To use a closed one
 * fails as before. */
static void hold_numbers(void) {
    no_output = fcntl(STDOUT_FILENO, F_GETFD) < 0;
    for (int file = STDIN_FILENO; file < STDERR_FILENO + MOST_OUTPUTS + STRANDS; file++) {
        int how = file == STDIN_FILENO ? O_WRONLY : file <= STDERR_FILENO ? O_RDONLY : O_CLOEXEC;
        if (fcntl(file, F_GETFD) < 0) open("/dev/null", how);
    }
}

/* Whether the proved program can do it all: then nothing of ours touches a byte. */
static bool needs_no_driver(void) {
    if (threads > 1 || plan.named || (fcntl(STDOUT_FILENO, F_GETFL) & O_NONBLOCK)) return false;
    for (size_t i = 0; i < plan.inputs_len; i++)
        if (!is_plain(plan.inputs[i])) return false;
    return true;
}

/* By the user's words, and the memory that this program would keep to. */
static void become_proved(int argc, char **argv) {
    char memory[32], **words = calloc((size_t)argc + 2, sizeof *words);
    if (words == NULL) fail(FAILED, "no memory");
    snprintf(memory, sizeof memory, "--memory=%" PRIu64, plan.memory);
    words[0] = NAME;
    words[1] = memory;
    memcpy(words + 2, argv + 1, (size_t)argc * sizeof *words); /* and the null behind them */
    signal(SIGXFSZ, SIG_IGN); /* a file that grows too large is an error, with its message and status */
    execv(worker, words);
    fail(FAILED, "cannot start %s", worker);
}

static void read_file(const char *path) {
    static uint8_t bytes[CHUNK];
    size_t length;
    open_input(path);
    begin_file();
    while ((length = read_input(bytes, CHUNK)) > 0) take_bytes(bytes, length);
    end_file(input_fault == NULL);
    if (input_fault != NULL) {
        drain();
        fail(FAILED, "%s: %s", input_name, input_fault);
    }
    close_input();
}

int main(int argc, char **argv) {
    hold_numbers();
    check_processor();
    read_plan(argc, argv);
    refuse_own_input();
    if (no_output && plan.standard && plan.outputs[0] == NULL) fail(FAILED, "cannot write: %s", strerror(EBADF));
    size_workers();
    if (needs_no_driver()) become_proved(argc, argv);
    check_memory();
    find_size();
    hold_signals();
    begin_progress();
    open_outputs();
    for (size_t i = 0; i < plan.inputs_len; i++) read_file(plan.inputs[i]);
    end_files();
    drain();
    if (plan.numbers) run_last();
    keep_outputs();
    end_progress();
    finish(0);
}
