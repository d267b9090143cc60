/* Workers, and what they write. The batches that are launched form a list in the file's order. Each counts as used
 * memory what it may need, and when its worker has ended, what that wrote; so held texts keep new workers waiting. */
#include <poll.h>
#include <sys/prctl.h>
#include <sys/resource.h>
#include <sys/wait.h>

#include "driver.h"

uint64_t threads, parallel, batch_size, running;
static uint64_t memory, used; /* by workers and for texts: may be, is */
static struct batch *first, *last;
static bool refused, failed; /* a record was; a worker did, so that no more are launched */

static uint64_t of_worker(uint64_t size) { return plan.fixed + size * plan.tenths / 10; }

/* Two, each with half of the buffers, whose input stays until both have read it; and their lists. */
static uint64_t of_strands(uint64_t size) { return of_worker(size) + plan.fixed + size * 14 / 10; }

uint64_t needed(uint64_t size) { return OWN_MEMORY + of_worker(size); }

void size_workers(void) {
    uint64_t cores, bytes, most;
    find_usable(&cores, &bytes);
    if (plan.memory == 0) plan.memory = bytes / 2;
    memory = plan.memory > OWN_MEMORY ? plan.memory - OWN_MEMORY : 0;
    threads = plan.threads != 0 ? plan.threads : cores;
    struct rlimit files, size; /* each worker takes some; what workers write is held to the size of a file too */
    if (getrlimit(RLIMIT_FSIZE, &size) != 0) size.rlim_cur = RLIM_INFINITY;
    if (getrlimit(RLIMIT_NOFILE, &files) == 0) {
        files.rlim_cur = files.rlim_max;
        setrlimit(RLIMIT_NOFILE, &files);
        uint64_t ours = STDERR_FILENO + MOST_OUTPUTS + STRANDS + 8 + plan.outputs_len, each = plan.outputs_len + 3;
        most = files.rlim_max > ours ? (files.rlim_max - ours) / each : 0;
        if (threads > most) threads = most > 0 ? most : 1;
    }
    most = memory / (of_worker(SMALLEST_BATCH) + 1);
    if (threads > most) threads = most > 0 ? most : 1;
    parallel = threads < cores ? threads : cores;
    file_limit = size.rlim_cur < memory ? size.rlim_cur : UINT64_MAX;
    for (batch_size = BATCH; batch_size > SMALLEST_BATCH; batch_size /= 2)
        if (of_worker(3 * batch_size) <= memory / (threads + 1) && 4 * batch_size <= size.rlim_cur) break;
}

void check_memory(void) {
    uint64_t least = needed(SMALLEST_BATCH);
    if (memory < least - OWN_MEMORY)
        fail(USAGE, "--memory %" PRIu64 ": with these options it must be %" PRIu64 " or more", plan.memory, least);
}

/* Waits for so many bytes of memory; false: there are not as many. */
static bool reserve_bytes(struct batch *batch, uint64_t bytes) {
    while (used - batch->held + bytes > memory) {
        if (first == NULL) return false;
        turn(-1);
    }
    used += bytes - batch->held;
    batch->held = bytes;
    return true;
}

bool reserve(struct batch *batch, uint64_t size) { return reserve_bytes(batch, of_worker(size)); }

int new_file(const char *name) {
    int file = memfd_create(name, MFD_CLOEXEC);
    if (file < 0) fail(FAILED, "no memory or no files left for a batch");
    return file;
}

/* In the new process. */
static void become_worker(const struct batch *batch, const struct strand *strand, char **words, pid_t parent) {
    struct rlimit most = {memory, memory};
    prctl(PR_SET_PDEATHSIG, SIGKILL); /* if the driver is killed, so is this */
    if (getppid() != parent) _exit(FAILED);
    if (!batch->direct) setrlimit(RLIMIT_FSIZE, &most); /* what it writes is held in memory */
    int input = strand != NULL ? strand->input : batch->input, text = strand != NULL ? strand->list : batch->files[0];
    bool ready = dup2(input, STDIN_FILENO) >= 0 && dup2(text, STDOUT_FILENO) >= 0 &&
                 dup2(batch->files[plan.outputs_len], STDERR_FILENO) >= 0;
    int number = STDERR_FILENO + 1;
    size_t outputs = strand != NULL ? 1 : plan.outputs_len, lists = batch->apart && strand == NULL ? STRANDS : 0;
    for (size_t i = 1; i < outputs; i++) ready = ready && dup2(batch->files[i], number++) >= 0;
    for (size_t i = 0; i < lists; i++) ready = ready && dup2(batch->strands[i].list, number++) >= 0;
    free_signals();
    signal(SIGXFSZ, SIG_IGN); /* a file that grows too large is an error, with its status */
    if (ready) execv(worker, words);
    _exit(127);
}

int new_process(void) {
    int pid;
    while ((pid = fork()) < 0) {
        if (running == 0) fail(FAILED, "cannot start a process: %s", strerror(errno));
        turn(-1);
    }
    return pid;
}

/* For one of its strands, or for the whole. */
static int start_worker(const struct batch *batch, const struct strand *strand) {
    char offset[24], lists[64];
    int pid, number = STDERR_FILENO + (int)plan.outputs_len;
    snprintf(offset, sizeof offset, "%" PRIu64, batch->offset);
    snprintf(lists, sizeof lists, "/dev/fd/%d:/dev/fd/%d", number, number + 1);
    char *name = strand == batch->strands ? "forward" : "reverse";
    char *apart[] = {strand != NULL ? "--strand" : "--join", strand != NULL ? name : lists};
    char *source[] = {"--source", (char *)batch->source, "--offset", offset, NULL};
    pid_t parent = getpid();
    if ((pid = new_process()) == 0) {
        char **more = plan.words + plan.words_len;
        if (batch->apart) more = mempcpy(more, apart, sizeof apart);
        memcpy(more, source, sizeof source);
        become_worker(batch, strand, batch->is_last ? plan.last : plan.words, parent);
    }
    running++;
    return pid;
}

static void start_batch(struct batch *batch) {
    give(batch);
    int pid = start_worker(batch, NULL);
    batch->pid = pid;
}

static void end_strands(struct batch *batch);

static void start_strands(struct batch *batch) {
    batch->starting = true;
    for (struct strand *strand = batch->strands; strand < batch->strands + STRANDS; strand++) {
        strand->list = new_file("list");
        strand->input = open_file(batch);
        int pid = start_worker(batch, strand);
        strand->pid = pid;
    }
    batch->starting = false;
    if (batch->spoiled) end_strands(batch);
}

/* A long record alone that is masked on both strands, if no other waits for the second worker, and there is memory. */
static bool goes_apart(const struct batch *batch) {
    char opens;
    return plan.strands && running + STRANDS <= threads && batch->last == 0 && batch->size >= LONG && !batch->memory &&
           batch->parts_len == 0 && of_strands(batch->size) <= memory && read_held(batch, 0, &opens, 1) == 1 && opens == '>';
}

/* Where a worker writes: anonymous files; or standard output and error themselves, and a pipe for its numbers. */
static void open_texts(struct batch *batch) {
    size_t errors = plan.outputs_len;
    int ends[2];
    for (size_t i = 0; i <= errors && !batch->direct; i++) batch->files[i] = new_file("text");
    batch->pid = -1;
    if (!batch->direct) return;
    if (pipe2(ends, O_CLOEXEC | O_NONBLOCK) != 0) fail(FAILED, "no files left for a batch");
    batch->files[0] = fcntl(STDOUT_FILENO, F_DUPFD_CLOEXEC, 0);
    batch->numbers = ends[0];
    batch->files[1] = ends[1];
    batch->files[errors] = fcntl(STDERR_FILENO, F_DUPFD_CLOEXEC, 0);
}

void launch(struct batch *batch) {
    while (running >= threads) turn(-1);
    if (failed) drain(); /* returns if all went well when it was done again */
    failed = false;
    used -= batch->held;
    batch->held = 0;
    batch->apart = !batch->is_last && goes_apart(batch);
    if (!reserve_bytes(batch, batch->apart ? of_strands(batch->size) : of_worker(batch->size)))
        fail(FAILED, "no memory for a batch");
    open_texts(batch);
    if (first == NULL) first = batch;
    else last->next = batch;
    last = batch;
    if (batch->apart) start_strands(batch);
    else start_batch(batch);
}

void run_last(void) {
    numbers->is_last = true;
    launch(numbers);
    drain();
}

/* A worker that did not read all of its bytes did not do them all, whatever it says. */
static bool is_done(const struct batch *batch) {
    int status = WIFEXITED(batch->status) ? WEXITSTATUS(batch->status) : FAILED;
    return status == STOPPED || (status <= REFUSED && batch->taken == batch->size);
}

static void give_back(struct batch *batch) {
    used -= batch->held;
    batch->held = 0;
    hold_none(batch);
}

static void take_numbers(struct batch *batch) {
    char text[4096];
    ssize_t length = read(batch->numbers, text, sizeof text);
    if (length > 0) hold(numbers, text, (size_t)length);
    close(batch->numbers);
}

static void take_texts(struct batch *batch) {
    for (size_t i = 0; i <= plan.outputs_len; i++) {
        size_t length = (size_t)lseek(batch->files[i], 0, SEEK_END);
        void *text = length == 0 ? NULL : mmap(NULL, length, PROT_READ, MAP_SHARED, batch->files[i], 0);
        if (text == MAP_FAILED) fail(FAILED, "no memory to hold what a worker wrote");
        batch->texts[i] = text;
        batch->lengths[i] = length;
        batch->held += length;
    }
    used += batch->held;
}

/* Whether a batch may be done by a worker that writes to standard output itself, since it did not end well by one whose
 * text a limit of files may have bound. */
static bool may_go_direct(const struct batch *batch) {
    bool alone = plan.numbers && plan.outputs_len == 2 && plan.outputs[0] == NULL;
    return file_limit < UINT64_MAX && alone && !batch->direct && !(fcntl(STDOUT_FILENO, F_GETFL) & O_NONBLOCK);
}

/* What is said of a fault names a file, so if several are in it, each of them is done again alone. */
static void end_batch(struct batch *batch, int status) {
    batch->pid = 0;
    batch->status = status;
    batch->taken = batch->input > 0 ? taken(batch) : 0;
    bool stopped = WIFEXITED(status) && WEXITSTATUS(status) == STOPPED, direct = may_go_direct(batch);
    bool cut = direct && (uint64_t)lseek(batch->files[plan.outputs_len], 0, SEEK_END) == file_limit; /* its messages */
    bool good = is_done(batch) && !stopped && !cut;
    batch->again = !good && (batch->parts_len > 1 || (direct && (cut || !stopped)));
    failed = failed || !good;
    if (!batch->again) {
        give_back(batch);
        if (batch->direct) take_numbers(batch);
        else take_texts(batch);
    }
    if (batch->input > 0) close(batch->input);
    batch->input = 0;
    for (size_t i = 0; i <= plan.outputs_len; i++) close(batch->files[i]);
    for (int i = 0; i < STRANDS && batch->apart; i++)
        if (batch->strands[i].list > 0) close(batch->strands[i].list);
    batch->apart = false;
}

void drop(struct batch *batch) {
    give_back(batch);
    free(batch->parts);
    free(batch);
}

static void stop(int *pid) {
    if (*pid <= 0) return;
    kill(*pid, SIGKILL);
    waitpid(*pid, NULL, 0);
    *pid = 0;
    running--;
}

/* Without the worker of both, since one of them failed. */
static void end_strands(struct batch *batch) {
    for (int i = 0; i < STRANDS; i++) {
        if (batch->strands[i].pid > 0) close(batch->strands[i].input);
        stop(&batch->strands[i].pid);
    }
    end_batch(batch, batch->status);
}

/* The worker of both starts after the last; it finds and says a fault of the file, too. */
static void end_strand(struct batch *batch, struct strand *strand, int status) {
    bool all = (uint64_t)lseek(strand->input, 0, SEEK_CUR) == batch->size;
    bool good = WIFEXITED(status) && ((WEXITSTATUS(status) == 0 && all) || WEXITSTATUS(status) == STOPPED);
    close(strand->input);
    strand->pid = 0;
    if (good && ++batch->masked == STRANDS) start_batch(batch);
    if (good) return;
    batch->spoiled = true;
    batch->status = status;
    if (!batch->starting) end_strands(batch);
}

/* If it is one of this batch. */
static void end_process(struct batch *batch, int pid, int status) {
    struct strand *strand = batch->strands;
    while (strand < batch->strands + STRANDS && strand->pid != pid) strand++;
    if (batch->feeder == pid) end_feeder(batch, status);
    if (batch->pid != pid && strand == batch->strands + STRANDS) return;
    running--;
    if (batch->pid == pid) end_batch(batch, status);
    else end_strand(batch, strand, status);
}

static void write_batch(struct batch *batch) {
    size_t errors = plan.outputs_len;
    int status = WIFEXITED(batch->status) ? WEXITSTATUS(batch->status) : FAILED;
    put_error(batch->texts[errors], batch->lengths[errors]);
    for (size_t i = 0; i < errors && is_done(batch); i++) put_output(i, batch->texts[i], batch->lengths[i]);
    if (!WIFEXITED(batch->status)) fail(FAILED, "a worker was ended by signal %d", WTERMSIG(batch->status));
    if (!is_done(batch) && batch->lengths[errors] == 0 && (!batch->direct || status != FAILED))
        fail(FAILED, "a worker failed with status %d", status);
    if (!is_done(batch) || status == STOPPED || caught != 0) finish(FAILED);
    if (status == REFUSED) refused = true;
    for (size_t i = 0; i <= errors; i++)
        if (batch->texts[i] != NULL) munmap(batch->texts[i], batch->lengths[i]);
    used -= batch->held;
}

/* Of the first batch of the list: its next file gets a worker, or if it has one alone, that is done again by a worker that
 * writes to standard output itself. False: no file is left. */
static bool start_again(struct batch *batch) {
    if (batch->parts_len > 1) {
        if (batch->parts_done == batch->parts_len) return false;
        first = batch_of(batch, &batch->parts[batch->parts_done++]);
        first->next = batch;
    } else {
        batch->direct = true;
        batch->place = lseek(STDOUT_FILENO, 0, fcntl(STDOUT_FILENO, F_GETFL) & O_APPEND ? SEEK_END : SEEK_CUR);
    }
    open_texts(first);
    start_batch(first);
    return true;
}

bool turn(int file) {
    int status;
    pid_t ended;
    bool ready = wait_ready(file, POLLIN, child_ended ? 0 : 100);
    child_ended = false;
    show_progress();
    if (caught != 0) finish(FAILED);
    for (struct batch *batch = first; batch != NULL; batch = batch->next)
        if (batch->pid > 0) free_taken(batch);
    while ((ended = waitpid(-1, &status, WNOHANG)) > 0)
        for (struct batch *batch = first; batch != NULL; batch = batch->next) end_process(batch, ended, status);
    while (first != NULL && first->pid == 0) {
        struct batch *batch = first;
        if (batch->again && start_again(batch)) continue;
        if (batch->again) give_back(batch);
        else write_batch(batch);
        first = batch->next;
        free(batch->parts);
        free(batch);
    }
    return ready;
}

void drain(void) {
    while (first != NULL) turn(-1);
}

void finish(int status) {
    for (struct batch *batch = first; batch != NULL; batch = batch->next) {
        stop(&batch->pid);
        for (int i = 0; i < STRANDS; i++) stop(&batch->strands[i].pid);
        stop_feeder(batch, true);
        if (batch->direct) cut_output(batch->place);
    }
    if (status == FAILED) drop_outputs();
    if (caught != 0) {
        signal(caught, SIG_DFL);
        raise(caught);
        free_signals();
    }
    _exit(status == 0 && refused ? REFUSED : status);
}
