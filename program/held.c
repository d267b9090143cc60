/* The bytes of a batch, held for its worker: in an anonymous file; or if that would grow past the limit of files, which
 * binds it too, in memory, from where a process of their own feeds them to the worker by a pipe. */
#include <poll.h>
#include <sys/prctl.h>
#include <sys/wait.h>

#include "driver.h"

uint64_t file_limit;

struct batch *new_batch(const char *source, uint64_t offset) {
    struct batch *batch = calloc(1, sizeof *batch);
    if (batch == NULL) fail(FAILED, "no memory for a batch");
    batch->source = source;
    batch->offset = offset;
    batch->bytes = new_file("batch");
    return batch;
}

static void grow(struct batch *batch, uint64_t size) {
    char *memory = realloc(batch->memory, size);
    if (memory == NULL) fail(FAILED, "no memory for a batch");
    if (batch->memory == NULL) {
        read_held(batch, 0, memory, batch->size);
        close(batch->bytes);
    }
    batch->memory = memory;
}

void hold(struct batch *batch, const void *bytes, size_t length) {
    uint64_t size = batch->size + length;
    if (length == 0) return;
    if (batch->memory != NULL || size > file_limit) {
        grow(batch, size);
        memcpy(batch->memory + batch->size, bytes, length);
    }
    for (size_t done = 0; batch->memory == NULL && done < length;) {
        ssize_t wrote = write(batch->bytes, (const char *)bytes + done, length - done);
        if (wrote <= 0) fail(FAILED, "no memory for a batch");
        done += (size_t)wrote;
    }
    batch->size = size;
}

size_t read_held(const struct batch *batch, uint64_t at, void *bytes, size_t room) {
    size_t length = batch->size - at < room ? (size_t)(batch->size - at) : room;
    if (batch->memory != NULL) memcpy(bytes, batch->memory + at, length);
    for (size_t done = 0; batch->memory == NULL && done < length;) {
        ssize_t got = pread(batch->bytes, (char *)bytes + done, length - done, (off_t)(at + done));
        if (got <= 0) fail(FAILED, "cannot read a batch");
        done += (size_t)got;
    }
    return length;
}

void hold_front(struct batch *batch, uint64_t size) {
    batch->size = size;
    if (batch->memory == NULL && ftruncate(batch->bytes, (off_t)size) != 0) fail(FAILED, "cannot cut a batch");
}

void hold_none(struct batch *batch) {
    if (batch->memory == NULL) close(batch->bytes);
    free(batch->memory);
}

/* In the new process. */
static void feed(const struct batch *batch, int pipe, pid_t parent) {
    prctl(PR_SET_PDEATHSIG, SIGKILL); /* if the driver ends, so does this */
    for (uint64_t done = 0; done < batch->size;) {
        ssize_t wrote = write(pipe, batch->memory + done, batch->size - done);
        if ((wrote <= 0 && errno != EINTR) || getppid() != parent) _exit(FAILED);
        if (wrote > 0) done += (uint64_t)wrote;
    }
    _exit(0);
}

int open_file(const struct batch *batch) {
    char path[32];
    snprintf(path, sizeof path, "/proc/self/fd/%d", batch->bytes);
    int file = open(path, O_RDONLY | O_CLOEXEC);
    if (file < 0) fail(FAILED, "cannot read a batch: %s", strerror(errno));
    return file;
}

void give(struct batch *batch) {
    int ends[2];
    pid_t parent = getpid();
    batch->taken = 0;
    batch->fed = batch->memory == NULL;
    if (batch->fed) {
        batch->input = open_file(batch);
        return;
    }
    if (pipe2(ends, O_CLOEXEC) != 0) fail(FAILED, "cannot read a batch: %s", strerror(errno));
    batch->input = ends[0];
    if ((batch->feeder = new_process()) == 0) {
        close(ends[0]);
        feed(batch, ends[1], parent);
    }
    close(ends[1]);
}

void end_feeder(struct batch *batch, int status) {
    batch->feeder = 0;
    batch->fed = status == 0;
}

void stop_feeder(struct batch *batch, bool at_once) {
    int status = 0;
    if (batch->feeder <= 0) return;
    if (at_once) kill(batch->feeder, SIGKILL);
    while (waitpid(batch->feeder, &status, 0) < 0 && errno == EINTR) {
    }
    end_feeder(batch, status);
}

/* Of a pipe it is all or none: all if nobody writes to it any more, nothing is left in it and the feeder ended well. */
uint64_t taken(struct batch *batch) {
    struct pollfd end = {batch->input, POLLIN, 0};
    if (batch->memory == NULL) return (uint64_t)lseek(batch->input, 0, SEEK_CUR);
    poll(&end, 1, 0);
    bool ended = end.revents == POLLHUP;
    stop_feeder(batch, !ended);
    return ended && batch->fed ? batch->size : 0;
}

/* But not of one that may have to be done again. */
void free_taken(struct batch *batch) {
    if (batch->memory != NULL || batch->parts_len > 1 || file_limit < UINT64_MAX) return;
    uint64_t now = (uint64_t)lseek(batch->input, 0, SEEK_CUR);
    if (now < batch->taken + BATCH) return;
    fallocate(batch->bytes, FALLOC_FL_PUNCH_HOLE | FALLOC_FL_KEEP_SIZE, (off_t)batch->taken,
              (off_t)(now - batch->taken));
    batch->taken = now;
}
