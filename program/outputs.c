/* A named output is written beside its place and gets its name at the end. Standard output gets whole batches; if
 * one cannot be written in full and the output is a file, what was written of it is cut off. */
#include <poll.h>

#include "driver.h"

struct batch *numbers;
static struct {
    int file;
    char *path, *beside; /* null for standard output, numbers and what is no file */
    uint8_t *block; /* where it is bgzip: the text of the next block */
    size_t length; /* of that */
} outputs[MOST_OUTPUTS];

bool tell(const char *path, int file, struct stat *told) {
    return (path == NULL ? fstat(file, told) : stat(path, told)) == 0;
}

/* Whether two paths, or where they are null open files, lead to one regular file. */
static bool same(const char *path, int file, const char *other, int other_file) {
    struct stat a, b;
    bool are = tell(path, file, &a) && tell(other, other_file, &b);
    return are && S_ISREG(a.st_mode) && a.st_dev == b.st_dev && a.st_ino == b.st_ino;
}

void refuse_own_input(void) {
    for (size_t i = 0; i < plan.outputs_len - plan.numbers; i++) {
        const char *path = plan.outputs[i];
        for (size_t j = 0; j < plan.inputs_len; j++)
            if (same(path, STDOUT_FILENO, plan.inputs[j], STDIN_FILENO))
                fail(FAILED, "%s: it is an output, too", plan.inputs[j] == NULL ? "standard input" : plan.inputs[j]);
        for (size_t j = 0; j < i; j++)
            if (same(path, -1, plan.outputs[j], STDOUT_FILENO)) fail(USAGE, "%s: it is two outputs", path);
    }
}

static void open_output(size_t i, const char *path) {
    struct stat there;
    bool exists = stat(path, &there) == 0;
    if (is_bgzip(path) && (outputs[i].block = malloc(BLOCK)) == NULL) fail(FAILED, "no memory");
    if (exists && !S_ISREG(there.st_mode)) {
        outputs[i].file = open(path, O_WRONLY | O_CLOEXEC);
    } else {
        mode_t mask = umask(0);
        umask(mask);
        outputs[i].path = exists ? realpath(path, NULL) : strdup(path); /* a link stays, its target is replaced */
        if (outputs[i].path == NULL || asprintf(&outputs[i].beside, "%s.XXXXXX", outputs[i].path) < 0)
            fail(FAILED, "no memory");
        outputs[i].file = mkostemp(outputs[i].beside, O_CLOEXEC);
        if (outputs[i].file < 0) outputs[i].beside = NULL;
        else if (fchmod(outputs[i].file, exists ? there.st_mode & 07777 : 0666 & ~mask) != 0)
            fail(FAILED, "%s: %s", path, strerror(errno));
    }
    if (outputs[i].file < 0) fail(FAILED, "%s: %s", path, strerror(errno));
}

void open_outputs(void) {
    size_t named = plan.outputs_len - plan.numbers;
    outputs[0].file = STDOUT_FILENO;
    for (size_t i = 0; i < named; i++)
        if (plan.outputs[i] != NULL) open_output(i, plan.outputs[i]);
    if (plan.numbers) numbers = new_batch(NULL, 0);
    for (size_t i = 0; i < named; i++)
        if (plan.heads[i] != NULL) put_output(i, plan.heads[i], strlen(plan.heads[i]));
}

/* Never sleeps in write: a pipe that is ready has room for 4096 bytes. After a signal what was begun is ended, but
 * two seconds in which the reader takes nothing, or a second signal, end that too. */
size_t put(int file, const char *bytes, size_t length) {
    struct stat kind;
    size_t piece = fstat(file, &kind) == 0 && S_ISREG(kind.st_mode) ? 1 << 20 : 4096, done = 0;
    double last = seconds();
    while (done < length) {
        bool ready = wait_ready(file, POLLOUT, caught != 0 ? 100 : -1);
        errno = EINTR;
        if (caught_times > 1 || (caught != 0 && !ready && seconds() > last + 2)) break;
        if (!ready) continue;
        ssize_t wrote = write(file, bytes + done, length - done < piece ? length - done : piece);
        if (wrote < 0 && errno != EINTR && errno != EAGAIN) break;
        if (wrote > 0) done += (size_t)wrote;
        last = seconds();
    }
    return done;
}

/* Cuts the last bytes off standard output, if that is a file that ends with them and not that of the messages. */
static void cut(size_t length) {
    struct stat file;
    off_t here = lseek(STDOUT_FILENO, 0, SEEK_CUR);
    if (length == 0 || here < (off_t)length || fstat(STDOUT_FILENO, &file) != 0 || !S_ISREG(file.st_mode)) return;
    if (file.st_size != here || same(NULL, STDOUT_FILENO, NULL, STDERR_FILENO)) return;
    if (ftruncate(STDOUT_FILENO, here - (off_t)length) != 0) say("the end of the output may be half a record");
}

void cut_output(int64_t place) {
    off_t here = lseek(STDOUT_FILENO, 0, SEEK_CUR);
    if (place >= 0 && here > place) cut((size_t)(here - place));
}

static void put_whole(size_t i, const char *bytes, size_t length) {
    size_t done = put(outputs[i].file, bytes, length);
    int error = errno;
    if (done == length) return;
    if (outputs[i].file == STDOUT_FILENO) cut(done);
    if (caught != 0) finish(FAILED);
    if (plan.outputs[i] != NULL) fail(FAILED, "%s: %s", plan.outputs[i], strerror(error));
    fail(FAILED, "cannot write: %s", strerror(error));
}

/* Packs a block's text, and ends at a signal: the output would not be kept. */
static void put_block(size_t i) {
    uint8_t packed[PACKED];
    put_whole(i, (char *)packed, pack_block(outputs[i].block, outputs[i].length, packed));
    outputs[i].length = 0;
    if (caught != 0) finish(FAILED);
}

void put_output(size_t i, const char *bytes, size_t length) {
    if (i == plan.outputs_len - plan.numbers) {
        hold(numbers, bytes, length);
        return;
    }
    if (outputs[i].block == NULL) {
        put_whole(i, bytes, length);
        return;
    }
    while (length > 0) {
        size_t room = BLOCK - outputs[i].length, part = length < room ? length : room;
        memcpy(outputs[i].block + outputs[i].length, bytes, part);
        outputs[i].length += part;
        if (part == room) put_block(i);
        bytes += part;
        length -= part;
    }
}

void keep_outputs(void) {
    for (size_t i = 0; i < plan.outputs_len; i++) {
        if (outputs[i].length > 0) put_block(i);
        if (outputs[i].block != NULL) put_block(i);
    }
    for (size_t i = 0; i < plan.outputs_len - plan.numbers; i++) {
        bool kept = close(outputs[i].file) == 0;
        if (kept && outputs[i].beside != NULL) kept = rename(outputs[i].beside, outputs[i].path) == 0;
        if (!kept) fail(FAILED, "%s: %s", plan.outputs[i] == NULL ? "cannot write" : plan.outputs[i], strerror(errno));
        outputs[i].beside = NULL;
    }
}

void drop_outputs(void) {
    for (size_t i = 0; i < plan.outputs_len; i++)
        if (outputs[i].beside != NULL) unlink(outputs[i].beside);
}
