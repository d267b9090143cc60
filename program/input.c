#include <poll.h>
#include <zlib.h>

#include "driver.h"

const char *input_name, *input_fault;
uint64_t input_size, bytes_read;
static int file;
static uint8_t raw[CHUNK];
static z_stream z; /* its input, in raw, is what is read and not yet taken */
static bool ended, gzip, inside, cut; /* no more can be read; it is a gzip file; in a member of it, which has no end */
static gz_header header;
static uint8_t extra[3];
static bool block, empty; /* the last member is a block of bgzip; it has no bytes */

static bool is_gzip(const uint8_t *bytes) { return bytes[0] == 0x1f && bytes[1] == 0x8b; }

void find_size(void) {
    struct stat kind;
    for (size_t i = 0; i < plan.inputs_len; i++)
        if (tell(plan.inputs[i], STDIN_FILENO, &kind) && S_ISREG(kind.st_mode)) input_size += (uint64_t)kind.st_size;
}

bool is_plain(const char *path) {
    uint8_t first[2] = {0, 0};
    struct stat kind;
    int copy[2];
    bool plain = false;
    if (path == NULL && (fcntl(STDIN_FILENO, F_GETFL) & O_NONBLOCK)) return false;
    if (!tell(path, STDIN_FILENO, &kind)) return true; /* it will say so */
    if (S_ISREG(kind.st_mode)) {
        int opened = path == NULL ? dup(STDIN_FILENO) : open(path, O_RDONLY | O_CLOEXEC);
        plain = pread(opened, first, 2, path == NULL ? lseek(opened, 0, SEEK_CUR) : 0) < 0 || !is_gzip(first);
        close(opened);
    } else if (path == NULL && S_ISFIFO(kind.st_mode) && pipe(copy) == 0) { /* tee copies and leaves all in its place */
        plain = tee(STDIN_FILENO, copy[1], 2, 0) == 2 && read(copy[0], first, 2) == 2 && !is_gzip(first);
        close(copy[0]);
        close(copy[1]);
    }
    return plain;
}

/* Reads behind what is not yet taken. While it waits, workers that end are served, and idle ones get what there is. */
static void read_raw(void) {
    ssize_t got;
    memmove(raw, z.next_in, z.avail_in);
    z.next_in = raw;
    do {
        while (!turn(file))
            if (lull) launch_some();
        got = read(file, raw + z.avail_in, CHUNK - z.avail_in);
    } while (got < 0 && (errno == EINTR || errno == EAGAIN));
    if (got < 0) input_fault = strerror(errno);
    if (got <= 0) ended = true;
    else z.avail_in += (uInt)got, bytes_read += (uint64_t)got;
}

void open_input(const char *path) {
    input_name = path == NULL ? "standard input" : path;
    z = (z_stream){.next_in = raw};
    ended = gzip = inside = cut = block = empty = false;
    input_fault = NULL;
    file = path == NULL ? STDIN_FILENO : open(path, O_RDONLY | O_CLOEXEC);
    if (file < 0) input_fault = strerror(errno), ended = true;
    while (z.avail_in < 2 && !ended) read_raw();
    gzip = z.avail_in >= 2 && is_gzip(raw);
    if (gzip && inflateInit2(&z, 16 + MAX_WBITS) != Z_OK) fail(FAILED, "no memory to read gzip");
}

void close_input(void) {
    if (gzip) inflateEnd(&z);
    if (file > STDERR_FILENO) close(file);
}

/* At the border of two members: false if there is none behind it. Zero bytes may fill a file up. */
static bool next_member(void) {
    for (;; z.next_in++, z.avail_in--) {
        while (z.avail_in < 2 && !ended) read_raw();
        if (z.avail_in >= 2 && is_gzip(z.next_in)) break;
        if (z.avail_in > 0 && *z.next_in == 0) continue;
        if (z.avail_in > 0) input_fault = "bytes that are no gzip data follow its end";
        else if (input_fault == NULL && block && !empty)
            input_fault = "the file is cut short: bgzip's end block is missing";
        return false;
    }
    inflateReset(&z);
    header = (gz_header){.extra = extra, .extra_max = sizeof extra};
    inflateGetHeader(&z, &header);
    return inside = empty = true;
}

static bool is_block(void) { return header.extra != NULL && header.extra_len >= 6 && memcmp(extra, "BC\2", 3) == 0; }

/* Inflates to the bytes' end or that of the member. */
static size_t inflate_some(uint8_t *bytes, size_t room) {
    if (z.avail_in == 0) read_raw();
    if (z.avail_in == 0) {
        if (input_fault == NULL) input_fault = "the file is cut short: its gzip data have no end";
        cut = true;
        return 0;
    }
    z.next_out = bytes;
    z.avail_out = (uInt)room;
    int result = inflate(&z, Z_NO_FLUSH);
    if (z.avail_out < room) empty = false;
    if (result == Z_STREAM_END) {
        inside = false;
        block = is_block();
    } else if (result == Z_MEM_ERROR) {
        fail(FAILED, "no memory to read gzip");
    } else if (result != Z_OK && result != Z_BUF_ERROR) {
        input_fault = "its gzip data are damaged";
    }
    return room - z.avail_out;
}

size_t read_input(uint8_t *bytes, size_t room) {
    size_t length = 0, checked = 0;
    if (!gzip) {
        if (z.avail_in == 0 && !ended) read_raw();
        length = z.avail_in;
        memcpy(bytes, z.next_in, length); /* room is CHUNK */
        z.avail_in = 0;
        return length;
    }
    /* A member's check comes at its end. None of at most 64 KB, as bgzip's blocks are, is given before that; of another that is
     * cut short what came is given. */
    while (length < room && input_fault == NULL) {
        if (!inside && (room - length < 1 << 16 || !next_member())) break;
        length += inflate_some(bytes + length, room - length);
        if (!inside) checked = length;
    }
    return input_fault == NULL || (cut && !is_block()) ? length : checked;
}
