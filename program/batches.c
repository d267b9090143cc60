/* Cuts a file into batches: each begins where a record begins, or at the file's begin. A record longer than a batch
 * is alone in its own, and small files share one. A batch that is not launched yet is the current one. */
#include "driver.h"

enum { SHARES = 4 }; /* batches for each thread at least, so that none waits long for the last ones */
enum { TIMES = BATCH / 262144 }; /* the window in a batch at least */

static struct batch *current, *gathered; /* of the file that is read; of whole files before it, or null */
static uint8_t before; /* the byte before those that come next */
static bool missing; /* a record is too large: its bytes are counted alone */
static bool begun, blank; /* a record of the file has; all that came of it are line ends */

/* Bytes of a batch: for several threads a share of what the input has at least, but many times the window, since each
 * worker fills tables for that. */
static uint64_t wanted(void) {
    uint64_t known = input_size > bytes_read ? input_size : bytes_read, share = known / (SHARES * parallel);
    uint64_t least = plan.window * TIMES > SMALLEST_BATCH ? plan.window * TIMES : SMALLEST_BATCH;
    if (share < least) share = least;
    return threads > 1 && share < batch_size ? share : batch_size;
}

static void copy_bytes(struct batch *to, const struct batch *batch, uint64_t from, uint64_t end) {
    uint8_t bytes[1 << 16];
    for (uint64_t at = from; at < end;) {
        size_t length = read_held(batch, at, bytes, end - at < sizeof bytes ? end - at : sizeof bytes);
        hold(to, bytes, length);
        at += length;
    }
}

struct batch *batch_of(const struct batch *batch, const struct part *part) {
    struct batch *alone = new_batch(part->source, 0);
    copy_bytes(alone, batch, part->from, part->to);
    return alone;
}

static bool launch_gathered(void) {
    struct batch *batch = gathered;
    gathered = NULL;
    if (batch != NULL) launch(batch);
    return batch != NULL;
}

static void launch_behind(struct batch *batch) {
    launch_gathered();
    launch(batch);
}

/* Launches what is before a place, and goes on with what is from there on. */
static void launch_to(uint64_t place) {
    struct batch *front = current;
    current = new_batch(front->source, front->offset + place);
    copy_bytes(current, front, place, front->size);
    hold_front(front, place);
    launch_behind(front);
}

/* Whether there is memory for so many bytes of the current one. */
static bool fits(uint64_t size) { return reserve(current, size) || (launch_gathered() && reserve(current, size)); }

/* A record that does not fit is read to its end, only to say how much it would take. */
static void append_part(const uint8_t *bytes, size_t length) {
    if (!missing && !fits(current->size + length)) {
        if (current->last > 0 && current->last <= current->size) launch_to(current->last);
        missing = !reserve(current, current->size + length);
    }
    if (missing) current->size += length;
    else hold(current, bytes, length);
}

/* In two parts, if the last record begins in these bytes: so the batch can be cut there when memory ends. */
static void append(const uint8_t *bytes, size_t length) {
    size_t front = current->last > current->size ? (size_t)(current->last - current->size) : 0;
    if (front > 0) append_part(bytes, front);
    append_part(bytes + front, length - front);
}

static void end_missing(void) {
    if (!missing) return;
    drain();
    fail(FAILED, "%s: byte %" PRIu64 ": the record does not fit --memory %" PRIu64 "; it must be %" PRIu64 " or more",
         input_name, current->offset, plan.memory, needed(current->size));
}

/* The next place from i on where a line begins with >; length if there is none. */
static size_t find_start(const uint8_t *bytes, size_t i, size_t length) {
    for (; i < length; i++) {
        const uint8_t *found = memchr(bytes + i, '>', length - i);
        if (found == NULL) return length;
        i = (size_t)(found - bytes);
        if ((i == 0 ? before : bytes[i - 1]) == '\n') return i;
    }
    return length;
}

void begin_file(void) {
    current = new_batch(input_name, 0);
    before = '\n';
    begun = false;
    blank = true;
}

static bool are_line_ends(const uint8_t *bytes, size_t length) {
    for (size_t i = 0; i < length; i++)
        if (bytes[i] != '\n' && bytes[i] != '\r') return false;
    return true;
}

void take_bytes(const uint8_t *bytes, size_t length) {
    size_t done = 0;
    for (size_t i = find_start(bytes, 0, length); i < length; i = find_start(bytes, i + 1, length)) {
        uint64_t here = current->size + (i - done);
        if (!missing && (here < wanted() || !begun)) {
            current->last = begun ? here : 0; /* line ends before the first one are its own: they alone are no batch */
            begun = true;
            continue;
        }
        append(bytes + done, i - done);
        done = i;
        end_missing();
        launch_to(current->size);
    }
    append(bytes + done, length - done);
    before = bytes[length - 1];
    blank = blank && are_line_ends(bytes, length);
    if (current->last > 0 && current->size - current->last > wanted()) launch_to(current->last);
    /* No FASTA: a worker says what it is. */
    if (!begun && !blank && !missing && current->size > batch_size) launch_to(current->size);
}

void launch_some(void) {
    if (running > 0 || launch_gathered()) return;
    if (current != NULL && !missing && current->last > 0) launch_to(current->last);
}

/* Whether the current one is a file that is whole and small, and opens a record with its first byte: so it may stand
 * behind another. A first line without an end may be a file whose lines end in CR, which a worker says of it alone. */
static bool is_small(void) {
    uint8_t front[1 << 16];
    if (current->offset > 0 || current->size >= LONG || current->size >= wanted()) return false;
    size_t length = read_held(current, 0, front, sizeof front);
    return length > 0 && front[0] == '>' && memchr(front, '\n', length) != NULL;
}

/* Notes that the batch ends with this file. */
static void add_part(struct batch *batch, const char *source, uint64_t from) {
    if ((batch->parts_len & (batch->parts_len - 1)) == 0) { /* so it grows to twice as many */
        batch->parts = realloc(batch->parts, (2 * batch->parts_len + 1) * sizeof *batch->parts);
        if (batch->parts == NULL) fail(FAILED, "no memory for a batch");
    }
    batch->parts[batch->parts_len++] = (struct part){source, from, batch->size};
}

/* Puts the current one behind other small files. A line end that its last line lacks is no line more. */
static void gather(void) {
    uint64_t from = 0;
    if (gathered != NULL && gathered->size + current->size + 1 >= wanted()) launch_gathered();
    if (gathered == NULL) {
        gathered = current;
    } else {
        from = gathered->size;
        copy_bytes(gathered, current, 0, current->size);
        gathered->last = from + current->last;
    }
    add_part(gathered, current->source, from);
    if (before != '\n') hold(gathered, "\n", 1);
    if (gathered != current) drop(current);
    reserve(gathered, gathered->size);
}

/* An empty file is given to a worker, too. */
void end_file(bool whole) {
    if (whole) end_missing();
    missing = false;
    if (!whole) hold_front(current, current->last);
    if (whole && is_small()) gather();
    else if (current->size > 0 || (whole && current->offset == 0)) launch_behind(current);
    else launch_gathered();
    current = NULL;
}

void end_files(void) { launch_gathered(); }
