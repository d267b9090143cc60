/* A contig on standard input, its masked intervals on standard output, with the usual options; with
 * --marks a third column, the strand that saw the interval: + forward, - reverse, . both; with
 * --soft the contig itself, its masked letters in lower case, in lines of 60 letters.
 * Line ends (byte 10) are dropped; every other byte is a letter.
 *
 *   (cd crates/longdust_c && rt lib)
 *   cc -O2 -Iinclude examples/mask.c -o mask crates/longdust_c/out/liblongdust_c.a
 *   printf AAAAAAAAAAAAAAAAAAAA | ./mask
 *   printf AAAAAAAAAAAAAAAAAAAA | ./mask --marks
 *   printf CGCGATAAAAAAAAAAAAAAAA | ./mask --soft
 *
 * The exit status is 0, or 1 if the contig is refused, or 2 if reading, writing or memory failed, or for
 * any other argument.
 */
#include <errno.h>
#include <inttypes.h>
#include <stdio.h>
#include <stdlib.h>
#include <string.h>

#include "longdust.h"

enum { KMER = 7, WINDOW = 5000, KMERS = 1 << (2 * KMER), LINE = 60 };

static double ln[WINDOW + 1], f[WINDOW + 2];
static uint32_t queue[WINDOW];
static struct longdust_forward_position candidates[WINDOW];
static uint16_t window_counts[KMERS], scan_counts[KMERS];

/* What depends on the contig's length. */
static uint8_t *contig, *codes, *reverse_codes, *copy, *marks;
static uint32_t (*list[3])[2];

static void free_all(void) {
    free(contig);
    free(codes);
    free(reverse_codes);
    free(copy);
    free(marks);
    for (int i = 0; i < 3; i++) free(list[i]);
}

static void stop(const char *what) {
    fprintf(stderr, "%s: %s\n", what, strerror(errno));
    exit(2);
}

/* The memory, moved to where this many bytes have room; one at least, so that null means that there is none. */
static void *room(void *memory, size_t bytes) {
    void *moved = realloc(memory, bytes == 0 ? 1 : bytes);
    if (moved == NULL) stop("no memory");
    return moved;
}

/* All letters up to the end of the input, without line ends. */
static size_t read_contig(void) {
    size_t capacity = 1 << 16, n = 0;
    contig = room(NULL, capacity);
    for (int c; (c = getchar()) != EOF;) {
        if (c == '\n') continue;
        if (n == capacity) contig = room(contig, capacity *= 2);
        contig[n++] = (uint8_t)c;
    }
    if (ferror(stdin)) stop("cannot read");
    return n;
}

/* Masks the contig and answers the number of its intervals, or minus a refusal. */
static int64_t mask(size_t n) {
    size_t rows = (n + 1) / (KMER + 1);
    uint32_t in_range;
    codes = room(NULL, n);
    reverse_codes = room(NULL, n);
    for (int i = 0; i < 3; i++) list[i] = room(NULL, rows * sizeof *list[i]);
    marks = room(NULL, rows);

    int64_t count = longdust_process(
        contig, n, KMER, WINDOW, 0.6,
        0, 0.0, /* uniform GC */
        1, 50,  /* xdrop */
        3, 0, 0,
        ln, WINDOW + 1, f, WINDOW + 2, queue, WINDOW,
        window_counts, KMERS, scan_counts, KMERS,
        candidates, WINDOW, codes, n, reverse_codes, n,
        list[0], rows, list[1], rows, list[2], rows, marks, rows,
        &in_range);

    return count;
}

static void print_intervals(size_t count, int with_marks) {
    for (size_t i = 0; i < count; i++) {
        printf("%" PRIu32 "\t%" PRIu32, list[2][i][0], list[2][i][1]);
        if (with_marks) printf("\t%c", marks[i] == 1 ? '+' : marks[i] == 2 ? '-' : '.');
        putchar('\n');
    }
}

static void print_soft(size_t n, size_t count) {
    copy = room(NULL, n);
    longdust_masked_copy(contig, n, list[2], count, 1, 0, copy, n);
    for (size_t i = 0; i < n; i += LINE) {
        fwrite(copy + i, 1, n - i < LINE ? n - i : LINE, stdout);
        putchar('\n');
    }
}

int main(int argc, char **argv) {
    int soft = argc == 2 && strcmp(argv[1], "--soft") == 0;
    int with_marks = argc == 2 && strcmp(argv[1], "--marks") == 0;
    if (argc > 1 && !soft && !with_marks) {
        fputs("usage: mask [--marks | --soft] < contig\n", stderr);
        return 2;
    }
    atexit(free_all);
    size_t n = read_contig();
    int64_t count = mask(n);
    if (count < 0) {
        printf("refused %" PRId64 "\n", -count);
    } else if (soft) {
        print_soft(n, (size_t)count);
    } else {
        print_intervals((size_t)count, with_marks);
    }
    if (fflush(stdout) != 0 || ferror(stdout)) stop("cannot write");
    return count < 0;
}
