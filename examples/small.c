/* Probes on standard input, one a line; for each a line with its masked intervals, start-end, counted from 0,
 * the end not included: the small profile in a page. k = 6, w = 200, the other options as usual.
 *
 *   (cd crates/longdust_c && rt lib)
 *   cc -O2 -Iinclude examples/small.c -o small crates/longdust_c/out/liblongdust_c.a
 *   printf 'ACGATAAAAAAAAAAAAAAAAGC\n' | ./small
 *
 * The exit status is 0, or 1 if a probe is refused or longer than 4,096 letters, or 2 if reading or writing failed.
 */
#include <inttypes.h>
#include <stdio.h>
#include <string.h>

#include "longdust.h"

enum { KMER = 6, WINDOW = 200, MOST = 4096, PAIRS = (MOST + 1) / (KMER + 1) };

/* Four bytes, lowest first. */
static uint32_t number(const uint8_t *bytes) {
    return bytes[0] | (uint32_t)bytes[1] << 8 | (uint32_t)bytes[2] << 16 | (uint32_t)bytes[3] << 24;
}

/* Prints the mask of a probe; 0, or 1 if it is refused. */
static int mask(const char *probe, size_t n) {
    uint8_t out[8 * PAIRS];
    int64_t count = longdust_small((const uint8_t *)probe, n, KMER, WINDOW, 0.6, 1, 50, 3, 0, 0, out, sizeof out);
    if (count < 0) {
        printf("refused %" PRId64 "\n", -count);
        return 1;
    }
    for (int64_t i = 0; i < count; i++)
        printf("%s%" PRIu32 "-%" PRIu32, i == 0 ? "" : " ", number(out + 8 * i), number(out + 8 * i + 4));
    putchar('\n');
    return 0;
}

int main(void) {
    char probe[MOST + 2];
    int refused = 0;
    while (fgets(probe, sizeof probe, stdin) != NULL) {
        size_t n = strcspn(probe, "\n");
        if (n > MOST) {
            fputs("a line has more than 4096 letters\n", stderr);
            return 1;
        }
        refused |= mask(probe, n);
    }
    return ferror(stdin) || fflush(stdout) != 0 ? 2 : refused;
}
