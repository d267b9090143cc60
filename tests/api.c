/* Every call of longdust.h by its address, at a type written out here: a changed prototype fails to compile, with
 * -Werror. Each is then made once, with a request that the header refuses with the number beside it; what is not
 * answered so is printed, and the exit status is 1.
 */
#include <inttypes.h>
#include <stddef.h>
#include <stdio.h>

#include "longdust.h"

typedef struct longdust_forward_position candidate;
typedef uint32_t pair[2];
typedef uint32_t question[3];

static int64_t (*const process_tables)(const uint8_t *, size_t, size_t, size_t, double, uint32_t, double, uint32_t,
                                       uint32_t, uint16_t, uint32_t, uint32_t, const double *, size_t, const double *,
                                       size_t, uint32_t *, size_t, uint16_t *, size_t, uint16_t *, size_t, candidate *,
                                       size_t, uint8_t *, size_t, uint8_t *, size_t, pair *, size_t, pair *, size_t,
                                       pair *, size_t, uint8_t *, size_t, uint32_t *) = longdust_process_tables;
static int64_t (*const process)(const uint8_t *, size_t, size_t, size_t, double, uint32_t, double, uint32_t, uint32_t,
                                uint16_t, uint32_t, uint32_t, double *, size_t, double *, size_t, uint32_t *, size_t,
                                uint16_t *, size_t, uint16_t *, size_t, candidate *, size_t, uint8_t *, size_t,
                                uint8_t *, size_t, pair *, size_t, pair *, size_t, pair *, size_t, uint8_t *, size_t,
                                uint32_t *) = longdust_process;
static int64_t (*const fill_tables)(const uint8_t *, size_t, size_t, size_t, double, uint32_t, double, double *, size_t,
                                    double *, size_t, uint8_t *, size_t, uint32_t *) = longdust_fill_tables;
static int64_t (*const strand)(const uint8_t *, size_t, size_t, size_t, double, uint32_t, double, uint32_t, uint32_t,
                               uint16_t, uint32_t, uint32_t, const double *, size_t, const double *, size_t, uint32_t *,
                               size_t, uint16_t *, size_t, uint16_t *, size_t, candidate *, size_t, uint8_t *, size_t,
                               pair *, size_t, uint32_t *) = longdust_strand;
static int64_t (*const merge_strands)(size_t, const pair *, size_t, const pair *, size_t, pair *, size_t, uint8_t *,
                                      size_t) = longdust_merge_strands;
static int64_t (*const refusal_text)(uint32_t, uint8_t *, size_t) = longdust_refusal_text;
static int64_t (*const masked_copy)(const uint8_t *, size_t, const pair *, size_t, uint32_t, uint8_t, uint8_t *,
                                    size_t) = longdust_masked_copy;
static int64_t (*const questions)(size_t, const pair *, size_t, const question *, size_t, uint32_t *, size_t, pair *,
                                  size_t) = longdust_questions;
static int64_t (*const join_tracks)(uint32_t, size_t, const pair *, size_t, const uint8_t *, size_t, const pair *,
                                    size_t, pair *, size_t, uint8_t *, size_t) = longdust_join_tracks;
static int64_t (*const strongest_stretch)(const uint8_t *, size_t, size_t, size_t, size_t, size_t, uint64_t,
                                          const uint64_t *, size_t, const uint64_t *, size_t, uint8_t *, size_t,
                                          uint16_t *, size_t, uint64_t *, int64_t *,
                                          uint64_t *) = longdust_strongest_stretch;
static int64_t (*const strongest_stretches)(const uint8_t *, size_t, size_t, size_t, uint64_t, const uint64_t *, size_t,
                                            const uint64_t *, size_t, const pair *, size_t, uint64_t, uint8_t *, size_t,
                                            uint32_t *, size_t, struct longdust_place *, size_t, struct longdust_tile *,
                                            size_t, pair *, size_t, int64_t *, size_t) = longdust_strongest_stretches;
static int64_t (*const small)(const uint8_t *, size_t, size_t, size_t, double, uint32_t, uint32_t, uint16_t, uint32_t,
                              uint32_t, uint8_t *, size_t) = longdust_small;
static int64_t (*const short_sequences)(size_t, uint32_t *, size_t, uint32_t *) = longdust_short_sequences;

static int wrong;

/* Holds an answer, or a number of the header, to what it must be. */
static void is(const char *name, int64_t got, int64_t want) {
    if (got == want) return;
    printf("%s: %" PRId64 ", not %" PRId64 "\n", name, got, want);
    wrong = 1;
}

int main(void) {
    const uint8_t letters[] = "ACGTACGT";
    const size_t most = 2147483647;
    uint32_t flag = 1, refused = 1;
    uint64_t start = 1, gap = 1;
    int64_t score = 1;

    is("the size of a candidate", sizeof(candidate), 16);
    is("the byte of its score", offsetof(candidate, max_score), 8);
    is("longdust_process_tables, k = 0",
       process_tables(letters, 8, 0, 5000, 0.6, 0, 0, 1, 50, 3, 0, 0, NULL, 0, NULL, 0, NULL, 0, NULL, 0, NULL, 0, NULL,
                      0, NULL, 0, NULL, 0, NULL, 0, NULL, 0, NULL, 0, NULL, 0, &flag),
       -1);
    is("its flag", flag, 0);
    is("longdust_process, short slices",
       process(letters, 8, 7, 5000, 0.6, 0, 0, 1, 50, 3, 0, 0, NULL, 0, NULL, 0, NULL, 0, NULL, 0, NULL, 0, NULL, 0,
               NULL, 0, NULL, 0, NULL, 0, NULL, 0, NULL, 0, NULL, 0, &flag),
       -11);
    flag = 1;
    is("longdust_fill_tables, GC of kind 3", fill_tables(NULL, 0, 7, 5000, 0.6, 3, 0, NULL, 0, NULL, 0, NULL, 0, &flag),
       -LONGDUST_BAD_GC);
    is("its flag", flag, 0);
    flag = 1;
    is("longdust_strand, w = k",
       strand(letters, 8, 7, 7, 0.6, 0, 0, 1, 50, 3, 0, 0, NULL, 0, NULL, 0, NULL, 0, NULL, 0, NULL, 0, NULL, 0, NULL,
              0, NULL, 0, &flag),
       -LONGDUST_WINDOW_BELOW);
    is("its flag", flag, 0);
    is("longdust_merge_strands, too many letters", merge_strands(most + 1, NULL, 0, NULL, 0, NULL, 0, NULL, 0),
       -LONGDUST_TOO_MANY_LETTERS);
    is("longdust_refusal_text, 14, which no call has", refusal_text(14, NULL, 0), 0);
    is("longdust_refusal_text, no room", refusal_text(LONGDUST_SHORT_SLICE, NULL, 0), -LONGDUST_SHORT_SLICE);
    is("longdust_masked_copy, Y", masked_copy(letters, 8, NULL, 0, 0, 'Y', NULL, 0), -12);
    is("longdust_questions, too many letters", questions(most + 1, NULL, 0, NULL, 0, NULL, 0, NULL, 0), -10);
    is("longdust_join_tracks, too many letters", join_tracks(0, most + 1, NULL, 0, NULL, 0, NULL, 0, NULL, 0, NULL, 0),
       -10);
    is("longdust_strongest_stretch, w = k",
       strongest_stretch(letters, 8, 7, 7, 0, 1, 1, NULL, 0, NULL, 0, NULL, 0, NULL, 0, &start, &score, &gap), -4);
    is("its three numbers", start == 0 && score == 0 && gap == 0, 1);
    is("the size of a place", sizeof(struct longdust_place), 12);
    is("the size of a tile", sizeof(struct longdust_tile), 40);
    is("longdust_strongest_stretches, w = k",
       strongest_stretches(letters, 8, 7, 7, 1, NULL, 0, NULL, 0, NULL, 0, 0, NULL, 0, NULL, 0, NULL, 0, NULL, 0, NULL,
                           0, NULL, 0),
       -4);
    is("longdust_small, k = 7", small(letters, 8, 7, 200, 0.6, 1, 50, 3, 0, 0, NULL, 0), -21);
    is("longdust_short_sequences, m = 9", short_sequences(9, NULL, 0, &refused), -22);
    is("its number of refused ones", refused, 0);
    return wrong;
}
