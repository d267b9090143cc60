/* Low-complexity masking of a nucleotide sequence: two calls, which differ in who fills the tables. Below, each with
 * its own slices and checks: longdust_fill_tables, which fills them alone, longdust_strand and
 * longdust_merge_strands, which mask one strand alone and join the lists of both, longdust_masked_copy, which shows a
 * mask in the letters, longdust_questions, which answers questions about a list of intervals, longdust_join_tracks,
 * which joins a list with another, longdust_strongest_stretch, which finds the best-scoring stretch at a letter,
 * longdust_strongest_stretches, which lists those of a contig, longdust_small, which masks short sequences in work
 * space of its own, and longdust_short_sequences, which masks every short sequence.
 *
 * Link dist/x86_64/liblongdust_c.a, or lib/liblongdust_c.a where it is installed (x86-64-v2; dist/aarch64 has the
 * calls for that processor). No call allocates, keeps state or reads anything but its arguments, so threads may call at once, each
 * with its own buffers. A call takes less than 16 KB of stack, longdust_strongest_stretches 64 KB, longdust_small 230 KB.
 *
 * Write n for sequence_len, k for kmer, w for window_size, and R for (n + 1) / (k + 1) rounded down.
 * Every slice is a pointer and its number of elements. The pointer is aligned as its element type asks,
 * and may be null where the length is 0 (neither masking call accepts an empty slice). A slice that a call
 * writes may overlap no other slice; those that it only reads may overlap each other. in_range points to
 * one aligned number outside all slices; it is written by every call and must not be null.
 *
 * Options, with the usual values:
 *   kmer             k-mer size, 1 to 12                                                    7
 *   window_size      k + 1 to 65,535                                                        5000
 *   score_threshold  finite and above 0; higher masks less                                  0.6
 *   gc_kind          0 uniform, 1 fixed at gc_value, 2 the sequence's own share of C and G  0
 *   gc_value         0 to 1, read only if gc_kind is 1
 *   xdrop_set        0: a backward scan is not cut short; else it is by xdrop_length        1
 *   xdrop_length     at least 1, read only if xdrop_set is not 0                            50
 *   min_start_cnt    occurrences of a k-mer that start a scan, at least 2                   3
 *   approx           not 0: only the first candidate of a scan is tried                     0
 *   forward_only     not 0: the reverse complement is not scanned                           0
 * The GC choice shapes the f table alone, so longdust_process_tables checks it and uses it no further.
 *
 * Slices and how long they must be at least; longer ones are accepted, and entries past these
 * lengths do not change:
 *   sequence                          n letters, A C G T in either case, U like T; any other letter A to Z, - and *
 *                                     are ambiguous
 *   ln                                w + 1; entry i stands for ln i
 *   f                                 w + 2; entry L is what a random stretch of L places scores
 *   queue                             w
 *   window_counts, scan_counts        4^k each
 *   candidates                        w
 *   codes, reverse_codes              n each
 *   forward_list, reverse_list, list  R each; an interval is two numbers, its start and its end
 *   marks                             R; a byte for each interval of list
 * The work slices may hold anything before a call and are left with any content.
 *
 * The result is the number of masked intervals, and list[i][0] to list[i][1] (from 0, the end not
 * included) is the i-th of them, in order, apart from each other; marks[i] says which strand saw it: 1 if
 * an interval of the forward strand joined into it, 2 if one of the reverse complement did, 3 if both (a
 * forward-only run: 1). Entries of list and marks past the last do not change. *in_range is 1 if score_threshold is
 * at most 16, ln entries 1..w lie in 0..16 and f entries 1..w in 0..1048576, else 0.
 *
 * A negative result is minus the number of the first check that the request fails; *in_range is 0
 * then, and no slice is changed:
 *    1  kmer is outside 1..12
 *    2  a letter is 128 or more
 *   13  a letter below 128 is no letter A to Z in either case, no - and no *
 *    3  n is below k + 1
 *    4  window_size is below k + 1
 *    5  window_size is above 65,535
 *    6  score_threshold is not finite or not above 0
 *    7  gc_kind is above 2, or it is 1 and gc_value is not in 0..1
 *    8  min_start_cnt is below 2
 *    9  xdrop_set is not 0 and xdrop_length is 0
 *   10  n is above 2,147,483,647
 *   11  a slice is shorter than listed
 * longdust_refusal_text gives this in words for the refusals of all calls.
 */
#ifndef LONGDUST_H
#define LONGDUST_H

#include <stddef.h>
#include <stdint.h>

#ifdef __cplusplus
extern "C" {
#endif

/* The refusals of all calls: a call returns minus one of these. */
enum longdust_refusal {
    LONGDUST_KMER_OUTSIDE = 1,
    LONGDUST_HIGH_BYTE = 2,
    LONGDUST_TOO_FEW_LETTERS = 3,
    LONGDUST_WINDOW_BELOW = 4,
    LONGDUST_WINDOW_ABOVE = 5,
    LONGDUST_BAD_THRESHOLD = 6,
    LONGDUST_BAD_GC = 7,
    LONGDUST_MIN_START_BELOW = 8,
    LONGDUST_BAD_XDROP = 9,
    LONGDUST_TOO_MANY_LETTERS = 10,
    LONGDUST_SHORT_SLICE = 11,
    LONGDUST_BAD_REPLACEMENT = 12,
    LONGDUST_OTHER_BYTE = 13,
    LONGDUST_UNUSUAL_LIST = 16,
    LONGDUST_BAD_QUESTION = 17,
    LONGDUST_NO_BUDGET = 18,
    LONGDUST_PLACE_OUTSIDE = 19,
    LONGDUST_HIGH_TABLE = 20,
    LONGDUST_OUTSIDE_PROFILE = 21,
    LONGDUST_BAD_LENGTH = 22
};

/* Writes the text of a refusal, of its number in the enum, to the front of text, without an end; 64 bytes are enough
 * for each. The result is its length, 0 if no refusal has the number; minus 11, and text is not changed, if text
 * is shorter. */
int64_t longdust_refusal_text(uint32_t number, uint8_t *text, size_t text_len);

/* A candidate of a backward scan, a place with its score: 16 bytes, the score at byte 8. */
struct longdust_forward_position {
    uint32_t pos;
    double max_score;
};

/* Masks with tables that the caller has filled, with any float bits; they are not changed. */
int64_t longdust_process_tables(
    const uint8_t *sequence, size_t sequence_len,
    size_t kmer, size_t window_size, double score_threshold,
    uint32_t gc_kind, double gc_value,
    uint32_t xdrop_set, uint32_t xdrop_length,
    uint16_t min_start_cnt, uint32_t approx, uint32_t forward_only,
    const double *ln, size_t ln_len, const double *f, size_t f_len,
    uint32_t *queue, size_t queue_len,
    uint16_t *window_counts, size_t window_counts_len,
    uint16_t *scan_counts, size_t scan_counts_len,
    struct longdust_forward_position *candidates, size_t candidates_len,
    uint8_t *codes, size_t codes_len,
    uint8_t *reverse_codes, size_t reverse_codes_len,
    uint32_t (*forward_list)[2], size_t forward_list_len,
    uint32_t (*reverse_list)[2], size_t reverse_list_len,
    uint32_t (*list)[2], size_t list_len,
    uint8_t *marks, size_t marks_len,
    uint32_t *in_range);

/* Fills ln 0..w and f 0..w+1 for the options and the sequence, then masks with them. Each ln entry 1..w is
 * within 2^-45 of the true logarithm. */
int64_t longdust_process(
    const uint8_t *sequence, size_t sequence_len,
    size_t kmer, size_t window_size, double score_threshold,
    uint32_t gc_kind, double gc_value,
    uint32_t xdrop_set, uint32_t xdrop_length,
    uint16_t min_start_cnt, uint32_t approx, uint32_t forward_only,
    double *ln, size_t ln_len, double *f, size_t f_len,
    uint32_t *queue, size_t queue_len,
    uint16_t *window_counts, size_t window_counts_len,
    uint16_t *scan_counts, size_t scan_counts_len,
    struct longdust_forward_position *candidates, size_t candidates_len,
    uint8_t *codes, size_t codes_len,
    uint8_t *reverse_codes, size_t reverse_codes_len,
    uint32_t (*forward_list)[2], size_t forward_list_len,
    uint32_t (*reverse_list)[2], size_t reverse_list_len,
    uint32_t (*list)[2], size_t list_len,
    uint8_t *marks, size_t marks_len,
    uint32_t *in_range);

/* Fills ln 0..w and f 0..w+1 as longdust_process does, for calls that read them: they are the same for all sequences,
 * and sequence may be empty, unless gc_kind is 2. Its letters are not checked, and a byte that is no base does not
 * count. codes has n entries at least and is left with any content.
 *
 * The result is 0, and *in_range is the flag of the calls that read these tables. A negative result is minus the number
 * of the first check that fails, of 1 4 5 6 7 11 above; *in_range is 0 then, and no slice is changed. */
int64_t longdust_fill_tables(
    const uint8_t *sequence, size_t sequence_len,
    size_t kmer, size_t window_size, double score_threshold,
    uint32_t gc_kind, double gc_value,
    double *ln, size_t ln_len, double *f, size_t f_len,
    uint8_t *codes, size_t codes_len,
    uint32_t *in_range);

/* Masks one strand of the sequence, the reverse complement if `reverse` is not 0, with filled tables: two threads mask
 * a long sequence, each with a strand, and longdust_merge_strands makes its mask from both lists. Options and slices
 * are those of longdust_process_tables, without those that are not here; list has R entries at least, and codes n.
 *
 * The result is the number of the strand's intervals, which stand in the front of list, in the strand's own positions:
 * of the reverse complement, letter 0 is the complement of the sequence's last. Further entries up to R are left with
 * any content. *in_range is as above. A negative result is minus the number of the first check that fails, of those
 * above; *in_range is 0 then, and no slice is changed. */
int64_t longdust_strand(
    const uint8_t *sequence, size_t sequence_len,
    size_t kmer, size_t window_size, double score_threshold,
    uint32_t gc_kind, double gc_value,
    uint32_t xdrop_set, uint32_t xdrop_length,
    uint16_t min_start_cnt, uint32_t approx, uint32_t reverse,
    const double *ln, size_t ln_len, const double *f, size_t f_len,
    uint32_t *queue, size_t queue_len,
    uint16_t *window_counts, size_t window_counts_len,
    uint16_t *scan_counts, size_t scan_counts_len,
    struct longdust_forward_position *candidates, size_t candidates_len,
    uint8_t *codes, size_t codes_len,
    uint32_t (*list)[2], size_t list_len,
    uint32_t *in_range);

/* Joins the lists of both strands of a sequence of n letters, each in its own positions, into the mask and its marks:
 * what longdust_process_tables writes for the same request; with no entry in reverse, what it writes for a forward-only
 * one.
 *   forward, reverse  of the usual kind: each entry has a letter or more, ends at n or before, and begins past the
 *                     end of the entry before it, with a letter or more between
 *   list              as many entries as both together at least
 *   marks             as many bytes at least
 * Entries past the intervals written do not change.
 *
 * The result is the number of intervals. A negative result is minus the number of the first check that the request
 * fails, and no slice is changed then:
 *   10  n is above 2,147,483,647
 *   16  forward or reverse is not of the usual kind in n letters
 *   11  list or marks is shorter than listed
 */
int64_t longdust_merge_strands(
    size_t n,
    const uint32_t (*forward)[2], size_t forward_len,
    const uint32_t (*reverse)[2], size_t reverse_len,
    uint32_t (*list)[2], size_t list_len,
    uint8_t *marks, size_t marks_len);

/* C90 has no `inline`. */
#if defined(__GNUC__)
#define LONGDUST_INLINE static __inline__
#elif defined(__cplusplus) || (defined(__STDC_VERSION__) && __STDC_VERSION__ >= 199901L)
#define LONGDUST_INLINE static inline
#else
#define LONGDUST_INLINE static
#endif

/* The same calls with their arguments in two structs, named as above: options, and slices with their lengths. */
struct longdust_options {
    size_t kmer, window_size;
    double score_threshold;
    uint32_t gc_kind;
    double gc_value;
    uint32_t xdrop_set, xdrop_length;
    uint16_t min_start_cnt;
    uint32_t approx, forward_only;
};

struct longdust_buffers {
    double *ln, *f;
    uint32_t *queue;
    uint16_t *window_counts, *scan_counts;
    struct longdust_forward_position *candidates;
    uint8_t *codes, *reverse_codes;
    uint32_t (*forward_list)[2], (*reverse_list)[2], (*list)[2];
    uint8_t *marks;
    size_t ln_len, f_len, queue_len, window_counts_len, scan_counts_len, candidates_len, codes_len, reverse_codes_len;
    size_t forward_list_len, reverse_list_len, list_len, marks_len;
};

/* longdust_process_tables. */
LONGDUST_INLINE int64_t longdust_mask(
    const struct longdust_options *o, const uint8_t *sequence, size_t sequence_len, const struct longdust_buffers *b,
    uint32_t *in_range) {
    return longdust_process_tables(
        sequence, sequence_len, o->kmer, o->window_size, o->score_threshold, o->gc_kind, o->gc_value, o->xdrop_set,
        o->xdrop_length, o->min_start_cnt, o->approx, o->forward_only, b->ln, b->ln_len, b->f, b->f_len, b->queue,
        b->queue_len, b->window_counts, b->window_counts_len, b->scan_counts, b->scan_counts_len, b->candidates,
        b->candidates_len, b->codes, b->codes_len, b->reverse_codes, b->reverse_codes_len, b->forward_list,
        b->forward_list_len, b->reverse_list, b->reverse_list_len, b->list, b->list_len, b->marks, b->marks_len,
        in_range);
}

/* longdust_process: it fills the tables. */
LONGDUST_INLINE int64_t longdust_fill_and_mask(
    const struct longdust_options *o, const uint8_t *sequence, size_t sequence_len, const struct longdust_buffers *b,
    uint32_t *in_range) {
    return longdust_process(
        sequence, sequence_len, o->kmer, o->window_size, o->score_threshold, o->gc_kind, o->gc_value, o->xdrop_set,
        o->xdrop_length, o->min_start_cnt, o->approx, o->forward_only, b->ln, b->ln_len, b->f, b->f_len, b->queue,
        b->queue_len, b->window_counts, b->window_counts_len, b->scan_counts, b->scan_counts_len, b->candidates,
        b->candidates_len, b->codes, b->codes_len, b->reverse_codes, b->reverse_codes_len, b->forward_list,
        b->forward_list_len, b->reverse_list, b->reverse_list_len, b->list, b->list_len, b->marks, b->marks_len,
        in_range);
}

/* longdust_fill_tables. */
LONGDUST_INLINE int64_t longdust_fill(
    const struct longdust_options *o, const uint8_t *sequence, size_t sequence_len, const struct longdust_buffers *b,
    uint32_t *in_range) {
    return longdust_fill_tables(
        sequence, sequence_len, o->kmer, o->window_size, o->score_threshold, o->gc_kind, o->gc_value, b->ln, b->ln_len,
        b->f, b->f_len, b->codes, b->codes_len, in_range);
}

/* longdust_strand: its list goes to `list`; forward_only is not read. */
LONGDUST_INLINE int64_t longdust_mask_strand(
    const struct longdust_options *o, const uint8_t *sequence, size_t sequence_len, uint32_t reverse,
    const struct longdust_buffers *b, uint32_t *in_range) {
    return longdust_strand(
        sequence, sequence_len, o->kmer, o->window_size, o->score_threshold, o->gc_kind, o->gc_value, o->xdrop_set,
        o->xdrop_length, o->min_start_cnt, o->approx, reverse, b->ln, b->ln_len, b->f, b->f_len, b->queue,
        b->queue_len, b->window_counts, b->window_counts_len, b->scan_counts, b->scan_counts_len, b->candidates,
        b->candidates_len, b->codes, b->codes_len, b->list, b->list_len, in_range);
}

/* Copies the sequence to the front of copy, its masked letters in lower case or replaced. Letter x is
 * masked if any entry of list holds it, list[i][0] <= x < list[i][1], so a list in any order will do.
 *   sequence     n bytes, from 0 on; any byte may stand there
 *   list         any number of entries; they may overlap or come twice, and one whose end is not above
 *                its start, or that lies past the sequence, holds no letter of it
 *   lower_case   not 0: a masked byte A to Z is shown in lower case, any other as it is
 *   replacement  'N' or 'X', shown for every masked byte if lower_case is 0, else not read
 *   copy         n at least; bytes past the first n do not change
 * It takes time in n and in the letters of the entries, those past the sequence left out.
 *
 * The result is n, the number of bytes copied. A negative result is minus the number of the first check
 * that the request fails, and copy is not changed then:
 *   12  lower_case is 0, and replacement is neither 'N' nor 'X'
 *   11  copy is shorter than the sequence
 */
int64_t longdust_masked_copy(
    const uint8_t *sequence, size_t sequence_len,
    const uint32_t (*list)[2], size_t list_len,
    uint32_t lower_case, uint8_t replacement,
    uint8_t *copy, size_t copy_len);

/* Answers a batch of questions about a list of intervals in n letters. It builds a summary first, the masked letters
 * of each 1,024, and writes one result a question, in order.
 *   n          the number of letters, from 0 on
 *   list       of the usual kind: each entry has a letter or more, ends at n or before, and begins past the end of the
 *              entry before it, with a letter or more between
 *   questions  each three numbers, kind, a and b:
 *                0  the interval nearest to letter a (b is not read)
 *                1  the intervals wholly within [a, b), the range of letters from a up to b, b not included
 *                2  the intervals with letters both inside and outside [a, b); one that holds the whole range and
 *                   more is such
 *                3  the masked share of [a, b)
 *   summary    n / 1,024 entries, rounded up, at least; entry j counts the masked letters from 1,024 j up to
 *              1,024 (j + 1), not included
 *   results    as many as questions at least; each two numbers:
 *                0  the interval's index and the letters between it and letter a, 0 when it covers a or is adjacent;
 *                   of equal distances the left one
 *                1, 2  the index of the first such interval, and how many there are
 *                3  the share in ten-thousandths, rounded down, and the remainder: share times (b - a) + remainder is
 *                   10,000 times the masked letters
 *              Where there is no such interval: 4294967295 and 0.
 * Entries past these do not change. Kinds 0, 1 and 2 take time in the logarithm of list_len; 3 takes time in the
 * blocks of the range, and in the intervals of its two end blocks. An empty batch builds the summary.
 *
 * The result is the number of questions answered, all of them. A negative result is minus the number of the first check
 * that the request fails, and no slice is changed then:
 *   10  n is above 2,147,483,647
 *   16  list is not of the usual kind in n letters
 *   11  summary or results is shorter than listed
 *   17  a kind is above 3, a letter is not below n, or a range is empty or ends past n
 */
int64_t longdust_questions(
    size_t n,
    const uint32_t (*list)[2], size_t list_len,
    const uint32_t (*questions)[3], size_t questions_len,
    uint32_t *summary, size_t summary_len,
    uint32_t (*results)[2], size_t results_len);

/* Joins a list of ours, with its marks, and a list of theirs, both in n letters: the wanted letters as a list of the
 * usual kind, touching intervals joined, and its marks beside it.
 *   kind        the wanted letters: 0 in either list, 1 in both, any other number: in ours and outside theirs
 *   n           the number of letters, from 0 on
 *   ours        of the usual kind: each entry has a letter or more, ends at n or before, and begins past the end of
 *               the entry before it, with a letter or more between
 *   marks       a byte for each entry of ours at least: 1 forward, 2 reverse, 3 both; other bits do not count
 *   theirs      of the usual kind too
 *   list        as many entries as ours and theirs together at least
 *   list_marks  as many bytes at least; an interval has the marks of those of ours that share a letter with it, and
 *               0 where it is theirs alone
 * Entries past the intervals written do not change. It takes time in the entries of both lists.
 *
 * The result is the number of intervals. A negative result is minus the number of the first check that the request
 * fails, and no slice is changed then:
 *   10  n is above 2,147,483,647
 *   16  ours or theirs is not of the usual kind in n letters
 *   11  marks, list or list_marks is shorter than listed
 */
int64_t longdust_join_tracks(
    uint32_t kind, size_t n,
    const uint32_t (*ours)[2], size_t ours_len,
    const uint8_t *marks, size_t marks_len,
    const uint32_t (*theirs)[2], size_t theirs_len,
    uint32_t (*list)[2], size_t list_len,
    uint8_t *list_marks, size_t list_marks_len);

/* The strongest stretch at a letter. Place p stands for the k letters that end at letter p; it is ambiguous
 * if one of them is missing or no A C G T U. A stretch is a run of at most w places. Its score: for each
 * k-mer found m times among its places, ln entries 1..m; minus threshold for each place; minus f entry L
 * for L places. Tables and threshold are whole numbers in units of 2^-32, and so are score and gap.
 *
 * The call reads backward from `place`, one place a step, at most `budget` steps and at most as many as
 * there are places: w, or place + 1 if that is less. Among the stretches that end at `place` and begin at a
 * place read it finds the one that scores highest, of equal ones the longest. The result is the number of
 * steps; *start is the first place of that stretch, *score its score, which may be below 0. *gap is 0 if all
 * places were read. With r places left unread it is what the score of all places read, without its f entry, plus r
 * times the part above 0 of (largest ln entry 1..w minus threshold) exceeds *score by, or 0; no stretch that begins at
 * a place left unread scores more than *score + *gap.
 *
 * Slices and how long they must be at least: sequence n letters, ln w + 1, f w + 2, codes n,
 * scan_counts 4^k. codes and scan_counts may hold anything before and are left with any content up to
 * these lengths. start, score and gap point to one aligned number each, outside all slices and apart from
 * each other; they are written by every call and must not be null.
 *
 * A negative result is minus the number of the first check that fails; the three numbers are 0 then, and no
 * slice is changed:
 *    1, 2, 13, 3, 4, 5, 10, 11  as above, in this order
 *   18  budget is 0
 *   19  place is not below n
 *   20  threshold or one of the ln entries 1..w is 2^36 or more, or one of the f entries 1..w is 2^52 or more
 */
int64_t longdust_strongest_stretch(
    const uint8_t *sequence, size_t sequence_len,
    size_t kmer, size_t window_size,
    size_t place, size_t budget, uint64_t threshold,
    const uint64_t *ln, size_t ln_len,
    const uint64_t *f, size_t f_len,
    uint8_t *codes, size_t codes_len,
    uint16_t *scan_counts, size_t scan_counts_len,
    uint64_t *start, int64_t *score, uint64_t *gap);

/* Work space of longdust_strongest_stretches, whatever it holds: places, and tiles. */
struct longdust_place {
    uint32_t entry, older;
    uint16_t order;
};

struct longdust_tile {
    size_t first, size;
    uint64_t gain, loss;
    uint8_t stale;
};

/* The strongest stretches of a contig, inside some regions. Places, stretches and scores are those of
 * longdust_strongest_stretch. The letters of a stretch of places a to b are max(0, a + 1 - k) to b. Each of them
 * must lie in a region; the regions may touch, overlap and stand in any order.
 *
 * The first entry is the highest scoring stretch of at most w places, of equal ones that with more places, then
 * that with the earlier first place. Each further entry is the same among the stretches whose letters share none
 * with those of an entry before and touch none: a letter or more lies between. The list ends when it is full, or
 * when nothing left scores above `floor`. So every stretch that scores above the last entry (in a list that is not
 * full: above the floor) shares or touches a letter of an entry that scores at least as much.
 *
 * The result is the number of entries: list[i][0] to list[i][1] (the end not included) are the letters of entry i
 * and scores[i] its score, in the order found, so scores do not rise. Entries of both past the result do not
 * change. The shorter of list and scores decides how many entries there may be.
 *
 * Slices and how long they must be at least: sequence n letters, ln w + 1, f w + 2, codes n, newest 4^k,
 * places 2 w + 4096 + k, tiles n / (w + 4096) + 1. codes, newest, places and tiles may hold anything before and are
 * left with any content up to these lengths. A call takes 64 KB of stack.
 *
 * A negative result is minus the number of the first check that fails, and no slice is changed then:
 *    1, 2, 13, 3, 4, 5, 10  as above, in this order
 *   16  a region is empty or ends past n
 *   11  a slice is shorter than listed
 *   20  threshold or one of the ln entries 1..w is 2^36 or more, or one of the f entries 1..w is 2^52 or more
 */
int64_t longdust_strongest_stretches(
    const uint8_t *sequence, size_t sequence_len,
    size_t kmer, size_t window_size, uint64_t threshold,
    const uint64_t *ln, size_t ln_len,
    const uint64_t *f, size_t f_len,
    const uint32_t (*regions)[2], size_t regions_len, uint64_t floor,
    uint8_t *codes, size_t codes_len,
    uint32_t *newest, size_t newest_len,
    struct longdust_place *places, size_t places_len,
    struct longdust_tile *tiles, size_t tiles_len,
    uint32_t (*list)[2], size_t list_len,
    int64_t *scores, size_t scores_len);

/* The small profile: masks a short sequence in work space of the call's own, on numbers and bytes alone. k is
 * up to 6, w up to 4,096, n up to 4,096, and GC is uniform; the other numbers are those of longdust_process, and
 * so are the intervals. A call needs 230 KB of stack. It fills the tables anew, as far as n letters read them (up to
 * w if the threshold is so high that n places cannot reach it), and not at all where no k-mer stands min_start_cnt
 * times in the sequence.
 *   sequence  n letters
 *   out       8 R bytes at least; each interval is two numbers of four bytes, lowest first, its start and its end
 *
 * The result is the number of intervals; bytes past the last of them do not change. A negative result is minus
 * the number of the first check that the request fails, and out is not changed then: 1 2 13 3 4 5 6 8 9 as
 * above, then
 *   21  outside the profile: k is above 6, w above 4,096 or n above 4,096
 *   11  out is shorter than 8 R bytes
 */
int64_t longdust_small(
    const uint8_t *sequence, size_t sequence_len,
    size_t kmer, size_t window_size, double score_threshold,
    uint32_t xdrop_set, uint32_t xdrop_length,
    uint16_t min_start_cnt, uint32_t approx, uint32_t forward_only,
    uint8_t *out, size_t out_len);

/* Runs every sequence of m letters over A C G T N, first letter slowest, with k = 1, w = 8, two strands and
 * the other options as usual, and counts: tallies[c] is how many have c masked letters, and *refused how many
 * the masking calls refuse with 3 for fewer than k + 1 letters: all five sequences of m = 1, none of a larger m.
 *   m        1 to 8
 *   tallies  m + 1 at least; entries past the first m + 1 do not change
 *   refused  points to a number, which is always set
 * It takes about 0.4 microseconds for each sequence (0.14 s for m = 8).
 *
 * The result is 5^m, the number of sequences, those refused among them. A negative result is minus the number
 * of the first check that the request fails; *refused is 0 then, and tallies is not changed:
 *   22  m is not 1 to 8
 *   11  tallies is shorter than m + 1
 */
int64_t longdust_short_sequences(size_t m, uint32_t *tallies, size_t tallies_len, uint32_t *refused);

#ifdef __cplusplus
}
#endif

#endif
