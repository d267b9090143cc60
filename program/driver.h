/* The driver: runs the proved program, which has one thread and reads plain FASTA, on all cores. It does no text: it
 * unpacks gzip, cuts the bytes where records begin, hands each batch to a process, a worker, and joins what they write
 * in the file's order. One thread, no lock: a batch is complete before its worker starts, and what the worker wrote is read
 * after it has ended. Both are anonymous files, but for what a limit of files does not allow. */
#ifndef DRIVER_H
#define DRIVER_H

#include <errno.h>
#include <fcntl.h>
#include <inttypes.h>
#include <signal.h>
#include <stdbool.h>
#include <stddef.h>
#include <stdint.h>
#include <stdio.h>
#include <stdlib.h>
#include <string.h>
#include <sys/mman.h>
#include <sys/stat.h>
#include <unistd.h>

/* Exit statuses, a worker's and ours; STOPPED is the worker's alone: a fault of the file, and all before it is written. */
enum { REFUSED = 1, USAGE = 2, FAILED = 3, STOPPED = 4 };

/* Bytes, but for the outputs; BATCH is the largest batch, and the build's. */
enum { MOST_OUTPUTS = 12, STRANDS = 2, CHUNK = 1 << 18, SMALLEST_BATCH = BATCH / 16, OWN_MEMORY = 4 << 20 };
enum { LONG = BATCH - BATCH / 16 }; /* the least record whose strands go to workers of their own */
enum { BLOCK = 65280, PACKED = 1 << 16 }; /* of bgzip: its text, and the most that this takes packed */

#define NAME "cisternpea" /* the first word of each command line: it has no say */

/* What the proved program makes of the command line. */
struct plan {
    uint64_t threads, memory; /* 0 if none is given */
    uint64_t window; /* letters */
    uint64_t fixed, tenths; /* bytes that a worker holds, and tenths of a byte for each byte of its input */
    bool quiet, numbers; /* the last output is numbers, which the last run reads */
    bool named; /* an output is */
    bool strands; /* both strands of a record are masked, and workers may mask them apart */
    bool standard; /* a form has no file of its own, so goes to standard output if no -o names one */
    char **words, **last; /* a worker's command line, with room for six more words; that of the last run */
    char **inputs; /* null for standard input */
    size_t words_len, last_len, inputs_len, outputs_len;
    char *outputs[MOST_OUTPUTS], *heads[MOST_OUTPUTS]; /* the main one first; null for standard output, for none */
};
extern struct plan plan;
extern const char *worker; /* the proved program's path */

/* plan.c: asks the proved program, which stands beside this one; --help and a wrong option end the program. */
void read_plan(int argc, char **argv);

/* limits.c: what the process may use, by affinity and control groups. */
void find_usable(uint64_t *cores, uint64_t *bytes);
void check_processor(void); /* that it can run the proved program */

/* signals.c. From hold_signals on, signals come by wait_ready alone. */
extern int caught, caught_times; /* the signal that asked to end, or 0 */
extern bool child_ended; /* since turn last looked; put may have seen the signal */
extern bool lull; /* nothing came in the time of the last wait */
void hold_signals(void);
void free_signals(void); /* as they were, in a worker or at the end */
bool wait_ready(int file, short events, int milliseconds); /* the file is; else a signal came, or the time is over */

/* messages.c */
double seconds(void);
void put_error(const char *bytes, size_t length); /* on standard error, in place of a line of progress */
__attribute__((format(printf, 1, 2))) void say(const char *format, ...);
#define fail(status, ...) (say(__VA_ARGS__), finish(status))
void begin_progress(void);
void show_progress(void); /* at most twice a second */
void end_progress(void);

/* outputs.c */
bool tell(const char *path, int file, struct stat *told); /* of a path, or where that is null of an open file */
void refuse_own_input(void); /* an output that is an input, or named twice */
void open_outputs(void); /* and writes their heads */
size_t put(int file, const char *bytes, size_t length); /* fewer bytes: it failed, or a signal came */
void put_output(size_t output, const char *bytes, size_t length);
extern struct batch *numbers; /* what the workers wrote of them */
void cut_output(int64_t place); /* standard output back to a place, if it is a file */
void keep_outputs(void); /* at their ends; named ones get their names */
void drop_outputs(void);

/* bgzip.c */
bool is_bgzip(const char *path); /* by its name */
size_t pack_block(const uint8_t *text, size_t length, uint8_t packed[PACKED]);

/* input.c: a file, unpacked. */
extern const char *input_name, *input_fault; /* why its end is none, or null */
extern uint64_t input_size, bytes_read; /* of all files, packed; the size as far as files tell theirs */
void find_size(void);
bool is_plain(const char *path); /* can be told without taking a byte of it, and reading it waits */
void open_input(const char *path);
size_t read_input(uint8_t *bytes, size_t room); /* 0 at the end */
void close_input(void);

/* batches.c */
struct batch;
struct part { /* a whole file in a batch of several */
    const char *source;
    uint64_t from, to; /* its bytes there */
};
void begin_file(void);
void take_bytes(const uint8_t *bytes, size_t length);
void launch_some(void); /* nothing comes: what is whole goes to an idle worker */
void end_file(bool whole); /* if not whole, the record that was read last is dropped */
void end_files(void); /* launches what is left */
struct batch *batch_of(const struct batch *batch, const struct part *part); /* a file in it, alone */

/* workers.c */
struct batch {
    struct batch *next;
    int bytes; /* an anonymous file with the input of its worker */
    char *memory; /* that input, where no file may be so long; else null */
    int input; /* where the worker reads it */
    int feeder; /* the process that writes memory there, 0 when it has ended */
    bool fed; /* it ended well, or none is needed */
    bool is_last; /* of the last run */
    const char *source; /* the file that it is a part of; if it holds several, the first */
    uint64_t offset, size; /* where it begins in the file; its bytes */
    uint64_t last; /* where its last record begins */
    uint64_t taken; /* bytes that its worker has read */
    uint64_t held; /* bytes of memory that count as used for it */
    int pid, status; /* of its worker: 0 when that has ended, -1 before it starts; as wait has it */
    int files[MOST_OUTPUTS + 1]; /* anonymous: what the worker writes; the last one is its standard error */
    char *texts[MOST_OUTPUTS + 1]; /* which are then mapped */
    size_t lengths[MOST_OUTPUTS + 1];
    struct part *parts; /* the files that it holds, if they are whole */
    size_t parts_len, parts_done; /* how many; how many were done again */
    bool again; /* its worker failed, so that it is done again: each file alone, or if there is one, directly */
    bool direct; /* its worker writes to standard output itself */
    int64_t place; /* of standard output before that */
    int numbers; /* the pipe for what such a worker counts */
    bool apart; /* its strands are masked by workers of their own, whose lists its worker then joins */
    size_t masked; /* how many of them are */
    bool starting, spoiled; /* not all of these workers are started; one of them failed */
    struct strand {
        int pid; /* of its worker: 0 when that has ended */
        int input, list; /* an anonymous file for its list */
    } strands[STRANDS];
};
extern uint64_t threads, parallel, batch_size, running; /* parallel: as many threads as there are cores for them */
void size_workers(void);
void check_memory(void); /* that there is enough for a worker */
bool reserve(struct batch *batch, uint64_t size); /* waits for memory for so many bytes; false: more than there is */
uint64_t needed(uint64_t size); /* of --memory, for a worker with so many bytes */
void launch(struct batch *batch);
void drop(struct batch *batch); /* one that is not launched */
int new_file(const char *name); /* an anonymous one */
int new_process(void); /* as fork has it, but waits for one to end if there are too many */
bool turn(int file); /* waits for a file (or none, -1), a worker or a signal, and writes what can be written */
void drain(void);
void run_last(void); /* on the numbers of all workers */
__attribute__((noreturn)) void finish(int status);

/* held.c: the bytes of a batch. */
extern uint64_t file_limit; /* of the bytes of a file, UINT64_MAX if there is none that binds */
struct batch *new_batch(const char *source, uint64_t offset);
void hold(struct batch *batch, const void *bytes, size_t length); /* behind the others */
void hold_front(struct batch *batch, uint64_t size); /* no more than that */
void hold_none(struct batch *batch);
size_t read_held(const struct batch *batch, uint64_t at, void *bytes, size_t room);
int open_file(const struct batch *batch); /* that has them, at its begin */
void give(struct batch *batch); /* as the input of a worker */
uint64_t taken(struct batch *batch); /* how many of them its worker read, which has ended */
void free_taken(struct batch *batch); /* the memory of those that its worker has read */
void end_feeder(struct batch *batch, int status);
void stop_feeder(struct batch *batch, bool at_once); /* else it ends by itself, soon */

#endif
