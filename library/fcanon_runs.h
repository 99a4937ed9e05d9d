/* fcanon_runs.h: fcanon's commands over collections, from memory to memory.
 *
 * A call does what the program does that reads `input` from standard input. It takes its memory by
 * malloc and gives all of it back by free before it returns; it keeps nothing between calls, and
 * calls of several threads do not meet. It reads and writes no file.
 *
 * Text is any bytes, and no 0 ends it. Pointers are not null, even for no bytes; what a call writes
 * lies apart from all else that it is given.
 *
 *   answer   meaning
 *        0   done
 *        1   no such game
 *        9   too little room; the lengths say how much is needed, and nothing else is written
 *       10   no such task
 *       11   no such format
 *       12   out of memory
 *       13   input too large
 *       14   input not read to its end; no input is known that is answered so
 *
 * After an answer other than 0 all is as it was, but for the lengths and counts after 9. */
#ifndef FCANON_RUNS_H
#define FCANON_RUNS_H

#include "fcanon.h"

#ifdef __cplusplus
extern "C" {
#endif

/* The commands, and how many they are. */
#define FCANON_TASK_SHOW 0
#define FCANON_TASK_CANON 1
#define FCANON_TASK_CHECK 2
#define FCANON_TASK_GROUP 3
#define FCANON_TASK_SHARE 4
#define FCANON_TASK_EXPAND 5
#define FCANON_TASK_UNIQUE 6
#define FCANON_TASK_TABLE 7
#define FCANON_TASK_SAME 8
#define FCANON_TASK_SYMMETRIES 9
#define FCANON_TASK_COUNT 10
#define FCANON_TASK_CLOSED 11
#define FCANON_TASKS 12

/* How a table, or the line of FCANON_TASK_COUNT or FCANON_TASK_CLOSED, is written; other tasks have
 * one format. */
#define FCANON_FORMAT_LINES 0
#define FCANON_FORMAT_HEADER 1
#define FCANON_FORMAT_JSON 2

typedef struct {
    uint32_t task;
    uint32_t format;
    uint32_t game;     /* of records without a header, as in fcanon.h */
    uint32_t any_size; /* 0: at most 65,536 records and 16 MiB; else any size */
    uint64_t seed;     /* what the hashes of boards begin with; it changes no output. Draw it by
                          chance where the input may come from somebody who means harm. */
} fcanon_request;

typedef struct {
    size_t length;  /* of the whole output, in bytes */
    size_t records; /* how many the input has; for an import, boards and refused blocks */
    size_t refused; /* how many of them are refused, and one more where FCANON_TASK_CLOSED finds a
                       flaw; the program's status is 1 where this is not 0 */
} fcanon_written;

/* Does over the input what the request says, and puts what the program prints to the front of the
 * output. */
FCANON_CALL uint32_t fcanon_run(const fcanon_request *request, const char *input, size_t input_size,
    char *output, size_t output_size, fcanon_written *written);

/* What lines of cards are that may be columns or rows: where it is not said, a note asks. Any other
 * number says nothing, too. */
#define FCANON_LINES_UNSAID 0
#define FCANON_LINES_COLUMNS 1
#define FCANON_LINES_ROWS 2

typedef struct {
    uint32_t game;  /* of the boards, as in fcanon.h */
    uint32_t lines; /* what lines are that may be columns or rows */
} fcanon_import_request;

typedef struct {
    fcanon_written written; /* of the output */
    size_t noted;           /* of the notes, in bytes */
} fcanon_imported;

/* Makes a collection of a text, as `fcanon import` does, and puts it to the front of the output. What
 * the program says of the text on standard error is put to the front of the notes. At most 16 MiB are
 * taken. */
FCANON_CALL uint32_t fcanon_import(const fcanon_import_request *request, const char *input, size_t input_size,
    char *output, size_t output_size, char *notes, size_t notes_size, fcanon_imported *imported);

#ifdef __cplusplus
}
#endif
#endif
