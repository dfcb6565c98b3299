/* The proved judge of sequential consistency, as a library.
 *
 * tardis_check and tardis_check_operations judge what cores did by the times that they logged. tardis_search_operations
 * needs no times, and looks for an order.
 *
 * docs/FORMATS.md describes the logs of a set. All of them stand in one array, one after another, with nothing between
 * them. There are as many cores as ends. The log of core k ends at ends[k], and begins where the log before it ends. So
 * ends[0] is the length of the log of core 0, and the last end is the length of the array.
 *
 * Each function answers a status and puts the rest into *out. A field that an answer doesn't use is 0:
 *
 *   TARDIS_YES         the operations are sequentially consistent
 *   TARDIS_NO          of a check: an operation breaks a rule. Of a search: no order exists
 *   TARDIS_REFUSED     number, and where: see each function
 *   TARDIS_BAD_COUNT   number 6: there are fewer than 1 or more than 64 logs
 *   TARDIS_NO_ANSWER   number 10: malloc or realloc gave no memory. number 44: the search gave up
 *   TARDIS_BAD_ENDS    number 0: an end is less than the one before it, or the last isn't the length of the array
 *
 * The first five are the exit statuses of the commands `tardis check` and `tardis search`.
 *
 * The caller has to see to it that
 *
 *   - no pointer is null, even if its length is 0, and each array takes less than 2^63 bytes
 *   - nobody writes the array, the ends, the buffer or *out during the call, and neither the buffer nor *out overlaps another
 *   - malloc, realloc and free are one allocator's, and align to 16
 *   - the call isn't made in a signal handler, nor in a forked child of a program with threads
 *
 * A call keeps nothing for the next one, starts no thread and reads no file. Several threads may call at once, each with
 * an *out of its own.
 */
#ifndef TARDIS_H
#define TARDIS_H

#include <stddef.h>
#include <stdint.h>

#ifdef __cplusplus
extern "C" {
#endif

enum {
    TARDIS_YES = 0,
    TARDIS_NO = 1,
    TARDIS_REFUSED = 2,
    TARDIS_BAD_COUNT = 3,
    TARDIS_NO_ANSWER = 4,
    TARDIS_BAD_ENDS = 5
};

/* The rules, as the command writes them: CORE-ORDER, PROGRAM, SOURCE, VALUE. */
enum { TARDIS_CORE_ORDER = 1, TARDIS_PROGRAM = 2, TARDIS_SOURCE = 3, TARDIS_VALUE = 4 };

typedef struct TardisVerdict {
    uint64_t count;  /* after TARDIS_YES: how many operations there are */
    uint64_t core;   /* after TARDIS_NO: the core of the first operation that breaks a rule, and its index, */
    uint64_t index;  /* .. both counted from 0. After TARDIS_REFUSED of operations: those of the one that isn't valid */
    uint64_t file;   /* after TARDIS_REFUSED of text: the log that has a fault, counted from 0 */
    uint64_t line;   /* .. and its line, counted from 1 */
    uint32_t rule;   /* after TARDIS_NO: which rule */
    uint32_t number; /* after a refusal: its number in docs/FORMATS.md */
} TardisVerdict;

/* Judges logs as text. After TARDIS_REFUSED, file is the first log with a fault, line the line of its first fault, and
 * number that fault's, 20 to 27. The call takes 1.3 MB and 65 kB a core from malloc, and frees them. */
uint8_t tardis_check(const uint8_t *bytes, size_t bytes_len, const size_t *ends, size_t ends_len, TardisVerdict *out);

/* One operation. It has the fields of a record's line. */
typedef struct TardisOperation {
    uint64_t value;        /* the word that was loaded or stored; of a swap the one that it stored */
    uint64_t read;         /* of a swap: the word that it read. Otherwise anything */
    uint64_t ts;           /* when it took place, 0 to 2^48 */
    uint32_t rank;         /* its order among those of its stamp */
    uint32_t source_index; /* of a load or a swap: the index of the store that it read, up to 1,048,575, */
    uint64_t addr;         /* the address of the word, 0 to 65,535 */
    uint8_t kind;          /* TARDIS_LOAD, TARDIS_STORE or TARDIS_SWAP */
    uint8_t source_core;   /* .. and its core, 0 to 63; TARDIS_INITIAL if it read the initial 0 */
} TardisOperation;

enum { TARDIS_LOAD = 0, TARDIS_STORE = 1, TARDIS_SWAP = 2, TARDIS_INITIAL = 255 };

/* Judges operations in numbers, those of each core in program order. After TARDIS_REFUSED, core and index name an operation:
 * number is 22 if it is the first with a field out of range, 23 if its core has more than 1,048,576 operations. The call
 * takes 1.3 MB from malloc, and frees them. */
uint8_t tardis_check_operations(const TardisOperation *operations, size_t operations_len, const size_t *ends,
                                size_t ends_len, TardisVerdict *out);

/* One operation without a time: a line of a trace. */
typedef struct TardisAccess {
    uint64_t addr;  /* the address of the word */
    uint64_t value; /* the word that was loaded or stored; of a swap the one that it stored */
    uint64_t read;  /* of a swap: the word that it read. Otherwise anything */
    uint8_t kind;   /* TARDIS_LOAD, TARDIS_STORE or TARDIS_SWAP */
} TardisAccess;

typedef struct TardisFinding {
    uint64_t length; /* after TARDIS_YES and TARDIS_NO: how many bytes the text has that shows the answer */
    uint64_t core;   /* after TARDIS_REFUSED: the core and the index of the operation that isn't valid */
    uint64_t index;
    uint32_t number; /* after a refusal: its number */
} TardisFinding;

/* Looks for an order of operations without times, those of each core in program order. It makes at most budget steps; the
 * command `tardis search` makes 100,000,000. The answer depends only on the operations and the budget.
 *
 * The text that shows the answer is an order after TARDIS_YES (docs/FORMATS.md), and a refutation after TARDIS_NO
 * (docs/SEARCH.md). The command `tardis confirm` takes either. If out->length is at most text_len, the text stands at the
 * front of the buffer, without a 0 after it. If it is more, the buffer is too small and stays as it was: the answer holds,
 * and out->length tells how much room the text needs. text_len may be 0. After any other status the buffer is as it was.
 *
 * After TARDIS_REFUSED, core and index name an operation: number is 22 if it is the first whose kind isn't valid, 23 if its
 * core has more than 1,048,576 operations. The call takes as much memory from malloc as `tardis search` does, and that of
 * the text, and frees all of it. */
uint8_t tardis_search_operations(const TardisAccess *operations, size_t operations_len, const size_t *ends,
                                 size_t ends_len, uint64_t budget, uint8_t *text, size_t text_len,
                                 TardisFinding *out);

#ifdef __cplusplus
}
#endif
#endif
