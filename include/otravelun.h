/* Otravelun for C: the executive of a weigh-price labeller over plain words.
 *
 * Five calls: read a machine file into the two tables, plan the tables, start a state from them, tick it, and complete its running
 * task with a word. Link target/staticlib/libboard.a. Each call is proved to answer the number, and to leave in every lent word, what
 * its statement in crates/board/specs/Boundary.antt says, for all words; the layout below is that statement's.
 *
 * Memory. A call keeps nothing: it reads and writes only what it is lent, and takes no heap. As the archive is built it uses less than
 * 10,000 bytes of stack. That is read from the archive's machine code and not proved; 128 bytes are allowed for the C library's memcpy,
 * memmove or memset under it.
 * A pointer must not be null, also where its length is 0; it must be aligned for its type and point at that many elements. What a
 * call writes must not overlap anything else that is lent to the same call. Nothing else is required of any argument.
 *
 * Threads and interrupts. Calls on different words may run at the same time. Calls on the same words may not: where a timer's
 * interrupt ticks the state that the main loop completes, mask it around each call.
 */
#ifndef OTRAVELUN_H
#define OTRAVELUN_H

#include <stddef.h>
#include <stdint.h>

#ifdef __cplusplus
extern "C" {
#endif

/* Sizes: tasks and connections of a machine, and the words of the tables, of a plan and of a state. */
#define OTRAVELUN_TASKS 32
#define OTRAVELUN_CONNECTIONS 64
#define OTRAVELUN_TASK_WORDS 160
#define OTRAVELUN_CONNECTION_WORDS 192
#define OTRAVELUN_PLAN_WORDS 97
#define OTRAVELUN_STATE_WORDS 614

/* An answer: kind + 256 * number + 65,536 * value. */
#define OTRAVELUN_KIND(answer) ((unsigned)((answer) % 256))
#define OTRAVELUN_NUMBER(answer) ((unsigned)((answer) / 256 % 256))
#define OTRAVELUN_VALUE(answer) ((unsigned long)((answer) / 65536))

/* Kinds, with what number and value then are. Where nothing is said they are 0. */
#define OTRAVELUN_REFUSED 0  /* number: which refusal, below; value: the place, a byte of the file, a task or a connection */
#define OTRAVELUN_RUNNING 1  /* value: the running task */
#define OTRAVELUN_IDLE 2     /* no task runs; also the answer of a fresh start that is accepted */
#define OTRAVELUN_MISSED 3   /* value: the lowest task that missed its deadline; the state is halted */
#define OTRAVELUN_ACCEPTED 4 /* the plan is accepted */
#define OTRAVELUN_READ 5     /* number: how many tasks were read; value: how many connections */

/* Numbers of a refusal. */
#define OTRAVELUN_TASK_TABLE 1       /* task words not a multiple of five, none, or over 160 */
#define OTRAVELUN_CONNECTION_TABLE 2 /* connection words not a multiple of three, or over 192 */
#define OTRAVELUN_TASK_VALUE 3       /* a task value outside its size; value: the first such task */
#define OTRAVELUN_CONNECTION_VALUE 4 /* a sender or receiver that is no task, or kind over 1; value: the first such row */
#define OTRAVELUN_UNEVEN 5           /* undelayed, and neither period divides the other; value: the first such row */
#define OTRAVELUN_CIRCLE 6           /* undelayed connections lead back to their start; value: the lowest such task */
#define OTRAVELUN_RAISED 7           /* undelayed from a less critical sender that is not enforced; value: the first such row */
#define OTRAVELUN_MULTIPLE 8         /* the common multiple of the periods is over 720,720 */
#define OTRAVELUN_LITTLE_ROOM 9      /* too few words lent for the tables, the plan or a fresh state */
#define OTRAVELUN_UNKNOWN_MARK 10    /* value: the byte of the mark */
#define OTRAVELUN_CUT_SHORT 11       /* value: the byte of the record */
#define OTRAVELUN_TOO_MANY 12        /* a 33rd task or a 65th connection; value: the byte of the mark */
#define OTRAVELUN_END_WANTED 13      /* no bytes left, or bytes after the end; value: the byte where the end was wanted */
#define OTRAVELUN_NOTHING_RUNS 14    /* completion while no task runs */
#define OTRAVELUN_HALTED 15          /* tick or completion on a halted state */
#define OTRAVELUN_OUT_OF_RANGE 16    /* a state out of range, too few words, or words that encode no state */

/* The tables, as words of 16 bits: five a task, three a connection. */
#define OTRAVELUN_TASK_WIDTH 5
#define OTRAVELUN_PERIOD 0      /* 1 to 10,000 ticks */
#define OTRAVELUN_DEADLINE 1    /* 1 to the period */
#define OTRAVELUN_COMPUTE 2     /* 1 to the deadline */
#define OTRAVELUN_CRITICALITY 3 /* 0, the most critical, to 255 */
#define OTRAVELUN_FLAG 4        /* 1: its compute time is enforced */
#define OTRAVELUN_CONNECTION_WIDTH 3
#define OTRAVELUN_SENDER 0
#define OTRAVELUN_RECEIVER 1
#define OTRAVELUN_DELAY 2 /* 0: single sample delay; 1: undelayed */

/* A plan, as words of 32 bits: where each column begins. The order is the highest priority first; the internal numbers are by task.
 * Past the last task the words are 0. */
#define OTRAVELUN_PLAN_MULTIPLE 0
#define OTRAVELUN_PLAN_ORDER 1
#define OTRAVELUN_PLAN_DEADLINES 33 /* in sixty-fourths of a tick */
#define OTRAVELUN_PLAN_CRITICALITIES 65

/* A state, as words of 32 bits. Task i's five words begin at OTRAVELUN_STATE_TASKS + 5 * i, row c's three words at
 * OTRAVELUN_STATE_CONNECTIONS + 3 * c, both as in the tables; the other columns have a word a task or a row. */
#define OTRAVELUN_STATE_TASK_COUNT 0
#define OTRAVELUN_STATE_CONNECTION_COUNT 1
#define OTRAVELUN_STATE_MULTIPLE 2
#define OTRAVELUN_STATE_CYCLE 3        /* the cycle of the next tick */
#define OTRAVELUN_STATE_TICKED 4       /* 1: there was a tick */
#define OTRAVELUN_STATE_HALTED 5       /* 1: a deadline was missed */
#define OTRAVELUN_STATE_TASKS 6
#define OTRAVELUN_STATE_CONNECTIONS 166
#define OTRAVELUN_STATE_ORDER 358
#define OTRAVELUN_STATE_PHASES 390     /* 0 idle, 1 waiting, 2 started */
#define OTRAVELUN_STATE_OUTPUTS 422    /* the word that each task completed with last */
#define OTRAVELUN_STATE_DISPATCHES 454 /* the cycle of each task's latest dispatch */
#define OTRAVELUN_STATE_BUFFERS 486
#define OTRAVELUN_STATE_INPUTS 550     /* the words that the receiver of each connection reads */

/* Reads a machine file into the tables, which are lent with at least 160 and 192 words. Answers READ, with the rows that were read at
 * the front of the tables and the words past them unchanged; or REFUSED, with both tables as they came. Only the first 643 bytes of a
 * file matter. */
uint64_t otravelun_read(const uint8_t *file, size_t file_bytes, uint16_t *tasks, size_t task_words, uint16_t *connections,
                        size_t connection_words);

/* Plans the tables. Answers ACCEPTED, with the plan in the first 97 words; or REFUSED, with zeros there. Under 97 words it answers
 * LITTLE_ROOM and writes nothing. Words past the 97 are left alone. */
uint64_t otravelun_plan(const uint16_t *tasks, size_t task_words, const uint16_t *connections, size_t connection_words,
                        uint32_t *plan, size_t plan_words);

/* Starts a state from the tables. Answers IDLE, with a fresh state in the first 614 words: all words 0, all tasks idle, no tick yet;
 * or REFUSED as the plan is, with a halted state of zeros there. Under 614 words it answers LITTLE_ROOM and writes nothing. Words past
 * the 614 are left alone. */
uint64_t otravelun_fresh(const uint16_t *tasks, size_t task_words, const uint16_t *connections, size_t connection_words,
                         uint32_t *state, size_t state_words);

/* One tick. Answers RUNNING or IDLE; MISSED, with the state halted and nothing else changed; or REFUSED (OUT_OF_RANGE, HALTED), with
 * nothing written. The words need not come from a call: words that encode no state (a phase over 2, a mark, flag or kind over 1, a
 * time over 65,535, a criticality, task number or place of the order over 255, anywhere in the 614 words) are refused OUT_OF_RANGE,
 * as are fewer than 614 words. Words past the 614 are left alone. */
uint64_t otravelun_tick(uint32_t *state, size_t state_words);

/* The running task completes with a word. Answers RUNNING or IDLE; or REFUSED (OUT_OF_RANGE, HALTED, NOTHING_RUNS), with nothing
 * written. */
uint64_t otravelun_complete(uint32_t *state, size_t state_words, uint32_t word);

#ifdef __cplusplus
}
#endif

#endif
