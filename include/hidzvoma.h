/* Hidzvoma's entries for C and C++: the deadlocks that another timing of a recording's tasks would reach.
 * Link target/staticlib/libhidzvoma.a, which `tools/build library hidzvoma` proves and writes for x86-64 Linux
 * (processors of x86-64-v2, with SSE4.2); it needs memcpy and memset of the C library and nothing else.
 * examples/linker.c is a program that does so.
 *
 * A recording is a header of two bytes, the format, 1, in 4 bits and the number of events, 0 to 4,095, in 12,
 * and then two bytes for each event: operation in 2 bits (0 read, 1 write, 2 acquire, 3 release), task in 4,
 * object in 10: the lock (0 to 63) or the variable (0 to 1,023); 64 to 79 make an acquire a start and a
 * release a join (below). The most significant bit comes first. Events are numbered from 1.
 *
 * A task may acquire a lock again that it holds. Its depth in the lock is then one more, each release takes
 * one off, and it holds the lock until depth 0. Only the acquire from depth 0 and the release to depth 0, the
 * outer ones, count as acquire and release; an inner one is an event of its task like any other. So a pattern
 * names outer acquires only, also where a lock is taken again behind them: put a guard there, and lend no
 * pattern with an inner one (10). 5 is not given for a lock that the task itself holds: a caller that wants
 * tasks to take each lock once looks for that itself.
 *
 * Operation 2 with an object from 64 to 79 is a start of the task object - 64, and operation 3 with such an
 * object a join of that task: the wait for its end. Neither takes or releases a lock. A task is started by
 * another one, at most once and before all its events (15); it is joined by another one, and has no event
 * after that (16). It may be joined without a start, and more than once. Every timing keeps to this, so no
 * pattern is listed whose events a start or a join parts: record all of them, or patterns are listed that no
 * timing reaches. A caller that reads events looks at the object before it takes operation 2 for an acquire
 * or 3 for a release, and lends no pattern with a start (10). 4 is given from 80 on only: a caller whose
 * locks have numbers from 64 to 79 numbers them anew.
 *
 * A deadlock pattern is a list of 2 to 16 outer acquires by different tasks of different locks. The lock of
 * each is held at the next one, the last one's at the first, and no lock is held at two of them; the smallest
 * event comes first. In bytes every number takes two, the high byte first.
 *
 * Every call ends, whatever the bytes. It keeps no state and none of its arguments: all bytes stay the
 * caller's, and calls may run in several threads at once. While a call runs, nothing else writes the bytes
 * that it is lent, and nothing else reads `out`.
 *
 * Each pointer points to as many bytes as the length behind it says, and is not null even where that is 0.
 * `out` overlaps no other argument; `recording` and `pattern`, which are only read, may overlap. None of this
 * is checked, nor is the stack: hidzvoma_list takes up to 170 KB of it and hidzvoma_verdict up to 80 KB. That
 * is little of the usual 8 MB, but a thread may have been given less.
 *
 * Each call returns one number n, which is odd exactly where the call is refused. Then it is
 * 2 * (65536 * refusal + event) + 1, so the refusal is n / 131072 and the event n / 2 % 65536. The refusal is
 * the number of the first question, in this order, that is answered "no":
 *
 *     1   are there at least two bytes?
 *     2   is the format 1?
 *     3   is the length exactly 2 + 2 * (number of events)?
 *     4   is the object of operation 2 or 3 at most 79?
 *     5   is the lock of an acquire held by no other task?
 *     6   is the lock of a release held by that task?
 *     7   does a read have an earlier write of its variable?
 *    15   is the task of a start another one, not started or joined before, and without earlier events?
 *    16   is the task of a join another one, and the task of the event not joined before?
 *     8   is `largest` 0, or 2 to 16? (0 stands for 16)                             (hidzvoma_list)
 *    10   is `pattern` a deadlock pattern of this recording, smallest event first?  (hidzvoma_verdict)
 *    13   does the whole listing fit `out_len` bytes?                               (hidzvoma_list)
 *
 * 4 to 7, 15 and 16 are put event by event, and the earliest event with a "no" decides; that event is the
 * refusal's, and it is 0 for the other questions. 9, 11, 12 and 14 are questions of other calls. */
#ifndef HIDZVOMA_H
#define HIDZVOMA_H

#include <stddef.h>
#include <stdint.h>

#ifdef __cplusplus
extern "C" {
#endif

/* Lists every deadlock pattern of at most `largest` events whose verdict is deadlock, once, smaller first by
 * the first event number that differs. 0 stands for 16, which no pattern exceeds, so a call with 0 lists
 * patterns of all sizes. Each is an entry in `out`, one behind the other: its size, and then its events, so
 * 2 * (k + 1) bytes for k events.
 *
 * A caller that wants pairs alone passes 2; with 0 it reads the size of each entry, which need not be 2. All
 * sizes can need far more bytes than pairs do (13 where `out` is too short for them), and far more time:
 * minutes for some recordings of thousands of events whose pairs take milliseconds.
 *
 * Returns how many bytes it has written, always even, or a refusal, 1 to 8, 13, 15 or 16. The bytes of `out`
 * behind the written ones are unchanged; with a refusal all of them are. */
uint64_t hidzvoma_list(const uint8_t *recording, size_t recording_len, uint64_t largest, uint8_t *out,
                       size_t out_len);

/* Decides on one deadlock pattern: its events, as they stand in an entry behind the size.
 *
 * Returns 2 for deadlock (another timing reaches it with every lock taken in the recorded order), 0 for not,
 * or a refusal, 1 to 7, 10, 15 or 16. */
uint64_t hidzvoma_verdict(const uint8_t *recording, size_t recording_len, const uint8_t *pattern,
                          size_t pattern_len);

/* The refusal in a returned number, or 0 where the call was not refused. */
static inline unsigned hidzvoma_refusal(uint64_t n) {
    return n % 2 == 1 ? (unsigned)(n / 131072) : 0;
}

/* The event of the refusal in a returned number, or 0. */
static inline unsigned hidzvoma_event(uint64_t n) {
    return n % 2 == 1 ? (unsigned)(n / 2 % 65536) : 0;
}

#ifdef __cplusplus
}
#endif

#endif
