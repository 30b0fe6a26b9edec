/* sgt: the proved auditor of logs and of histories, for C. docs/EMBED.md says how to link it, docs/FORMAT.md has the texts and their
 * faults.
 *
 * Memory: a call reads `len` bytes at `bytes`, writes what its pointers lead to, and keeps none of them when it returns. What it
 * needs beside them it takes by malloc, realloc and free, and has given back when it returns. No pointer may be NULL, also where
 * `len` or `room` is 0; `verdict` and `text_len` stand where C puts such values; and what a call writes overlaps nothing else that
 * it is given. `len` counts no 0 byte behind the text. None of this is checked.
 *
 * Threads: no call has memory of its own between calls, so calls may run side by side, each with its own `verdict`, `out` and
 * `text_len`; the bytes may be shared while nobody writes them. Not from a signal handler, nor in a forked child of a process with
 * threads.
 *
 * Ends: each call returns one of the numbers below, for any bytes. None aborts or prints. */
#ifndef SGT_H
#define SGT_H

#include <stddef.h>
#include <stdint.h>

#ifdef __cplusplus
extern "C" {
#endif

/* What a call returns: where the program `sgt` has an exit status for it, that one. */
#define SGT_YES 0    /* the bytes spell a valid bundle; sgt_certify: one was made; sgt_check: the history is serializable */
#define SGT_NO 1     /* they spell none: they have a fault; sgt_certify: none was made; sgt_check: it isn't */
#define SGT_UNREADABLE 2 /* sgt_check alone: a line of the history can't be read */
#define SGT_MEMORY 3 /* no answer: malloc refused */
#define SGT_LONG 4   /* no answer: too many reads. Proved: only of 4294967295 bytes or more. A read is of up to 65536 */
#define SGT_ROOM 5   /* no text was written: it is longer than `room` */

/* The version of these calls and numbers: of what this header declares. It changes where a caller has to. */
#define SGT_VERSION 1

/* The verdict on some bytes. */
typedef struct sgt_verdict {
    uint32_t kind;      /* what the call returned */
    uint32_t fault;     /* with SGT_NO the fault's number, 1 to 19 (F1 to F19 of docs/FORMAT.md), else 0 */
    uint64_t line;      /* with SGT_NO the first line with a fault, counted from 1, else 0 */
    uint64_t committed; /* with SGT_YES how many decisions commit, else 0 */
    uint64_t refused;   /* with SGT_YES how many refuse, else 0 */
    uint64_t withdrawn; /* with SGT_YES how many withdraw, else 0 */
} sgt_verdict;

/* The version that the library was built with: SGT_VERSION, where this header fits it. */
uint32_t sgt_version(void);

/* Audits the `len` bytes at `bytes`. Returns SGT_YES, SGT_NO, SGT_MEMORY or SGT_LONG, and sets each field of `*verdict`, whatever it
 * held.
 *
 * SGT_YES says: the bytes spell site logs and a certificate such that running the committed transactions alone, one after another by
 * rank, gives every read value and final value recorded for them, conflicting operations stand in rank order at every site, and each
 * refused transaction lies on a cycle of logged conflicts with transactions certified before it. */
uint32_t sgt_audit(const uint8_t *bytes, size_t len, sgt_verdict *verdict);

/* How long the text is that `sgt_serial` writes of these bytes: sets `*text_len`. Returns what `sgt_serial` returns with that much
 * room. Without an answer `*text_len` is 0. It does the whole work of `sgt_serial`, so where a guess of the room is good, call that at
 * once: with SGT_ROOM it tells the length, too. */
uint32_t sgt_serial_len(const uint8_t *bytes, size_t len, size_t *text_len);

/* Writes the text of the serial run to `out`, which has room for `room` bytes, and its length to `*text_len`; no 0 byte behind it.
 * With SGT_YES it has the lines of the committed transactions, run alone one after another by rank, and then the final values; with
 * SGT_NO it is the auditor's line, "no line L FN", and its LF. Behind the text `out` stays as it was.
 * With SGT_ROOM `*text_len` is the room that is wanted, and with SGT_MEMORY and SGT_LONG 0; nothing is written to `out` then. */
uint32_t sgt_serial(const uint8_t *bytes, size_t len, uint8_t *out, size_t room, size_t *text_len);

/* How long the text is that `sgt_certify` writes: as `sgt_serial_len` beside `sgt_serial`. */
uint32_t sgt_certify_len(const uint8_t *bytes, size_t len, size_t *text_len);

/* Makes the certificate of logs that have none. The bytes are a bundle's text without its second line. With SGT_YES the text is the
 * whole bundle, which `sgt_audit` answers with SGT_YES; with SGT_NO it is the reason why none was made, in lines, as `sgt certify`
 * prints it. Room and lengths as for `sgt_serial`. */
uint32_t sgt_certify(const uint8_t *bytes, size_t len, uint8_t *out, size_t room, size_t *text_len);

/* How long the text is that `sgt_explain` writes: as `sgt_serial_len` beside `sgt_serial`. */
uint32_t sgt_explain_len(const uint8_t *bytes, size_t len, size_t *text_len);

/* Explains a bundle: the auditor's line, and what it means, as `sgt explain --all` prints it: of a yes each refused transaction with
 * its cycle, however many there are. SGT_YES and SGT_NO are the verdict's. Room and lengths as for `sgt_serial`. */
uint32_t sgt_explain(const uint8_t *bytes, size_t len, uint8_t *out, size_t room, size_t *text_len);

/* How long the text is that `sgt_check` writes: as `sgt_serial_len` beside `sgt_serial`. */
uint32_t sgt_check_len(const uint8_t *bytes, size_t len, size_t *text_len);

/* Checks a history, a JSON object a line: whether some order of its committed transactions, run alone one after another, explains every
 * version that was read and written. The text is what `sgt check` prints: with SGT_YES how many transactions commit and abort; with
 * SGT_NO the fault of a line, or a cycle, and what stands behind it; with SGT_UNREADABLE the first line that can't be read. Room and
 * lengths as for `sgt_serial`. */
uint32_t sgt_check(const uint8_t *bytes, size_t len, uint8_t *out, size_t room, size_t *text_len);

#ifdef __cplusplus
}
#endif

#endif
