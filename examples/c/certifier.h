/* Transactions over named numbers, certified by `sgt serve`: for the threads of one process (POSIX).
 *
 * A site is told by the words of a replay's line: its items by rising name, each with its first value, as "a=10 b=0". Any thread may
 * call any of these. Transactions come in epochs of at most 4,096, and a full one is closed by itself: who begins one more then waits
 * until none is open. So does certifier_cut. So no transaction is begun or cut inside the body of another one: it would wait for itself.
 * Nobody waits for longer than a minute (CERTIFIER_STUCK), nor for a certifier that has ended (CERTIFIER_LOST). */
#ifndef CERTIFIER_H
#define CERTIFIER_H

#include <stddef.h>
#include <stdint.h>

typedef enum certifier_answer {
    CERTIFIER_OK,
    CERTIFIER_NO,          /* the transaction is refused: it is over, and what it did may be tried as another one */
    CERTIFIER_REFUSED,     /* what was asked for is refused, E1 to E12 or L1, and nothing has changed */
    CERTIFIER_NOT_WRITTEN, /* the bundle can't be written; while the certifier lives nothing is lost */
    CERTIFIER_LOST,        /* the certifier has ended */
    CERTIFIER_STUCK        /* a transaction that somebody has open didn't end: certifier_oldest names it. Nothing has changed */
} certifier_answer;

typedef struct certifier certifier;

/* Over these sites. Bundles go to the folder, which is made; with NULL they go nowhere. NULL where it can't be started, by errno:
 * EWOULDBLOCK where another service has the folder, also one whose program died and that writes its last bundle. So read the values to go
 * on from (the last bundle's finals) again behind that, or the service is forked. */
certifier *certifier_open(const char *program, const char *const *sites, size_t count, const char *folder);

/* How many seconds anybody waits, 60 until it is told. Before other threads are started. */
void certifier_wait_at_most(certifier *it, unsigned seconds);

/* The least number of the transactions that are open, 0 where none is. */
uint32_t certifier_oldest(certifier *it);

certifier_answer certifier_begin(certifier *it, uint32_t *tx);
certifier_answer certifier_read(certifier *it, uint32_t tx, unsigned site, const char *item, uint64_t *value);
certifier_answer certifier_put(certifier *it, uint32_t tx, unsigned site, const char *item, uint64_t value);

/* Adds to the item, modulo 2^64. Transactions that only add to an item don't stand in each other's way. */
certifier_answer certifier_add(certifier *it, uint32_t tx, unsigned site, const char *item, uint64_t value);

/* Each transaction that was begun ends with one of these. CERTIFIER_REFUSED of a commit leaves it open. */
certifier_answer certifier_commit(certifier *it, uint32_t tx);
certifier_answer certifier_withdraw(certifier *it, uint32_t tx);

/* What a transaction does. With CERTIFIER_OK it is committed, else withdrawn. */
typedef certifier_answer certifier_body(certifier *it, uint32_t tx, void *context);

/* Does a transaction, at most so often, up to the first try that is committed or that answers something else than CERTIFIER_OK. */
certifier_answer certifier_transaction(certifier *it, unsigned tries, certifier_body *does, void *context);

/* The number of the bundle that has what was done since the last one. It waits until no transaction is open. */
certifier_answer certifier_cut(certifier *it, uint64_t *number);

/* Ends the talk: what is open is withdrawn, and what wasn't cut is a bundle. The certifier's status, or -1 where it was killed. */
int certifier_close(certifier *it);

#endif
