/* Eight threads move money between accounts, each move a transaction that `sgt serve` certifies.
 *
 * Four threads move money between any two accounts, and four between the same two, so that many are refused and tried again. Meanwhile
 * the bank is cut into bundles, which `sgt audit --chain` audits. No move loses money: the sum is the same in the end.
 *
 * usage: bank FOLDER [MOVES]      (SGT: the program, else `sgt`; MOVES of each thread) */
#include "certifier.h"

#include <inttypes.h>
#include <pthread.h>
#include <stdatomic.h>
#include <stdio.h>
#include <stdlib.h>
#include <time.h>

enum { ACCOUNTS = 8, FIRST = 1000, THREADS = 8, TRIES = 1000 };

static atomic_uint_least64_t tries;
static atomic_int running = THREADS;

typedef struct move {
    char giver[16], taker[16];
    uint64_t amount;
} move;

typedef struct customer {
    certifier *bank;
    unsigned number, moves;
    certifier_answer answer;
} customer;

/* Moves money, where the giver has so much. */
static certifier_answer do_move(certifier *bank, uint32_t tx, void *context) {
    move *it = context;
    uint64_t gives, takes;
    certifier_answer answer;
    atomic_fetch_add(&tries, 1);
    if ((answer = certifier_read(bank, tx, 0, it->giver, &gives)) != CERTIFIER_OK || gives < it->amount) return answer;
    if ((answer = certifier_read(bank, tx, 0, it->taker, &takes)) != CERTIFIER_OK) return answer;
    if ((answer = certifier_put(bank, tx, 0, it->giver, gives - it->amount)) != CERTIFIER_OK) return answer;
    if ((answer = certifier_put(bank, tx, 0, it->taker, takes + it->amount)) != CERTIFIER_OK) return answer;
    return certifier_add(bank, tx, 1, "moves", 1);
}

/* The sum of the accounts. */
static certifier_answer do_sum(certifier *bank, uint32_t tx, void *context) {
    uint64_t *sum = context, value;
    *sum = 0;
    for (unsigned n = 0; n < ACCOUNTS; n++) {
        char name[16];
        snprintf(name, sizeof name, "account_%u", n);
        certifier_answer answer = certifier_read(bank, tx, 0, name, &value);
        if (answer != CERTIFIER_OK) return answer;
        *sum += value;
    }
    return CERTIFIER_OK;
}

static unsigned below(uint64_t *dice, unsigned limit) {
    *dice = *dice * 6364136223846793005u + 1442695040888963407u;
    return (unsigned)((*dice >> 33) % limit);
}

static void *serve_customer(void *context) {
    customer *it = context;
    uint64_t dice = it->number;
    unsigned among = it->number < THREADS / 2 ? ACCOUNTS : 2;
    for (unsigned n = 0; n < it->moves && it->answer == CERTIFIER_OK; n++) {
        move next;
        unsigned giver = below(&dice, among), taker = (giver + 1 + below(&dice, among - 1)) % among;
        snprintf(next.giver, sizeof next.giver, "account_%u", giver);
        snprintf(next.taker, sizeof next.taker, "account_%u", taker);
        next.amount = 1 + below(&dice, 199);
        it->answer = certifier_transaction(it->bank, TRIES, do_move, &next);
    }
    atomic_fetch_sub(&running, 1);
    return NULL;
}

/* The moves of all threads, the bank cut meanwhile. */
static certifier_answer run(certifier *bank, unsigned moves) {
    pthread_t threads[THREADS];
    customer customers[THREADS];
    certifier_answer answer = CERTIFIER_OK;
    for (unsigned n = 0; n < THREADS; n++) {
        customers[n] = (customer){bank, n, moves, CERTIFIER_OK};
        if (pthread_create(&threads[n], NULL, serve_customer, &customers[n]) != 0) abort();
    }
    while (atomic_load(&running) > 0 && answer == CERTIFIER_OK) {
        uint64_t number;
        nanosleep(&(struct timespec){.tv_nsec = 100000000}, NULL);
        answer = certifier_cut(bank, &number);
    }
    for (unsigned n = 0; n < THREADS; n++) {
        pthread_join(threads[n], NULL);
        if (answer == CERTIFIER_OK) answer = customers[n].answer;
    }
    return answer;
}

int main(int argc, char **argv) {
    static const char *const sites[] = {
        "account_0=1000 account_1=1000 account_2=1000 account_3=1000 account_4=1000 account_5=1000 account_6=1000 account_7=1000",
        "moves=0"};
    if (argc < 2) {
        fprintf(stderr, "usage: bank FOLDER [MOVES]\n");
        return 2;
    }
    unsigned moves = argc > 2 ? (unsigned)strtoul(argv[2], NULL, 10) : 250;
    const char *program = getenv("SGT");
    certifier *bank = certifier_open(program ? program : "sgt", sites, 2, argv[1]);
    if (bank == NULL) {
        perror("bank");
        return 4;
    }
    uint64_t sum = 0;
    certifier_answer answer = run(bank, moves);
    if (answer == CERTIFIER_OK) answer = certifier_transaction(bank, TRIES, do_sum, &sum);
    int status = certifier_close(bank);
    if (answer != CERTIFIER_OK || status != 0) {
        fprintf(stderr, "bank: answer %d, status %d\n", (int)answer, status);
        return 4;
    }
    printf("%u moves, %" PRIu64 " refused and tried again\n", THREADS * moves, atomic_load(&tries) - THREADS * moves);
    printf("%" PRIu64 " of %d are there\n", sum, FIRST * ACCOUNTS);
    return sum == FIRST * ACCOUNTS ? 0 : 1;
}
