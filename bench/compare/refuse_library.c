/* Calls the library with each of its allocations refused in turn, once alone and once with all that follow.
 *
 * usage: refuse_library BUNDLE LOGS HISTORY
 *
 * The bundle is audited, run and explained, the logs are certified, the history is checked. Each answer has to be SGT_MEMORY, with
 * every length and every other field 0 and `out` as it was, or the answer that was given before; and each call has to give back what
 * it took. Ends with status 1 where one does not. docs/BENCH.md has the command. */
#include "sgt.h"

#include <stdio.h>
#include <stdlib.h>
#include <string.h>

void *__real_malloc(size_t size);
void *__real_realloc(void *old, size_t size);
void __real_free(void *old);

static long asked, refused_from, refused_to, held;

static int is_refused(void) {
    asked++;
    return asked >= refused_from && asked <= refused_to;
}

void *__wrap_malloc(size_t size) {
    void *got = is_refused() ? NULL : __real_malloc(size);
    held += got != NULL;
    return got;
}

void *__wrap_realloc(void *old, size_t size) {
    void *got = is_refused() ? NULL : __real_realloc(old, size);
    held += old == NULL && got != NULL;
    return got;
}

void __wrap_free(void *old) {
    held -= old != NULL;
    __real_free(old);
}

enum { ROOM = 1 << 16 };

typedef uint32_t measure(const uint8_t *bytes, size_t len, size_t *text_len);
typedef uint32_t write_text(const uint8_t *bytes, size_t len, uint8_t *out, size_t room, size_t *text_len);

typedef struct call {
    const char *name;
    measure *measured;
    write_text *written;
} call;

/* All that a call answers by. */
typedef struct answer {
    uint32_t number;
    size_t text_len;
    sgt_verdict verdict;
    uint8_t out[ROOM];
} answer;

static answer first, again, none;

static void ask(const call *what, const uint8_t *bytes, size_t len, answer *into) {
    memset(into, 7, sizeof *into);
    if (what->written != NULL)
        into->number = what->written(bytes, len, into->out, ROOM, &into->text_len);
    else if (what->measured != NULL)
        into->number = what->measured(bytes, len, &into->text_len);
    else
        into->number = sgt_audit(bytes, len, &into->verdict);
}

/* What a call is to answer that finds no memory. */
static void expect_none(const call *what) {
    memset(&none, 7, sizeof none);
    none.number = SGT_MEMORY;
    if (what->measured != NULL || what->written != NULL)
        none.text_len = 0;
    else
        none.verdict = (sgt_verdict){.kind = SGT_MEMORY};
}

static int sweep(const call *what, const uint8_t *bytes, size_t len) {
    long memory = 0, same = 0, wrong = 0, most;
    refused_from = refused_to = 0;
    ask(what, bytes, len, &first);
    asked = 0;
    ask(what, bytes, len, &first);
    most = asked;
    expect_none(what);
    for (int all = 0; all < 2; all++) {
        for (long at = 1; at <= most; at++) {
            asked = 0;
            refused_from = at;
            refused_to = all ? 1L << 40 : at;
            long before = held;
            ask(what, bytes, len, &again);
            refused_from = refused_to = 0;
            if (held == before && memcmp(&again, &none, sizeof none) == 0) memory++;
            else if (held == before && memcmp(&again, &first, sizeof first) == 0) same++;
            else wrong++;
        }
    }
    printf("%s: answer %u, %ld allocations, refused %ld times: memory %ld, the same answer %ld, wrong %ld\n", what->name,
           (unsigned)first.number, most, 2 * most, memory, same, wrong);
    return wrong != 0;
}

static uint8_t *file(const char *path, size_t *len) {
    uint8_t *bytes = __real_malloc(1 << 20);
    FILE *from = fopen(path, "rb");
    if (bytes == NULL || from == NULL) exit(2);
    *len = fread(bytes, 1, 1 << 20, from);
    fclose(from);
    return bytes;
}

int main(int argc, char **argv) {
    if (argc != 4) return 2;
    size_t bundle_len, logs_len, history_len;
    uint8_t *bundle = file(argv[1], &bundle_len), *logs = file(argv[2], &logs_len), *history = file(argv[3], &history_len);
    const call on_bundle[] = {{"audit", NULL, NULL},
                              {"serial_len", sgt_serial_len, NULL},
                              {"serial", NULL, sgt_serial},
                              {"explain_len", sgt_explain_len, NULL},
                              {"explain", NULL, sgt_explain}};
    const call on_logs[] = {{"certify_len", sgt_certify_len, NULL}, {"certify", NULL, sgt_certify}};
    const call on_history[] = {{"check_len", sgt_check_len, NULL}, {"check", NULL, sgt_check}};
    int wrong = 0;
    for (size_t at = 0; at < sizeof on_bundle / sizeof *on_bundle; at++) wrong |= sweep(&on_bundle[at], bundle, bundle_len);
    for (size_t at = 0; at < sizeof on_logs / sizeof *on_logs; at++) wrong |= sweep(&on_logs[at], logs, logs_len);
    for (size_t at = 0; at < sizeof on_history / sizeof *on_history; at++) wrong |= sweep(&on_history[at], history, history_len);
    __real_free(bundle);
    __real_free(logs);
    __real_free(history);
    return wrong;
}
