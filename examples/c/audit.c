/* Prints what `sgt audit`, `sgt serial`, `sgt certify`, `sgt explain --all` and `sgt check` print of standard input, and ends with the
 * program's status.
 *
 * usage: audit [audit|serial|certify|explain|check] < BUNDLE */
#include "sgt.h"

#include <inttypes.h>
#include <stdbool.h>
#include <stddef.h>
#include <stdio.h>
#include <stdlib.h>
#include <string.h>

/* Where the library writes the fields of a verdict. */
_Static_assert(offsetof(sgt_verdict, kind) == 0, "kind");
_Static_assert(offsetof(sgt_verdict, fault) == 4, "fault");
_Static_assert(offsetof(sgt_verdict, line) == 8, "line");
_Static_assert(offsetof(sgt_verdict, committed) == 16, "committed");
_Static_assert(offsetof(sgt_verdict, refused) == 24, "refused");
_Static_assert(offsetof(sgt_verdict, withdrawn) == 32, "withdrawn");
_Static_assert(sizeof(sgt_verdict) == 40, "nothing behind it");

enum { DEVICE = 4 };

/* All of standard input, with its length, or NULL where memory ran out or a read failed. */
static uint8_t *read_all(size_t *len) {
    size_t room = 65536, n = 0;
    uint8_t *bytes = malloc(room);
    while (bytes != NULL) {
        n += fread(bytes + n, 1, room - n, stdin);
        if (n < room) break;
        uint8_t *more = realloc(bytes, room *= 2);
        if (more == NULL) free(bytes);
        bytes = more;
    }
    if (bytes != NULL && ferror(stdin)) {
        free(bytes);
        bytes = NULL;
    }
    *len = n;
    return bytes;
}

static uint32_t print_verdict(const uint8_t *bytes, size_t len) {
    sgt_verdict verdict;
    switch (sgt_audit(bytes, len, &verdict)) {
    case SGT_YES:
        printf("yes %" PRIu64 " committed %" PRIu64 " refused %" PRIu64 " withdrawn\n", verdict.committed, verdict.refused,
               verdict.withdrawn);
        break;
    case SGT_NO:
        printf("no line %" PRIu64 " F%" PRIu32 "\n", verdict.line, verdict.fault);
        break;
    }
    return verdict.kind;
}

typedef uint32_t measure(const uint8_t *bytes, size_t len, size_t *text_len);
typedef uint32_t write_text(const uint8_t *bytes, size_t len, uint8_t *out, size_t room, size_t *text_len);

/* Whether there is a text: SGT_UNREADABLE has one, too. */
static bool has_text(uint32_t answer) {
    return answer == SGT_YES || answer == SGT_NO || answer == SGT_UNREADABLE;
}

static uint32_t print_text(measure *measured, write_text *written, const uint8_t *bytes, size_t len) {
    size_t text_len;
    uint32_t answer = measured(bytes, len, &text_len);
    if (!has_text(answer)) return answer;
    uint8_t *text = malloc(text_len + 1);
    if (text == NULL) return SGT_MEMORY;
    answer = written(bytes, len, text, text_len, &text_len);
    if (has_text(answer)) fwrite(text, 1, text_len, stdout);
    free(text);
    return answer;
}

static uint32_t print_answer(const char *word, const uint8_t *bytes, size_t len) {
    if (strcmp(word, "serial") == 0) return print_text(sgt_serial_len, sgt_serial, bytes, len);
    if (strcmp(word, "certify") == 0) return print_text(sgt_certify_len, sgt_certify, bytes, len);
    if (strcmp(word, "explain") == 0) return print_text(sgt_explain_len, sgt_explain, bytes, len);
    if (strcmp(word, "check") == 0) return print_text(sgt_check_len, sgt_check, bytes, len);
    return print_verdict(bytes, len);
}

int main(int argc, char **argv) {
    size_t len;
    if (sgt_version() != SGT_VERSION) {
        fprintf(stderr, "sgt: the library is of version %" PRIu32 "\n", sgt_version());
        return 2;
    }
    uint8_t *bytes = read_all(&len);
    if (bytes == NULL) {
        fprintf(stderr, "sgt: read fault\n");
        return DEVICE;
    }
    uint32_t answer = print_answer(argc > 1 ? argv[1] : "audit", bytes, len);
    free(bytes);
    if (answer == SGT_MEMORY) fprintf(stderr, "sgt: memory\n");
    if (fflush(stdout) != 0) {
        fprintf(stderr, "sgt: write fault\n");
        return DEVICE;
    }
    return (int)answer;
}
