#define _GNU_SOURCE
#include "certifier.h"

#include <errno.h>
#include <fcntl.h>
#include <inttypes.h>
#include <pthread.h>
#include <spawn.h>
#include <stdbool.h>
#include <stdio.h>
#include <stdlib.h>
#include <string.h>
#include <sys/file.h>
#include <sys/socket.h>
#include <sys/stat.h>
#include <sys/wait.h>
#include <time.h>
#include <unistd.h>

enum { LINE = 128, EPOCH = 4096 };

extern char **environ;

struct certifier {
    pid_t process;
    int talk; /* both ways: a write to who has ended raises no signal */
    pthread_mutex_t line; /* for a line and its reply, and for these */
    char held[LINE];
    size_t held_len;
    bool is_lost;
    unsigned patience; /* seconds */
    pthread_mutex_t lock; /* for these */
    pthread_cond_t change;
    size_t open;
    bool is_waited_for; /* somebody waits until none is open */
    uint32_t numbers[EPOCH]; /* of those that are open */
    size_t known;
};

static bool send_all(int talk, const char *bytes, size_t len) {
    while (len > 0) {
        ssize_t n = send(talk, bytes, len, MSG_NOSIGNAL);
        if (n < 0) return false;
        bytes += n;
        len -= (size_t)n;
    }
    return true;
}

/* The next line of replies, without its LF, as a string. */
static bool next_line(certifier *it, char *line) {
    char *end;
    while ((end = memchr(it->held, '\n', it->held_len)) == NULL) {
        if (it->held_len == LINE) return false;
        ssize_t n = recv(it->talk, it->held + it->held_len, LINE - it->held_len, 0);
        if (n <= 0) return false;
        it->held_len += (size_t)n;
    }
    size_t len = (size_t)(end - it->held);
    memcpy(line, it->held, len);
    line[len] = '\0';
    it->held_len -= len + 1;
    memmove(it->held, end + 1, it->held_len);
    return true;
}

/* Asks a line and gets its reply, which may be written over it. */
static certifier_answer ask(certifier *it, const char *line, char *said) {
    char sent[LINE + 2];
    int len = snprintf(sent, sizeof sent, "%s\n", line);
    pthread_mutex_lock(&it->line);
    if (!it->is_lost) it->is_lost = !send_all(it->talk, sent, (size_t)len) || !next_line(it, said);
    bool is_lost = it->is_lost;
    pthread_mutex_unlock(&it->line);
    if (is_lost) return CERTIFIER_LOST;
    if (strcmp(said, "! B") == 0) return CERTIFIER_NOT_WRITTEN;
    return said[0] == '!' ? CERTIFIER_REFUSED : CERTIFIER_OK;
}

static bool has_ended(const certifier *it) {
    siginfo_t info = {0};
    return waitid(P_PID, (id_t)it->process, &info, WEXITED | WNOHANG | WNOWAIT) == 0 && info.si_pid != 0;
}

/* Waits, under the lock, until nobody waits for none being open; or until none is. */
static certifier_answer wait_until(certifier *it, bool none_is_open) {
    struct timespec now, end;
    clock_gettime(CLOCK_MONOTONIC, &end);
    end.tv_sec += it->patience;
    while (none_is_open ? it->open > 0 : it->is_waited_for) {
        clock_gettime(CLOCK_MONOTONIC, &now);
        if (has_ended(it)) return CERTIFIER_LOST;
        if (now.tv_sec > end.tv_sec || (now.tv_sec == end.tv_sec && now.tv_nsec >= end.tv_nsec)) return CERTIFIER_STUCK;
        now.tv_nsec += 200000000;
        now.tv_sec += now.tv_nsec / 1000000000;
        now.tv_nsec %= 1000000000;
        pthread_cond_timedwait(&it->change, &it->lock, &now);
    }
    return CERTIFIER_OK;
}

static certifier_answer begins(certifier *it) {
    pthread_mutex_lock(&it->lock);
    certifier_answer answer = wait_until(it, false);
    if (answer == CERTIFIER_OK) it->open++;
    pthread_mutex_unlock(&it->lock);
    return answer;
}

/* One that began has a number now, or has none and is over. */
static void has_begun(certifier *it, uint32_t tx) {
    pthread_mutex_lock(&it->lock);
    if (tx == 0) it->open--;
    else if (it->known < EPOCH) it->numbers[it->known++] = tx;
    pthread_cond_broadcast(&it->change);
    pthread_mutex_unlock(&it->lock);
}

static void ended(certifier *it, uint32_t tx) {
    pthread_mutex_lock(&it->lock);
    size_t at = 0;
    while (at < it->known && it->numbers[at] != tx) at++;
    if (at < it->known) {
        it->numbers[at] = it->numbers[--it->known];
        it->open--;
        pthread_cond_broadcast(&it->change);
    }
    pthread_mutex_unlock(&it->lock);
}

/* Asks a line once no transaction is open. */
static certifier_answer ask_when_none_is_open(certifier *it, const char *line, char *said) {
    pthread_mutex_lock(&it->lock);
    certifier_answer answer = wait_until(it, false);
    if (answer == CERTIFIER_OK) {
        it->is_waited_for = true;
        answer = wait_until(it, true);
        pthread_mutex_unlock(&it->lock);
        if (answer == CERTIFIER_OK) answer = ask(it, line, said);
        pthread_mutex_lock(&it->lock);
        it->is_waited_for = false;
        pthread_cond_broadcast(&it->change);
    }
    pthread_mutex_unlock(&it->lock);
    return answer;
}

void certifier_wait_at_most(certifier *it, unsigned seconds) {
    it->patience = seconds;
}

uint32_t certifier_oldest(certifier *it) {
    uint32_t oldest = 0;
    pthread_mutex_lock(&it->lock);
    for (size_t at = 0; at < it->known; at++) {
        if (oldest == 0 || it->numbers[at] < oldest) oldest = it->numbers[at];
    }
    pthread_mutex_unlock(&it->lock);
    return oldest;
}

certifier_answer certifier_begin(certifier *it, uint32_t *tx) {
    char said[LINE];
    for (;;) {
        certifier_answer answer = begins(it);
        if (answer != CERTIFIER_OK) return answer;
        answer = ask(it, "b", said);
        if (answer == CERTIFIER_OK) {
            *tx = (uint32_t)strtoul(said + 1, NULL, 10);
            has_begun(it, *tx);
            return answer;
        }
        has_begun(it, 0);
        if (answer != CERTIFIER_REFUSED) return answer;
        bool is_full = strcmp(said, "! E7") == 0;
        if (!is_full && strcmp(said, "! E11") != 0) return answer;
        answer = ask_when_none_is_open(it, is_full ? "z" : "x", said);
        if (answer != CERTIFIER_OK) return answer;
    }
}

certifier_answer certifier_read(certifier *it, uint32_t tx, unsigned site, const char *item, uint64_t *value) {
    char line[LINE];
    snprintf(line, sizeof line, "r%" PRIu32 "[%u.%s]", tx, site, item);
    certifier_answer answer = ask(it, line, line);
    if (answer == CERTIFIER_OK) *value = strtoull(strrchr(line, '=') + 1, NULL, 10);
    return answer;
}

static certifier_answer change(certifier *it, char kind, uint32_t tx, unsigned site, const char *item, uint64_t value) {
    char line[LINE];
    snprintf(line, sizeof line, "%c%" PRIu32 "[%u.%s]=%" PRIu64, kind, tx, site, item, value);
    return ask(it, line, line);
}

certifier_answer certifier_put(certifier *it, uint32_t tx, unsigned site, const char *item, uint64_t value) {
    return change(it, 'w', tx, site, item, value);
}

certifier_answer certifier_add(certifier *it, uint32_t tx, unsigned site, const char *item, uint64_t value) {
    return change(it, 'd', tx, site, item, value);
}

static certifier_answer end_by(certifier *it, char kind, uint32_t tx) {
    char line[LINE];
    snprintf(line, sizeof line, "%c%" PRIu32, kind, tx);
    certifier_answer answer = ask(it, line, line);
    if (answer == CERTIFIER_REFUSED) return answer;
    ended(it, tx);
    return answer == CERTIFIER_OK && strstr(line, " no") != NULL ? CERTIFIER_NO : answer;
}

certifier_answer certifier_commit(certifier *it, uint32_t tx) {
    return end_by(it, 'c', tx);
}

certifier_answer certifier_withdraw(certifier *it, uint32_t tx) {
    return end_by(it, 'a', tx);
}

certifier_answer certifier_transaction(certifier *it, unsigned tries, certifier_body *does, void *context) {
    certifier_answer answer = CERTIFIER_NO;
    for (unsigned n = 0; n < tries && answer == CERTIFIER_NO; n++) {
        uint32_t tx;
        answer = certifier_begin(it, &tx);
        if (answer != CERTIFIER_OK) return answer;
        answer = does(it, tx, context);
        bool is_over = answer == CERTIFIER_OK && (answer = certifier_commit(it, tx)) != CERTIFIER_REFUSED;
        if (!is_over) certifier_withdraw(it, tx);
    }
    return answer;
}

certifier_answer certifier_cut(certifier *it, uint64_t *number) {
    char said[LINE];
    certifier_answer answer = ask_when_none_is_open(it, "x", said);
    if (answer == CERTIFIER_OK) *number = strtoull(said + 2, NULL, 10);
    return answer;
}

/* Makes a folder with those above it, and locks it: a descriptor, or -1. Who inherits the lock keeps it: the certifier, to its end. */
static int lock_folder(const char *folder) {
    char *path = strdup(folder);
    for (char *slash = path; path != NULL && (slash = strchr(slash + 1, '/')) != NULL; *slash = '/') {
        *slash = '\0';
        mkdir(path, 0777);
    }
    free(path);
    mkdir(folder, 0777);
    int lock = open(folder, O_RDONLY | O_DIRECTORY | O_CLOEXEC);
    if (lock >= 0 && flock(lock, LOCK_EX | LOCK_NB) != 0) {
        int why = errno;
        close(lock);
        errno = why;
        return -1;
    }
    return lock;
}

/* Starts the program with this end of the talk as its standard input and output, out of reach of a terminal's ^C. */
static int start(certifier *it, const char *program, const char *folder, int its_end) {
    char *words[] = {(char *)program, "serve", folder ? "--bundles" : NULL, (char *)folder, NULL};
    int lock = folder ? lock_folder(folder) : -1;
    if (folder != NULL && lock < 0) return errno;
    posix_spawn_file_actions_t actions;
    posix_spawnattr_t attributes;
    posix_spawnattr_init(&attributes);
    posix_spawnattr_setflags(&attributes, POSIX_SPAWN_SETPGROUP);
    posix_spawn_file_actions_init(&actions);
    posix_spawn_file_actions_adddup2(&actions, its_end, STDIN_FILENO);
    posix_spawn_file_actions_adddup2(&actions, its_end, STDOUT_FILENO);
    if (lock >= 0) posix_spawn_file_actions_adddup2(&actions, lock, 3);
    int why = posix_spawnp(&it->process, program, &actions, &attributes, words, environ);
    posix_spawn_file_actions_destroy(&actions);
    posix_spawnattr_destroy(&attributes);
    if (lock >= 0) close(lock);
    return why;
}

certifier *certifier_open(const char *program, const char *const *sites, size_t count, const char *folder) {
    int ends[2];
    certifier *it = calloc(1, sizeof *it);
    if (it == NULL || socketpair(AF_UNIX, SOCK_STREAM | SOCK_CLOEXEC, 0, ends) != 0) {
        free(it);
        return NULL;
    }
    pthread_condattr_t clock;
    it->talk = ends[0];
    it->patience = 60;
    pthread_mutex_init(&it->line, NULL);
    pthread_mutex_init(&it->lock, NULL);
    pthread_condattr_init(&clock);
    pthread_condattr_setclock(&clock, CLOCK_MONOTONIC);
    pthread_cond_init(&it->change, &clock);
    pthread_condattr_destroy(&clock);
    int why = start(it, program, folder, ends[1]);
    close(ends[1]);
    if (why != 0) {
        close(it->talk);
        free(it);
        errno = why;
        return NULL;
    }
    for (size_t n = 0; n < count; n++) {
        char head[LINE];
        int len = snprintf(head, sizeof head, "site %zu%s", n, sites[n][0] == '\0' ? "" : " ");
        it->is_lost |= !send_all(it->talk, head, (size_t)len) || !send_all(it->talk, sites[n], strlen(sites[n])) ||
                       !send_all(it->talk, "\n", 1);
    }
    return it;
}

int certifier_close(certifier *it) {
    int status;
    shutdown(it->talk, SHUT_WR);
    pid_t process = waitpid(it->process, &status, 0);
    close(it->talk);
    pthread_cond_destroy(&it->change);
    pthread_mutex_destroy(&it->lock);
    pthread_mutex_destroy(&it->line);
    free(it);
    return process >= 0 && WIFEXITED(status) ? WEXITSTATUS(status) : -1;
}
