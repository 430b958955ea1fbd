/* What a program pays that has the library: embedded STRATEGY LEFT RIGHT FULL, by the paths of a strategy file and of
 * three item files in hex. A session is between LEFT and RIGHT; FULL has as many items as the strategy's cap. Prints a
 * line `NAME LEAST MIDDLE` for each step, in microseconds, and one `NAME BYTES` for each kind of memory. It is linked
 * with --wrap=malloc,--wrap=realloc,--wrap=free. */
#define _GNU_SOURCE
#include "rangesync.h"
#include "wrapped.h"
#include <malloc.h>
#include <stdio.h>
#include <stdlib.h>
#include <time.h>

enum { ROUNDS = 21, OPENED = 1000, CALLS = 1000000 };

/* ---- memory, as the C library gives it out */

/* The bytes that are given out, and the most there were since this was set back. */
static size_t held, most;

static void count(size_t less, size_t more) {
    held += more - less;
    if (held > most) most = held;
}

void *__wrap_malloc(size_t size) {
    void *block = __real_malloc(size);
    count(0, malloc_usable_size(block));
    return block;
}

void *__wrap_realloc(void *old, size_t size) {
    size_t before = malloc_usable_size(old);
    void *block = __real_realloc(old, size);
    if (block != NULL) count(before, malloc_usable_size(block));
    return block;
}

void __wrap_free(void *block) {
    count(malloc_usable_size(block), 0);
    __real_free(block);
}

/* ---- time */

static double microseconds(void) {
    struct timespec now;
    clock_gettime(CLOCK_MONOTONIC, &now);
    return (double)now.tv_sec * 1e6 + (double)now.tv_nsec / 1e3;
}

static int by_size(const void *left, const void *right) {
    double a = *(const double *)left, b = *(const double *)right;
    return (a > b) - (a < b);
}

/* Prints a step whose rounds took so long, each for so many calls. */
static void print_step(const char *name, double took[ROUNDS], double calls) {
    qsort(took, ROUNDS, sizeof *took, by_size);
    printf("%s %.4f %.4f\n", name, took[0] / calls, took[ROUNDS / 2] / calls);
}

/* ---- the library */

static void must(uint32_t number, const char *what) {
    if (number != 0) {
        fprintf(stderr, "%s: refused %u\n", what, number);
        exit(1);
    }
}

typedef struct {
    const char *path;
    uint8_t *bytes;
    size_t length;
} text;

static text read_text(const char *path) {
    text its = {path, malloc(1 << 24), 0};
    FILE *file = fopen(path, "rb");
    if (file == NULL || its.bytes == NULL) {
        perror(path);
        exit(3);
    }
    its.length = fread(its.bytes, 1, 1 << 24, file);
    fclose(file);
    return its;
}

static rs_set set_of(rs_strategy *strategy, text lines) {
    rs_set set;
    must(rs_set_read(strategy, RS_HEX, lines.bytes, lines.length, &set), lines.path);
    return set;
}

static rs_session open_on(rs_version *version, uint32_t role) {
    rs_session session;
    must(rs_session_open(version, role, 1, &session), "open");
    return session;
}

static size_t pass(rs_session *from, rs_session *to) {
    static uint8_t room[65536];
    size_t used, taken, all = 0;
    do {
        must(rs_session_pull(from, room, sizeof room, &used), "pull");
        must(rs_session_push(to, room, used, &taken), "push");
        all += taken;
    } while (used > 0);
    return all;
}

static size_t speak(rs_session *first, rs_session *second) {
    size_t moved, all = 0;
    do {
        moved = pass(first, second) + pass(second, first);
        all += moved;
    } while (moved > 0);
    return all;
}

/* ---- the steps */

static void time_set(rs_strategy *strategy, text full) {
    double took[ROUNDS];
    size_t before = held, its = 0;
    for (int round = 0; round < ROUNDS; round++) {
        double start = microseconds();
        rs_set set = set_of(strategy, full);
        took[round] = microseconds() - start;
        its = held - before;
        rs_free(set);
    }
    print_step("set", took, 1);
    printf("memory-set %zu\n", its);
}

static void time_opening(const char *name, rs_version *version, uint32_t role) {
    static rs_session opened[OPENED];
    double took[ROUNDS];
    size_t before = held, its = 0;
    for (int round = 0; round < ROUNDS; round++) {
        double start = microseconds();
        for (int place = 0; place < OPENED; place++) opened[place] = open_on(version, role);
        took[round] = microseconds() - start;
        its = held - before;
        for (int place = 0; place < OPENED; place++) rs_free(opened[place]);
    }
    print_step(name, took, OPENED);
    printf("memory-%s %zu\n", name, its / OPENED);
}

static void time_session(rs_version *left, rs_version *right) {
    double took[ROUNDS];
    size_t before = held, bytes = 0, own = 0, other = 0;
    uint32_t sent = 0, answered = 0, bound;
    most = held;
    for (int round = 0; round < ROUNDS; round++) {
        double start = microseconds();
        rs_session first = open_on(left, RS_FIRST), second = open_on(right, RS_SECOND);
        bytes = speak(&first, &second);
        took[round] = microseconds() - start;
        must(rs_session_learned(&first, &own, &other), "learned");
        must(rs_session_messages(&first, &sent, &bound), "messages");
        must(rs_session_messages(&second, &answered, &bound), "messages");
        rs_free(first);
        rs_free(second);
    }
    print_step("session", took, 1);
    printf("memory-both-ends-at-most %zu\n", most - before);
    printf("bytes-both-ways %zu\nmessages %u\nours %zu\ntheirs %zu\n", bytes, sent + answered, own, other);
}

static void time_count(rs_set *set) {
    double took[ROUNDS];
    size_t items;
    for (int round = 0; round < ROUNDS; round++) {
        double start = microseconds();
        for (int call = 0; call < CALLS; call++) must(rs_set_count(set, &items), "count");
        took[round] = microseconds() - start;
    }
    print_step("count", took, CALLS);
}

int main(int count, char **words) {
    if (count != 5) {
        fprintf(stderr, "usage: embedded STRATEGY LEFT RIGHT FULL\n");
        return 2;
    }
    rs_strategy strategy;
    rs_version left, right;
    text its = read_text(words[1]);
    must(rs_strategy_read(its.bytes, its.length, &strategy), its.path);
    rs_set left_set = set_of(&strategy, read_text(words[2])), right_set = set_of(&strategy, read_text(words[3]));
    must(rs_set_share(&left_set, &left), "share");
    must(rs_set_share(&right_set, &right), "share");
    time_set(&strategy, read_text(words[4]));
    time_opening("first", &left, RS_FIRST);
    time_opening("second", &right, RS_SECOND);
    time_session(&left, &right);
    time_count(&left_set);
    return 0;
}
