/* Two sets of this process find out their differences: example STRATEGY LEFT RIGHT, by the paths of a strategy file and
 * of two item files in hex. Prints how many messages the side of LEFT sent, how many at most, and what it learned. */
#include "rangesync.h"
#include <stdio.h>
#include <stdlib.h>

static void must(uint32_t number, const char *what) {
    if (number != 0) {
        fprintf(stderr, "%s: refused %u\n", what, number);
        exit(1);
    }
}

/* The bytes of a file of at most 16,777,216 of them. The caller frees them. */
static uint8_t *read_all(const char *path, size_t *length) {
    FILE *file = fopen(path, "rb");
    size_t room = 1 << 24;
    uint8_t *bytes = malloc(room);
    if (file == NULL || bytes == NULL) {
        perror(path);
        exit(3);
    }
    *length = fread(bytes, 1, room, file);
    if (fgetc(file) != EOF || ferror(file)) {
        fprintf(stderr, "%s: it cannot be read, or is too large\n", path);
        exit(3);
    }
    fclose(file);
    return bytes;
}

/* A session over the items of a file. */
static rs_session open_over(rs_strategy *strategy, const char *path, uint32_t role) {
    rs_set set;
    rs_version version;
    rs_session session;
    size_t length;
    uint8_t *lines = read_all(path, &length);
    must(rs_set_read(strategy, RS_HEX, lines, length, &set), path);
    must(rs_set_share(&set, &version), path);
    must(rs_session_open(&version, role, 1, &session), path);
    rs_free(set);
    rs_free(version);
    free(lines);
    return session;
}

/* Moves all that is due of one session to the other, and says how many bytes these were. */
static size_t pass(rs_session *from, rs_session *to) {
    uint8_t room[65536];
    size_t used, taken, all = 0;
    do {
        must(rs_session_pull(from, room, sizeof room, &used), "pull");
        for (size_t at = 0; at < used; at += taken) {
            must(rs_session_push(to, room + at, used - at, &taken), "push");
        }
        all += used;
    } while (used > 0);
    return all;
}

static void print_items(rs_session *session, const char *word, size_t count,
                        uint32_t (*item)(rs_session *, size_t, uint8_t *, size_t, size_t *)) {
    for (size_t place = 0; place < count; place++) {
        uint8_t bytes[64];
        size_t used;
        must(item(session, place, bytes, sizeof bytes, &used), word);
        printf("%s ", word);
        for (size_t at = 0; at < used; at++) printf("%02x", bytes[at]);
        printf("\n");
    }
}

int main(int count, char **words) {
    if (count != 4) {
        fprintf(stderr, "usage: example STRATEGY LEFT RIGHT\n");
        return 2;
    }
    size_t length, ours, theirs;
    uint32_t sent, bound;
    rs_strategy strategy;
    uint8_t *text = read_all(words[1], &length);
    must(rs_strategy_read(text, length, &strategy), words[1]);
    free(text);
    rs_session left = open_over(&strategy, words[2], RS_FIRST);
    rs_session right = open_over(&strategy, words[3], RS_SECOND);
    rs_free(strategy);
    while (pass(&left, &right) + pass(&right, &left) > 0) {
    }
    must(rs_session_messages(&left, &sent, &bound), "messages");
    must(rs_session_learned(&left, &ours, &theirs), "learned");
    printf("sent %u of %u\n", sent, bound);
    print_items(&left, "ours", ours, rs_session_ours);
    print_items(&left, "theirs", theirs, rs_session_theirs);
    rs_free(left);
    rs_free(right);
    return 0;
}
