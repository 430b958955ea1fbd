/* A session with `rangesync serve`: session STRATEGY ITEMS ADDRESS, by the paths of a strategy file and of an item file
 * in hex, and HOST:PORT. Prints the items that `sync` prints, in the order learned. */
#define _POSIX_C_SOURCE 200809L
#include "rangesync.h"
#include <netdb.h>
#include <stdio.h>
#include <stdlib.h>
#include <string.h>
#include <sys/socket.h>
#include <unistd.h>

static void must(uint32_t number, const char *what) {
    if (number != 0) {
        fprintf(stderr, "%s: refused %u\n", what, number);
        exit(1);
    }
}

static void fail(const char *what) {
    perror(what);
    exit(3);
}

/* The bytes of a file of at most 16,777,216 of them. The caller frees them. */
static uint8_t *read_all(const char *path, size_t *length) {
    FILE *file = fopen(path, "rb");
    size_t room = 1 << 24;
    uint8_t *bytes = malloc(room);
    if (file == NULL || bytes == NULL) fail(path);
    *length = fread(bytes, 1, room, file);
    if (fgetc(file) != EOF || ferror(file)) {
        fprintf(stderr, "%s: it cannot be read, or is too large\n", path);
        exit(3);
    }
    fclose(file);
    return bytes;
}

/* A session over the items of a file, which speaks first. */
static rs_session open_over(const char *strategy_path, const char *items_path) {
    rs_strategy strategy;
    rs_set set;
    rs_version version;
    rs_session session;
    size_t length;
    uint8_t *text = read_all(strategy_path, &length);
    must(rs_strategy_read(text, length, &strategy), strategy_path);
    free(text);
    text = read_all(items_path, &length);
    must(rs_set_read(&strategy, RS_HEX, text, length, &set), items_path);
    free(text);
    must(rs_set_share(&set, &version), "share");
    must(rs_session_open(&version, RS_FIRST, 1, &session), "open");
    rs_free(strategy);
    rs_free(set);
    rs_free(version);
    return session;
}

/* A connection to HOST:PORT. */
static int connect_to(const char *address) {
    char host[256];
    const char *colon = strrchr(address, ':');
    struct addrinfo wanted = {.ai_family = AF_UNSPEC, .ai_socktype = SOCK_STREAM}, *found;
    if (colon == NULL || (size_t)(colon - address) >= sizeof host) {
        fprintf(stderr, "%s is not HOST:PORT\n", address);
        exit(2);
    }
    memcpy(host, address, colon - address);
    host[colon - address] = 0;
    if (getaddrinfo(host, colon + 1, &wanted, &found) != 0) {
        fprintf(stderr, "%s is not known\n", address);
        exit(3);
    }
    int connection = socket(found->ai_family, found->ai_socktype, found->ai_protocol);
    if (connection < 0 || connect(connection, found->ai_addr, found->ai_addrlen) != 0) fail(address);
    freeaddrinfo(found);
    return connection;
}

static void send_all(int connection, const uint8_t *bytes, size_t length) {
    while (length > 0) {
        ssize_t sent = send(connection, bytes, length, MSG_NOSIGNAL);
        if (sent < 0) fail("send");
        bytes += sent;
        length -= sent;
    }
}

/* Speaks until the session is over, and says how it stands. */
static uint32_t talk(rs_session *session, int connection, uint32_t *code) {
    uint8_t room[65536];
    size_t used, taken;
    uint32_t state;
    for (;;) {
        do {
            must(rs_session_pull(session, room, sizeof room, &used), "pull");
            send_all(connection, room, used);
        } while (used > 0);
        must(rs_session_state(session, &state, code), "state");
        if (state != RS_OPEN) return state;
        ssize_t came = recv(connection, room, sizeof room, 0);
        if (came < 0) fail("recv");
        if (came == 0) must(rs_session_finish(session), "finish");
        for (size_t at = 0; at < (size_t)came; at += taken) {
            must(rs_session_push(session, room + at, came - at, &taken), "push");
        }
    }
}

static void print_items(rs_session *session, const char *word, size_t count,
                        uint32_t (*item)(rs_session *, size_t, uint8_t *, size_t, size_t *)) {
    for (size_t place = 0; place < count; place++) {
        uint8_t bytes[64];
        size_t used;
        must(item(session, place, bytes, sizeof bytes, &used), word);
        printf("%s ", word);
        for (size_t at = 0; at < used; at++) printf("%02x", bytes[at]);
        printf("\n");
    }
}

int main(int count, char **words) {
    size_t ours, theirs;
    uint32_t code;
    if (count != 4) {
        fprintf(stderr, "usage: session STRATEGY ITEMS ADDRESS\n");
        return 2;
    }
    rs_session session = open_over(words[1], words[2]);
    int connection = connect_to(words[3]);
    if (talk(&session, connection, &code) != RS_ENDED) {
        fprintf(stderr, "the session was refused %u\n", code);
        return 1;
    }
    close(connection);
    must(rs_session_learned(&session, &ours, &theirs), "learned");
    print_items(&session, "ours", ours, rs_session_ours);
    print_items(&session, "theirs", theirs, rs_session_theirs);
    rs_free(session);
    return 0;
}
