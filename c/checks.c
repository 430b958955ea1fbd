/* Checks of the library: checks STRATEGY, by the path of examples/all-round.toml. Prints a line for each check that
 * fails, and at the end 'N passed, M failed'. What is expected is typed in, or found by a loop over the numbers from
 * which the items were made. failing.c checks calls that fail. */
#include "rangesync.h"
#include <pthread.h>
#include <stdio.h>
#include <stdlib.h>
#include <string.h>

static unsigned passed, failed;
/* What is checked. */
static char about[80];
/* The strategy of the file, and one for at most 8 items. */
static rs_strategy all_round, eight;

static void check(int line, bool right, const char *what) {
    passed += right;
    failed += !right;
    if (!right) printf("checks.c:%d: %s: %s\n", line, about, what);
}

#define CHECK(what) check(__LINE__, (what), #what)

/* ---- items, sets, and what is only in one of them */

typedef struct {
    uint8_t bytes[64];
    size_t length;
} item;

typedef struct {
    size_t count;
    item at[1024];
} items;

/* Says whether a side has the item of a number. */
typedef bool rule(uint32_t number);

/* The item of a number: 4 to 64 bytes, all over the order. */
static item item_of(uint32_t number) {
    item made = {{0}, 4 + number % 61};
    uint32_t scattered = number * 2654435769u;
    for (size_t place = 0; place < made.length; place++) {
        made.bytes[place] = (uint8_t)(scattered >> (24 - 8 * (place % 4)));
    }
    return made;
}

/* Byte by byte; an item comes before those that it begins. */
static int in_order(const void *left, const void *right) {
    const item *a = left, *b = right;
    int order = memcmp(a->bytes, b->bytes, a->length < b->length ? a->length : b->length);
    return order != 0 ? order : (a->length > b->length) - (a->length < b->length);
}

static void sort(items *list) { qsort(list->at, list->count, sizeof(item), in_order); }

static bool same(const items *left, const items *right) {
    bool equal = left->count == right->count;
    for (size_t place = 0; equal && place < left->count; place++) {
        equal = in_order(&left->at[place], &right->at[place]) == 0;
    }
    return equal;
}

/* The items of the numbers below `end` that are here and not there, in order. */
static void only_here(items *out, uint32_t end, rule here, rule there) {
    out->count = 0;
    for (uint32_t number = 0; number < end; number++) {
        if (here(number) && !there(number)) out->at[out->count++] = item_of(number);
    }
    sort(out);
}

static rs_set set_of(rs_strategy *strategy, uint32_t form, const char *text) {
    rs_set made = {NULL};
    CHECK(rs_set_read(strategy, form, (const uint8_t *)text, strlen(text), &made) == 0);
    return made;
}

/* The items of the numbers below `end` that are here, as lines in hex. */
static const char *lines_by(uint32_t end, rule here) {
    static char text[200000];
    char *to = text;
    for (uint32_t number = 0; number < end; number++) {
        item next = item_of(number);
        for (size_t place = 0; place < next.length && here(number); place++) {
            to += sprintf(to, "%02x", next.bytes[place]);
        }
        *to++ = '\n';
    }
    *to = 0;
    return text;
}

static rs_set set_by(uint32_t end, rule here) { return set_of(&all_round, RS_HEX, lines_by(end, here)); }

static size_t count_of(rs_set *set) {
    size_t count = 0;
    CHECK(rs_set_count(set, &count) == 0);
    return count;
}

static rs_version version_of(rs_set *set) {
    rs_version made = {NULL};
    CHECK(rs_set_share(set, &made) == 0);
    return made;
}

static uint32_t insert(rs_set *set, const char *word, bool *is_new) {
    return rs_set_insert(set, (const uint8_t *)word, strlen(word), is_new);
}

static bool has(rs_version *version, const char *word) {
    bool found = false;
    CHECK(rs_version_has(version, (const uint8_t *)word, strlen(word), &found) == 0);
    return found;
}

/* Two handles, of any kinds. */
#define free_both(one, other) (rs_free(one), rs_free(other))

/* ---- sessions */

/* A session over the newest version of a set. */
static rs_session open_on(rs_set *set, uint32_t role, uint32_t profile) {
    rs_version version = version_of(set);
    rs_session session = {NULL};
    CHECK(rs_session_open(&version, role, profile, &session) == 0);
    rs_free(version);
    return session;
}

/* Moves all that is due of one side to the other, in pieces, and says how many bytes these were. */
static size_t pass(rs_session *from, rs_session *to, size_t piece) {
    uint8_t room[1000];
    size_t used, taken, all = 0;
    while (rs_session_pull(from, room, piece, &used) == 0 && used > 0) {
        if (rs_session_push(to, room, used, &taken) != 0 || taken != used) break;
        all += used;
    }
    return all;
}

/* Lets two sides speak until nothing is due, and says how many bytes were moved. */
static size_t speak(rs_session *first, rs_session *second, size_t piece) {
    size_t moved, all = 0;
    do {
        moved = pass(first, second, piece) + pass(second, first, piece);
        all += moved;
    } while (moved > 0);
    return all;
}

static bool stands(rs_session *session, uint32_t wanted, uint32_t wanted_code) {
    uint32_t state = 77, code = 77;
    return rs_session_state(session, &state, &code) == 0 && state == wanted && code == wanted_code;
}

/* Whether a session has ended, and said no more messages than it may. */
static bool ended_well(rs_session *session) {
    uint32_t sent = 0, bound = 0;
    bool told = rs_session_messages(session, &sent, &bound) == 0;
    return stands(session, RS_ENDED, 0) && told && 0 < sent && sent <= bound;
}

typedef uint32_t learned_at(rs_session *session, size_t place, uint8_t *room, size_t length, size_t *used);

/* Reads the items that were learned, of which there are `count` and no more. */
static bool read_items(rs_session *session, learned_at *learned, size_t count, items *out) {
    item *next = out->at;
    for (out->count = 0; out->count < count; out->count++, next++) {
        if (out->count == 1023 || learned(session, out->count, next->bytes, 64, &next->length) != 0) return false;
    }
    return learned(session, count, next->bytes, 64, &next->length) == 98;
}

/* Whether a session learned just these items. */
static bool learned_just(rs_session *session, const items *ours, const items *theirs) {
    static items own, other;
    size_t own_count = 0, other_count = 0;
    if (rs_session_learned(session, &own_count, &other_count) != 0) return false;
    if (!read_items(session, rs_session_ours, own_count, &own)) return false;
    if (!read_items(session, rs_session_theirs, other_count, &other)) return false;
    sort(&own);
    sort(&other);
    return same(&own, ours) && same(&other, theirs);
}

/* Both sides have ended, and know just these items. */
static void check_both(rs_session *first, rs_session *second, const items *ours, const items *theirs) {
    CHECK(ended_well(first) && ended_well(second));
    CHECK(learned_just(first, ours, theirs) && learned_just(second, theirs, ours));
}

/* Whether the bytes that are due are just these. */
static bool due_are(rs_session *session, const char *bytes, size_t length) {
    uint8_t room[256];
    size_t used = 77;
    bool pulled = rs_session_pull(session, room, sizeof room, &used) == 0;
    return pulled && used == length && memcmp(room, bytes, length) == 0;
}

static void push(rs_session *session, const char *bytes, size_t length) {
    size_t taken = 77;
    CHECK(rs_session_push(session, (const uint8_t *)bytes, length, &taken) == 0 && taken == length);
}

/* ---- the checks */

#define HEAD "cap = 8\nlimit = 1\nrounds = 3\n"
#define HALVES "row = [{upto = 1, list = true}, {upto = 8, split = [1, 1]}]"
#define X64 "xxxxxxxxxxxxxxxxxxxxxxxxxxxxxxxxxxxxxxxxxxxxxxxxxxxxxxxxxxxxxxxx"

static void item_files(void) {
    strcpy(about, "item files");
    rs_set hex = set_of(&eight, RS_HEX, "  6162\t\r\n\n63\n4A4b\n63");
    rs_version old = version_of(&hex);
    CHECK(count_of(&hex) == 3 && has(&old, "ab") && has(&old, "c") && has(&old, "JK"));
    rs_set text = set_of(&eight, RS_TEXT, "ab\r\n\n0x6162\n c\n" X64 "\n0xff");
    rs_version new = version_of(&text);
    CHECK(count_of(&text) == 4 && has(&new, "ab") && has(&new, " c") && has(&new, X64) && has(&new, "\xff"));
    CHECK(!has(&new, "c") && !has(&new, "a"));
    rs_set none = set_of(&eight, RS_HEX, "");
    CHECK(count_of(&none) == 0);
    free_both(hex, old);
    free_both(text, new);
    rs_free(none);
}

static void insertions(void) {
    bool is_new = false, found = true;
    size_t count = 0;
    strcpy(about, "insertions");
    rs_set set = set_of(&eight, RS_TEXT, "a\nb\nc\nd\ne\nf\ng\ng\n");
    rs_version old = version_of(&set);
    CHECK(insert(&set, X64, &is_new) == 0 && is_new && count_of(&set) == 8);
    CHECK(insert(&set, X64, &is_new) == 0 && !is_new && count_of(&set) == 8);
    is_new = true;
    CHECK(insert(&set, "i", &is_new) == 40 && insert(&set, "", &is_new) == 71 && insert(&set, X64 "x", &is_new) == 72);
    CHECK(is_new && count_of(&set) == 8 && insert(&set, "a", &is_new) == 0 && !is_new);
    rs_version new = version_of(&set);
    rs_free(set);
    CHECK(rs_version_count(&old, &count) == 0 && count == 7 && !has(&old, X64) && has(&old, "g"));
    CHECK(rs_version_count(&new, &count) == 0 && count == 8 && has(&new, X64) && !has(&new, "i"));
    CHECK(rs_version_has(&old, (const uint8_t *)X64, 0, &found) == 71 && found);
    CHECK(rs_version_has(&old, (const uint8_t *)X64 "x", 65, &found) == 72 && found);
    free_both(old, new);
}

/* The items from a lower bound on and before an upper one, one after the other, as `|a|bc`. */
static const char *items_in(rs_version *version, const char *lower, const char *upper) {
    static char line[256];
    const uint8_t *from = (const uint8_t *)lower, *to = (const uint8_t *)upper;
    char *end = line;
    size_t count = 0, used = 0;
    CHECK(rs_version_count_in(version, from, strlen(lower), to, strlen(upper), &count) == 0);
    for (size_t place = 0; place < count; place++) {
        uint8_t room[64];
        uint32_t number = rs_version_item_in(version, from, strlen(lower), to, strlen(upper), place, room, 64, &used);
        CHECK(number == 0);
        end += sprintf(end, "|%.*s", (int)used, (const char *)room);
    }
    *end = 0;
    uint8_t none = 0;
    CHECK(rs_version_item_in(version, from, strlen(lower), to, strlen(upper), count, &none, 1, &used) == 98 && !none);
    return line;
}

static void ranges(void) {
    strcpy(about, "ranges");
    rs_set set = set_of(&eight, RS_TEXT, "c\nb\nba\na\n");
    rs_version version = version_of(&set);
    const uint8_t *b = (const uint8_t *)"b", *long_one = (const uint8_t *)X64 "x";
    size_t count = 77;
    uint8_t room[2] = "zz";
    CHECK(insert(&set, "aa", &(bool){false}) == 0);
    CHECK(strcmp(items_in(&version, "", ""), "|a|b|ba|c") == 0);
    CHECK(strcmp(items_in(&version, "b", ""), "|b|ba|c") == 0 && strcmp(items_in(&version, "", "b"), "|a") == 0);
    CHECK(strcmp(items_in(&version, "b", "ba"), "|b") == 0 && strcmp(items_in(&version, "aa", "bb"), "|b|ba") == 0);
    CHECK(strcmp(items_in(&version, "d", X64), "") == 0);
    CHECK(rs_version_count_in(&version, b, 1, b, 1, &count) == 73 && count == 77);
    CHECK(rs_version_count_in(&version, long_one, 65, b, 0, &count) == 72 && count == 77);
    CHECK(rs_version_item_in(&version, b, 0, long_one, 65, 0, room, 2, &count) == 72 && room[0] == 'z');
    CHECK(rs_version_item_in(&version, b, 1, b, 0, 1, room, 1, &count) == 98 && room[0] == 'z');
    CHECK(rs_version_item_in(&version, b, 1, b, 0, 1, room, 2, &count) == 0);
    CHECK(count == 2 && memcmp(room, "ba", 2) == 0);
    free_both(set, version);
}

/* The part of a version between these bounds. */
static rs_version part_of(rs_version *version, const char *lower, const char *upper) {
    const uint8_t *from = (const uint8_t *)lower, *to = (const uint8_t *)upper;
    rs_version made = {NULL};
    CHECK(rs_version_part(version, from, strlen(lower), to, strlen(upper), &made) == 0);
    return made;
}

static void parts(void) {
    static const items ours = {1, {{"b", 1}}}, theirs = {1, {{"bb", 2}}};
    const uint8_t *c = (const uint8_t *)"c", *long_one = (const uint8_t *)X64 "x";
    strcpy(about, "parts");
    rs_set left = set_of(&eight, RS_TEXT, "a\nb\nba\nc\n"), right = set_of(&eight, RS_TEXT, "bb\nba\nd\n");
    rs_version here = version_of(&left), there = version_of(&right), none = {NULL};
    rs_version part = part_of(&here, "b", "c"), other = part_of(&there, "b", "c"), front = part_of(&here, "", "b");
    rs_version back = part_of(&here, "ba", ""), all = part_of(&here, "", ""), empty = part_of(&here, "bb", "c");
    CHECK(insert(&left, "bz", &(bool){false}) == 0);
    CHECK(strcmp(items_in(&part, "", ""), "|b|ba") == 0 && strcmp(items_in(&part, "ba", "z"), "|ba") == 0);
    CHECK(strcmp(items_in(&front, "", ""), "|a") == 0 && strcmp(items_in(&back, "", ""), "|ba|c") == 0);
    CHECK(strcmp(items_in(&all, "", ""), "|a|b|ba|c") == 0 && strcmp(items_in(&empty, "", ""), "") == 0);
    CHECK(rs_version_part(&here, c, 1, c, 1, &none) == 73 && rs_version_part(&here, c, 1, long_one, 65, &none) == 72);
    CHECK(rs_version_part(&here, long_one, 65, c, 0, &none) == 72 && none.at == NULL);
    free_both(left, right);
    free_both(front, back);
    free_both(all, empty);
    for (uint32_t profile = 1; profile <= 2; profile++) {
        rs_session first = {NULL}, second = {NULL};
        CHECK(rs_session_open(&part, RS_FIRST, profile, &first) == 0);
        CHECK(rs_session_open(&other, RS_SECOND, profile, &second) == 0);
        speak(&first, &second, 1000);
        check_both(&first, &second, &ours, &theirs);
        free_both(first, second);
    }
    free_both(part, other);
    CHECK(strcmp(items_in(&here, "", ""), "|a|b|ba|c") == 0 && strcmp(items_in(&there, "", ""), "|ba|bb|d") == 0);
    free_both(here, there);
}

static bool on_left(uint32_t number) { return number % 50 != 7; }
static bool on_right(uint32_t number) { return number % 40 != 9 && number % 97 != 5; }
static bool nowhere(uint32_t number) { return number == UINT32_MAX; }

/* Sessions between two sets, in both profiles, in pieces of some sizes. */
static void sessions(rule here, rule there) {
    static const size_t pieces[] = {1, 7, 1000};
    static items ours, theirs;
    rs_set left = set_by(1000, here), right = set_by(1000, there);
    only_here(&ours, 1000, here, there);
    only_here(&theirs, 1000, there, here);
    for (uint32_t place = 0; place < 6; place++) {
        uint32_t profile = 1 + place % 2;
        rs_session first = open_on(&left, RS_FIRST, profile), second = open_on(&right, RS_SECOND, profile);
        sprintf(about, "profile %u, pieces of %zu, %zu and %zu", profile, pieces[place / 2], ours.count, theirs.count);
        size_t bytes = speak(&first, &second, pieces[place / 2]);
        check_both(&first, &second, &ours, &theirs);
        /* Equal sets: two hellos, the first message, which has a count in profile 2, and an empty one. */
        if (ours.count + theirs.count == 0) CHECK(bytes == 57 + 4 * (profile - 1));
        free_both(first, second);
    }
    free_both(left, right);
}

/* Where all is listed at once, what is learned rises. */
static void one_list(void) {
    const char *text = "cap = 8\nlimit = 8\nrounds = 0\nrow = [{upto = 8, list = true}]";
    static const items ours = {3, {{"a", 1}, {"abc", 3}, {"b", 1}}}, theirs = {2, {{"A", 1}, {"ab", 2}}};
    static items own, other;
    rs_strategy strategy = {NULL};
    size_t used = 0;
    strcpy(about, "one List");
    CHECK(rs_strategy_read((const uint8_t *)text, strlen(text), &strategy) == 0);
    rs_set left = set_of(&strategy, RS_TEXT, "same\nb\nabc\na"), right = set_of(&strategy, RS_TEXT, "ab\nsame\nA");
    rs_session first = open_on(&left, RS_FIRST, 1), second = open_on(&right, RS_SECOND, 1);
    speak(&first, &second, 1000);
    check_both(&first, &second, &ours, &theirs);
    CHECK(read_items(&first, rs_session_ours, 3, &own) && same(&own, &ours));
    CHECK(read_items(&first, rs_session_theirs, 2, &other) && same(&other, &theirs));
    CHECK(rs_session_ours(&first, 1, own.at[0].bytes, 2, &used) == 98 && own.at[0].bytes[0] == 'a');
    CHECK(rs_session_ours(&first, 1, own.at[0].bytes, 3, &used) == 0 && used == 3);
    /* What comes after the end counts no more. */
    push(&first, "GET", 3);
    CHECK(rs_session_finish(&first) == 0 && ended_well(&first) && learned_just(&first, &ours, &theirs));
    free_both(first, second);
    free_both(left, right);
    rs_free(strategy);
}

#define HELLO "RRS1"
#define FAULT(number) "\0\0\0\x02\x05" number

/* What makes a session stop, and what is due then. */
static void refusals(void) {
    uint8_t room[64];
    size_t size = 77, theirs = 78;
    rs_set set = set_of(&eight, RS_TEXT, "abc");
    rs_version version = version_of(&set);
    rs_session none = {NULL};
    rs_session cut = open_on(&set, RS_SECOND, 1), garbage = open_on(&set, RS_SECOND, 1);
    rs_session told = open_on(&set, RS_SECOND, 2), other = open_on(&set, RS_FIRST, 2);
    strcpy(about, "no role, no profile");
    CHECK(rs_session_open(&version, 2, 1, &none) == 98 && rs_session_open(&version, RS_FIRST, 0, &none) == 98);
    CHECK(rs_session_open(&version, RS_SECOND, 3, &none) == 98 && none.at == NULL);
    strcpy(about, "a session that is cut off");
    CHECK(stands(&cut, RS_OPEN, 0) && rs_session_learned(&cut, &size, &theirs) == 98);
    CHECK(rs_session_ours(&cut, 0, room, 64, &size) == 98 && rs_session_theirs(&cut, 0, room, 64, &size) == 98);
    push(&cut, HELLO "\0\0", 6);
    CHECK(rs_session_finish(&cut) == 0 && stands(&cut, RS_REFUSED, 3));
    CHECK(rs_session_learned(&cut, &size, &theirs) == 98 && size == 77 && theirs == 78);
    CHECK(due_are(&cut, HELLO FAULT("\x03"), 10) && due_are(&cut, "", 0));
    strcpy(about, "garbage");
    push(&garbage, "GET / HTTP/1.1\r\n", 16);
    CHECK(stands(&garbage, RS_REFUSED, 1) && due_are(&garbage, HELLO FAULT("\x01"), 10));
    push(&garbage, HELLO, 4);
    CHECK(rs_session_finish(&garbage) == 0 && stands(&garbage, RS_REFUSED, 1) && due_are(&garbage, "", 0));
    strcpy(about, "a fault frame");
    push(&told, "RRS2" FAULT("\x15") "and more", 18);
    CHECK(stands(&told, RS_PEER_REFUSED, 21) && due_are(&told, "RRS2", 4));
    strcpy(about, "another profile");
    push(&other, HELLO, 4);
    CHECK(stands(&other, RS_REFUSED, 1));
    free_both(cut, garbage);
    free_both(told, other);
    free_both(set, version);
}

/* A set in shards of the items of a text. */
static rs_shards shards_of(rs_strategy *strategy, uint32_t bits, uint32_t form, const char *text) {
    const uint8_t *name = (const uint8_t *)"name", *lines = (const uint8_t *)text;
    rs_shards made = {NULL};
    CHECK(rs_shards_read(strategy, name, 4, bits, form, lines, strlen(text), &made) == 0);
    return made;
}

/* A shard, or the directory, of the items between these bounds. */
static rs_version shard_of(rs_shards *shards, uint32_t number, const char *lower, const char *upper) {
    const uint8_t *from = (const uint8_t *)lower, *to = (const uint8_t *)upper;
    rs_version made = {NULL};
    CHECK(rs_shards_share(shards, number, from, strlen(lower), to, strlen(upper), &made) == 0);
    return made;
}

/* The first bits of the digests of b, c, d, e, f, j, m, n and o are 0, and those of a, g, h, i, k and l are 1. */
static void in_shards(void) {
    bool is_new = false;
    size_t count = 0;
    strcpy(about, "a set in shards");
    rs_shards set = shards_of(&eight, 1, RS_TEXT, "n\nb\na\n\nc\r\nd\n0x65\nf\nj\nm\nb\nk\nl\n"), out = {NULL};
    rs_version first = shard_of(&set, 0, "", ""), second = shard_of(&set, 1, "", "");
    rs_version part = shard_of(&set, 0, "c", "f"), some = shard_of(&set, RS_DIRECTORY, "k", "l");
    rs_version entries = shard_of(&set, RS_DIRECTORY, "", "");
    CHECK(rs_shards_count(&set, &count) == 0 && count == 11);
    CHECK(strcmp(items_in(&first, "", ""), "|b|c|d|e|f|j|m|n") == 0);
    CHECK(strcmp(items_in(&second, "", ""), "|a|k|l") == 0);
    CHECK(strcmp(items_in(&part, "", ""), "|c|d|e") == 0);
    CHECK(rs_version_count(&entries, &count) == 0 && count == 2 && rs_version_count(&some, &count) == 0 && count == 2);
    CHECK(rs_shards_insert(&set, (const uint8_t *)"o", 1, &is_new) == 40 && !is_new);
    CHECK(rs_shards_insert(&set, (const uint8_t *)"i", 1, &is_new) == 0 && is_new);
    CHECK(rs_shards_insert(&set, (const uint8_t *)"b", 1, &is_new) == 0 && !is_new);
    CHECK(rs_shards_count(&set, &count) == 0 && count == 12 && strcmp(items_in(&second, "", ""), "|a|k|l") == 0);
    const uint8_t *none = (const uint8_t *)"", *nine = (const uint8_t *)"b\nc\nd\ne\nf\nj\nm\nn\no\n";
    CHECK(rs_shards_read(&eight, none, 0, 1, RS_TEXT, nine, 18, &out) == 82 && out.at == NULL);
    CHECK(rs_shards_read(&eight, none, 0, 3, RS_TEXT, nine, 18, &out) == 0);
    free_both(first, second);
    free_both(entries, some);
    free_both(part, set);
    rs_free(out);
}

/* Lets one set ask the other for what has this number: the session of the first, which has ended. */
static rs_session ask(rs_shards *here, rs_shards *there, uint32_t number, uint32_t profile) {
    uint8_t came[1000];
    size_t selector = 0, used = 0, length = 0;
    uint32_t asked = 77, wire = 77;
    rs_session first = {NULL}, second = {NULL};
    rs_version mine = shard_of(here, number, "", ""), other = {NULL};
    CHECK(rs_shards_selector(here, number, came, 0, came + 1, 0, came + 2, 202, &selector) == 0);
    memmove(came, came + 2, selector);
    CHECK(rs_session_open(&mine, RS_FIRST, profile, &first) == 0);
    CHECK(rs_session_pull(&first, came + selector, sizeof came - selector, &used) == 0 && used > 4);
    CHECK(rs_shards_asked(there, came, selector + 3, false, &asked, &length, &wire, &other) == 98);
    CHECK(rs_shards_asked(there, came, selector + used, false, &asked, &length, &wire, &other) == 0);
    CHECK(asked == number && length == selector && wire == profile);
    CHECK(rs_session_open(&other, RS_SECOND, profile, &second) == 0);
    push(&second, (const char *)came + selector, used);
    speak(&first, &second, 1000);
    CHECK(ended_well(&first) && ended_well(&second));
    free_both(mine, other);
    rs_free(second);
    return first;
}

/* Appends the items of one kind that a session learned. */
static void take_items(rs_session *session, learned_at *learned, size_t count, items *all) {
    static items part;
    CHECK(read_items(session, learned, count, &part));
    for (size_t place = 0; place < count; place++) all->at[all->count++] = part.at[place];
}

/* Two sets in eight shards: a session for the directory, and one for each shard that differs. */
static void between_shards(rule here, rule there, uint32_t profile) {
    static items ours, theirs, own, other;
    uint8_t told[8];
    rs_shards left = shards_of(&all_round, 3, RS_HEX, lines_by(1000, here));
    rs_shards right = shards_of(&all_round, 3, RS_HEX, lines_by(1000, there));
    only_here(&ours, 1000, here, there);
    only_here(&theirs, 1000, there, here);
    sprintf(about, "shards in profile %u, %zu and %zu", profile, ours.count, theirs.count);
    own.count = other.count = 0;
    rs_session directory = ask(&left, &right, RS_DIRECTORY, profile);
    CHECK(rs_session_differing(&directory, 3, told, 8) == 0);
    for (uint32_t number = 0; number < 8; number++) {
        size_t own_count = 0, other_count = 0;
        rs_session session = ask(&left, &right, number, profile);
        CHECK(rs_session_learned(&session, &own_count, &other_count) == 0);
        CHECK(told[number] == (own_count + other_count > 0 ? RS_DIFFERS : RS_EQUAL));
        take_items(&session, rs_session_ours, own_count, &own);
        take_items(&session, rs_session_theirs, other_count, &other);
        rs_free(session);
    }
    sort(&own);
    sort(&other);
    CHECK(same(&own, &ours) && same(&other, &theirs));
    free_both(left, right);
    rs_free(directory);
}

static bool but_one(uint32_t number) { return number != 77; }
static bool everywhere(uint32_t number) { return number < UINT32_MAX; }

/* A set that grows by one item after every fifth of the sessions that are opened over it. */
enum { BASE = 200, MANY = 1000, LAST = BASE + MANY / 5 };
static uint32_t grown = BASE;
static bool on_growing(uint32_t number) { return number < BASE ? number % 20 != 3 : number < grown; }
static bool on_other(uint32_t number) { return number < BASE ? number % 30 != 4 : number % 2 == 1; }

static bool put_in(rs_set *set, uint32_t number) {
    bool is_new = false;
    item next = item_of(number);
    return rs_set_insert(set, next.bytes, next.length, &is_new) == 0 && is_new;
}

static void growing(void) {
    static rs_session many[MANY];
    static items ours, theirs;
    rs_set set = set_by(LAST, on_growing), other = set_by(LAST, on_other);
    strcpy(about, "a set that grows");
    for (uint32_t place = 0; place < MANY; place++) {
        many[place] = open_on(&set, place % 2 == 0 ? RS_FIRST : RS_SECOND, 1);
        if (place % 5 == 4) CHECK(put_in(&set, BASE + place / 5));
    }
    for (uint32_t place = MANY; place-- > 0;) {
        rs_session peer = open_on(&other, place % 2 == 0 ? RS_SECOND : RS_FIRST, 1);
        sprintf(about, "session %u over a set that has grown", place);
        grown = BASE + place / 5;
        only_here(&ours, LAST, on_growing, on_other);
        only_here(&theirs, LAST, on_other, on_growing);
        if (place % 2 == 0) speak(&many[place], &peer, 1000);
        else speak(&peer, &many[place], 1000);
        check_both(&many[place], &peer, &ours, &theirs);
        free_both(many[place], peer);
    }
    free_both(set, other);
}

/* What a thread has: two sessions that were opened elsewhere, and two versions. */
enum { THREADS = 4 };
typedef struct {
    rs_session first, second;
    rs_version left, right;
    bool well;
} work;

/* Speaks the two sessions, and others that it opens over the versions. */
static void *run(void *data) {
    work *its = data;
    speak(&its->first, &its->second, 1000);
    its->well = true;
    for (int round = 0; round < 50; round++) {
        rs_session first = {NULL}, second = {NULL};
        its->well = its->well && rs_session_open(&its->left, RS_FIRST, 2, &first) == 0;
        its->well = its->well && rs_session_open(&its->right, RS_SECOND, 2, &second) == 0;
        if (!its->well) break;
        speak(&first, &second, 1000);
        its->well = ended_well(&first) && ended_well(&second);
        free_both(first, second);
    }
    return NULL;
}

static void threads(void) {
    static items ours, theirs;
    pthread_t ids[THREADS];
    work works[THREADS];
    rs_set left = set_by(200, on_left), right = set_by(200, on_right);
    only_here(&ours, 200, on_left, on_right);
    only_here(&theirs, 200, on_right, on_left);
    strcpy(about, "threads");
    for (int place = 0; place < THREADS; place++) {
        rs_session first = open_on(&left, RS_FIRST, 1), second = open_on(&right, RS_SECOND, 1);
        works[place] = (work){first, second, version_of(&left), version_of(&right), false};
    }
    for (int place = 0; place < THREADS; place++) CHECK(pthread_create(&ids[place], NULL, run, &works[place]) == 0);
    for (uint32_t number = 200; number < 400; number++) CHECK(put_in(&left, number) && put_in(&right, number));
    for (int place = 0; place < THREADS; place++) {
        CHECK(pthread_join(ids[place], NULL) == 0 && works[place].well);
        check_both(&works[place].first, &works[place].second, &ours, &theirs);
        free_both(works[place].first, works[place].second);
        free_both(works[place].left, works[place].right);
    }
    free_both(left, right);
}

/* Reads the two strategies: that of a file, and halves. */
static void read_strategies(const char *path) {
    static uint8_t text[10000];
    FILE *file = fopen(path, "rb");
    if (file == NULL) {
        perror(path);
        exit(3);
    }
    size_t length = fread(text, 1, sizeof text, file);
    fclose(file);
    CHECK(rs_strategy_read(text, length, &all_round) == 0);
    CHECK(rs_strategy_read((const uint8_t *)HEAD HALVES, strlen(HEAD HALVES), &eight) == 0);
}

int main(int count, char **words) {
    if (count != 2) {
        fprintf(stderr, "usage: checks STRATEGY\n");
        return 2;
    }
    setvbuf(stdout, NULL, _IOLBF, 0);
    read_strategies(words[1]);
    item_files();
    insertions();
    ranges();
    parts();
    sessions(on_left, on_right);
    sessions(on_right, nowhere);
    sessions(on_left, on_left);
    one_list();
    refusals();
    in_shards();
    between_shards(on_left, on_right, 1);
    between_shards(on_right, nowhere, 2);
    between_shards(everywhere, but_one, 1);
    growing();
    threads();
    free_both(all_round, eight);
    printf("%u passed, %u failed\n", passed, failed);
    return failed != 0;
}
