/* Checks of calls that fail: with a text that is refused, with a handle of another kind, and where memory runs out. It
 * is linked with --wrap=malloc,--wrap=realloc,--wrap=free. Prints a line for each check that fails, and at the end
 * 'N passed, M failed'. */
#include "rangesync.h"
#include "wrapped.h"
#include <stdio.h>
#include <stdlib.h>
#include <string.h>

static unsigned passed, failed;
/* What is checked. */
static char about[80];

static void check(int line, bool right, const char *what) {
    passed += right;
    failed += !right;
    if (!right) printf("failing.c:%d: %s: %s\n", line, about, what);
}

#define CHECK(what) check(__LINE__, (what), #what)

#define HEAD "cap = 8\nlimit = 1\nrounds = 3\n"
#define HALVES "row = [{upto = 1, list = true}, {upto = 8, split = [1, 1]}]"
#define X64 "xxxxxxxxxxxxxxxxxxxxxxxxxxxxxxxxxxxxxxxxxxxxxxxxxxxxxxxxxxxxxxxx"

/* ---- texts that are refused */

static void bad_strategies(void) {
    static const struct {
        uint32_t number;
        const char *text;
    } bad[] = {
        {30, "cap = "},
        {31, "cap = 8\nlimit = 1\n"},
        {32, "cap = 8\nlimit = 1\nrounds = 256\n"},
        {33, HEAD "row = [{upto = 1, list = true}, {upto = 1, split = [1, 1]}]"},
        {34, HEAD "row = [{upto = 8}]"},
        {35, HEAD "row = [{upto = 1, list = true}]"},
        {29, HEAD "bounds = 'long'\n" HALVES},
        {36, HEAD "row = [{upto = 1, list = true}, {upto = 8, split = [1, 15]}]"},
        {37, HEAD "row = [{upto = 2, list = true}, {upto = 8, split = [1, 1]}]"},
        {38, "cap = 8\nlimit = 1\nrounds = 2\n" HALVES},
    };
    for (size_t place = 0; place < sizeof bad / sizeof *bad; place++) {
        rs_strategy made = {NULL};
        const uint8_t *text = (const uint8_t *)bad[place].text;
        sprintf(about, "a strategy refused %u", bad[place].number);
        CHECK(rs_strategy_read(text, strlen(bad[place].text), &made) == bad[place].number && made.at == NULL);
    }
}

static void bad_item_files(rs_strategy *strategy) {
    static const struct {
        uint32_t number, form;
        const char *text;
    } bad[] = {
        {81, RS_HEX, "61\n6g\n"}, {81, RS_HEX, "616\n"}, {81, RS_HEX, "61 62\n"}, {81, RS_TEXT, "a\n0x6g\n"},
        {81, RS_TEXT, X64 "x\n"}, {82, RS_TEXT, "a\nb\nc\nd\ne\nf\ng\nh\ni\n"}, {98, 2, "61\n"},
    };
    for (size_t place = 0; place < sizeof bad / sizeof *bad; place++) {
        rs_set made = {NULL};
        const uint8_t *text = (const uint8_t *)bad[place].text;
        sprintf(about, "the item file %zu", place);
        CHECK(rs_set_read(strategy, bad[place].form, text, strlen(bad[place].text), &made) == bad[place].number);
        rs_shards shards = {NULL};
        uint32_t said = rs_shards_read(strategy, text, 0, 0, bad[place].form, text, strlen(bad[place].text), &shards);
        CHECK(said == bad[place].number && made.at == NULL && shards.at == NULL);
    }
}

static void bad_shards(rs_strategy *strategy) {
    static const struct {
        uint32_t number;
        size_t length;
        uint32_t bits;
    } bad[] = {{98, 65, 0}, {98, 0, 13}, {98, 64, 1u << 31}, {82, 0, 4}, {82, 64, 12}};
    const uint8_t *name = (const uint8_t *)X64 "x";
    for (size_t place = 0; place < sizeof bad / sizeof *bad; place++) {
        rs_shards made = {NULL};
        sprintf(about, "the shards %zu", place);
        uint32_t opened = rs_shards_open(strategy, name, bad[place].length, bad[place].bits, &made);
        uint32_t read = rs_shards_read(strategy, name, bad[place].length, bad[place].bits, 2, name, 0, &made);
        CHECK(opened == bad[place].number && read == bad[place].number && made.at == NULL);
    }
}

/* ---- handles of another kind */

enum { STRATEGY, SET, VERSION, SESSION, SHARDS, KINDS };

/* What calls write to. */
static rs_handle made;
static uint8_t room[64];
static const uint8_t bound[] = "z";
static size_t size, other_size;
static uint32_t number, other_number;
static bool answer;

/* The kind that the call of a number takes. */
static const int kinds[] = {
    STRATEGY, SET, SET, SET, VERSION, VERSION, VERSION, VERSION, VERSION, VERSION,
    SESSION, SESSION, SESSION, SESSION, SESSION, SESSION, SESSION, SESSION,
    STRATEGY, SHARDS, SHARDS, SHARDS, SHARDS, SHARDS, STRATEGY, SESSION,
};

/* The handle goes by no type of its own, as in a language without these types. */
static uint32_t call(size_t which, void *it) {
    void *out = &made;
    switch (which) {
    case 0: return rs_set_read(it, RS_TEXT, room, 1, out);
    case 1: return rs_set_insert(it, room, 1, &answer);
    case 2: return rs_set_count(it, &size);
    case 3: return rs_set_share(it, out);
    case 4: return rs_version_count(it, &size);
    case 5: return rs_version_has(it, room, 1, &answer);
    case 6: return rs_session_open(it, RS_FIRST, 1, out);
    case 7: return rs_version_count_in(it, room, 0, room, 0, &size);
    case 8: return rs_version_item_in(it, bound, 1, bound, 1, 0, room, sizeof room, &size);
    case 9: return rs_version_part(it, room, 0, bound, 1, out);
    case 10: return rs_session_push(it, room, 1, &size);
    case 11: return rs_session_finish(it);
    case 12: return rs_session_pull(it, room, sizeof room, &size);
    case 13: return rs_session_state(it, &number, &other_number);
    case 14: return rs_session_messages(it, &number, &other_number);
    case 15: return rs_session_learned(it, &size, &other_size);
    case 16: return rs_session_ours(it, 0, room, sizeof room, &size);
    case 17: return rs_session_theirs(it, 0, room, sizeof room, &size);
    case 18: return rs_shards_open(it, bound, 1, 1, out);
    case 19: return rs_shards_insert(it, room, 1, &answer);
    case 20: return rs_shards_count(it, &size);
    case 21: return rs_shards_share(it, 0, room, 0, room, 0, out);
    case 22: return rs_shards_selector(it, 0, bound, 0, bound, 0, room, sizeof room, &size);
    case 23: return rs_shards_asked(it, bound, 1, true, &number, &size, &other_number, out);
    case 24: return rs_shards_read(it, bound, 1, 13, 2, room, 1, out);
    default: return rs_session_differing(it, 1, room, sizeof room);
    }
}

static bool nothing_written(void) {
    bool numbers = size == 77 && other_size == 77 && number == 77 && other_number == 77;
    return numbers && made.at == NULL && room[0] == 'z' && answer;
}

/* Each call with a handle of each other kind. */
static void other_kinds(void *handles[KINDS]) {
    room[0] = 'z';
    size = other_size = number = other_number = 77;
    answer = true;
    for (size_t which = 0; which < sizeof kinds / sizeof *kinds; which++) {
        for (int kind = 0; kind < KINDS; kind++) {
            sprintf(about, "call %zu, kind %d", which, kind);
            if (kind != kinds[which]) CHECK(call(which, handles[kind]) == 99 && nothing_written());
        }
    }
}

/* ---- memory that runs out */

/* How many requests are served before one is refused; below 0 none is. */
static long ahead = -1;
/* One was refused since this was set back, as it is before each call; whether all after it are refused too. */
static bool met, all_after;
/* The blocks that were given out and are not given back. */
static long live;

static bool is_refused(void) {
    if (met && all_after) return true;
    if (ahead < 0 || ahead-- > 0) return false;
    met = true;
    return true;
}

void *__wrap_malloc(size_t size) {
    void *block = is_refused() ? NULL : __real_malloc(size);
    live += block != NULL;
    return block;
}

void *__wrap_realloc(void *old, size_t size) {
    void *block = is_refused() ? NULL : __real_realloc(old, size);
    live += old == NULL && block != NULL;
    return block;
}

void __wrap_free(void *block) {
    live -= block != NULL;
    __real_free(block);
}

/* Makes a call. If a request was refused in it, it gives 90 and nothing has changed, or it did a part. After 90 the
 * same call does its work. */
#define TWICE(call, unchanged, a_part)       \
    do {                                     \
        met = false;                         \
        uint32_t gave = (call);              \
        if (gave == 90) {                    \
            CHECK(met && (unchanged));       \
            met = false;                     \
            gave = (call);                   \
        }                                    \
        CHECK(gave == 0 && met == (a_part)); \
    } while (0)

/* How a session stands, in one number. */
static uint64_t standing(rs_session *session) {
    uint32_t state = 0, code = 0, sent = 0, bound = 0;
    CHECK(rs_session_state(session, &state, &code) == 0);
    CHECK(rs_session_messages(session, &sent, &bound) == 0 && sent <= bound);
    return state + 10 * code + ((uint64_t)sent << 32);
}

static rs_strategy read_strategy(const char *text) {
    rs_strategy out = {NULL};
    TWICE(rs_strategy_read((const uint8_t *)text, strlen(text), &out), out.at == NULL, false);
    return out;
}

/* The set of these items of a byte each. */
static rs_set read_set(rs_strategy *strategy, uint32_t form, const char *letters) {
    char lines[200], *to = lines;
    rs_set out = {NULL};
    for (; *letters != 0; letters++) to += sprintf(to, form == RS_HEX ? "%02x\n" : "%c\n", *letters);
    TWICE(rs_set_read(strategy, form, (const uint8_t *)lines, (size_t)(to - lines), &out), out.at == NULL, false);
    return out;
}

static size_t count_of(rs_set *set) {
    size_t count = 0;
    CHECK(rs_set_count(set, &count) == 0);
    return count;
}

static void put_in(rs_set *set, char letter, bool is_new) {
    size_t before = count_of(set);
    bool told = !is_new;
    TWICE(rs_set_insert(set, (const uint8_t *)&letter, 1, &told), told == !is_new && count_of(set) == before, false);
    CHECK(told == is_new && count_of(set) == before + is_new);
}

static rs_version share(rs_set *set) {
    size_t count = 0;
    rs_version out = {NULL};
    TWICE(rs_set_share(set, &out), out.at == NULL, false);
    CHECK(rs_version_count(&out, &count) == 0 && count == count_of(set));
    return out;
}

/* The part of a version between two letters. */
static rs_version part_of(rs_version *version, const char *lower, const char *upper) {
    size_t count = 0;
    rs_version out = {NULL};
    TWICE(rs_version_part(version, (const uint8_t *)lower, 1, (const uint8_t *)upper, 1, &out), out.at == NULL, false);
    CHECK(rs_version_count(&out, &count) == 0 && count == (size_t)(*upper - *lower));
    return out;
}

static rs_session open_over(rs_version *version, uint32_t role, uint32_t profile) {
    rs_session out = {NULL};
    TWICE(rs_session_open(version, role, profile, &out), out.at == NULL, false);
    return out;
}

static bool is_filled(const uint8_t *bytes, size_t length) {
    size_t place = 0;
    while (place < length && bytes[place] == 0xee) place++;
    return place == length;
}

/* All that was pulled in a run, and in the first one, in which no request is refused. */
static uint8_t said[20000], first_said[20000];
static size_t said_length, first_length;

/* Moves a piece of what is due to the end of what was said. */
static size_t pull(rs_session *session, size_t most) {
    size_t used = 77;
    uint64_t before = standing(session);
    uint8_t *to = said + said_length;
    memset(to, 0xee, most);
    TWICE(rs_session_pull(session, to, most, &used),
          used == 77 && is_filled(to, most) && standing(session) == before, false);
    said_length += used;
    return used;
}

static void push(rs_session *session, const uint8_t *bytes, size_t length) {
    while (length > 0) {
        size_t taken = 77;
        uint64_t before = standing(session);
        TWICE(rs_session_push(session, bytes, length, &taken),
              taken == 77 && standing(session) == before, taken < length);
        CHECK(0 < taken && taken <= length);
        if (taken == 0 || taken > length) return;
        bytes += taken;
        length -= taken;
    }
}

static size_t pass(rs_session *from, rs_session *to) {
    size_t used, all = 0;
    while ((used = pull(from, 200)) > 0) {
        push(to, said + said_length - used, used);
        all += used;
    }
    return all;
}

typedef uint32_t learned_at(rs_session *session, size_t place, uint8_t *item, size_t length, size_t *used);

/* Whether the items learned are these letters, in some order. */
static bool spell(rs_session *session, learned_at *learned, size_t count, const char *letters) {
    uint8_t item[64];
    uint32_t wanted = 0, found = 0;
    for (size_t place = 0; letters[place] != 0; place++) wanted |= 1u << (letters[place] - 'a');
    for (size_t place = 0, used = 0; place < count; place++) {
        if (learned(session, place, item, 64, &used) != 0 || used != 1) return false;
        found |= 1u << (item[0] - 'a');
    }
    return found == wanted && count == strlen(letters);
}

static void check_ended(rs_session *session, const char *ours, const char *theirs) {
    size_t own = 0, other = 0;
    CHECK((uint32_t)standing(session) == RS_ENDED && rs_session_learned(session, &own, &other) == 0);
    CHECK(spell(session, rs_session_ours, own, ours) && spell(session, rs_session_theirs, other, theirs));
}

/* A session that hears garbage says its hello and a fault frame. */
static void check_garbage(rs_session *session, const char *all) {
    push(session, (const uint8_t *)"GET / HTTP/1.1\r\n", 16);
    CHECK(standing(session) == RS_REFUSED + 10 * 1);
    CHECK(pull(session, 200) == 10 && memcmp(said + said_length - 10, all, 10) == 0);
}

/* ---- a set in shards: a is in shard 1 of two, and b and c are in shard 0 */

static rs_shards open_shards(rs_strategy *strategy, const char *letters) {
    rs_shards out = {NULL};
    TWICE(rs_shards_open(strategy, (const uint8_t *)"set", 3, 1, &out), out.at == NULL, false);
    for (size_t count = 0, told = 77; letters[count] != 0; count++) {
        bool is_new = false;
        TWICE(rs_shards_insert(&out, (const uint8_t *)letters + count, 1, &is_new), !is_new, false);
        CHECK(is_new && rs_shards_count(&out, &told) == 0 && told == count + 1);
        CHECK(rs_shards_insert(&out, (const uint8_t *)letters + count, 1, &is_new) == 0 && !is_new);
    }
    return out;
}

/* The same from a text. */
static rs_shards read_shards(rs_strategy *strategy, const char *letters) {
    char lines[20], *to = lines;
    size_t told = 77;
    rs_shards out = {NULL};
    for (size_t place = 0; letters[place] != 0; place++) to += sprintf(to, "%c\n", letters[place]);
    const uint8_t *name = (const uint8_t *)"set", *text = (const uint8_t *)lines;
    TWICE(rs_shards_read(strategy, name, 3, 1, RS_TEXT, text, (size_t)(to - lines), &out), out.at == NULL, false);
    CHECK(rs_shards_count(&out, &told) == 0 && told == strlen(letters));
    return out;
}

/* A session between two such sets over what has this number, each of which learns what it lacks. */
static rs_session ask_for(rs_shards *here, rs_shards *there, uint32_t which, uint32_t profile) {
    uint8_t came[20] = {0};
    size_t used = 77, taken = 77;
    uint32_t named = 77, wire = 77;
    rs_version mine = {NULL}, asked = {NULL};
    TWICE(rs_shards_share(here, which, came, 0, came, 0, &mine), mine.at == NULL, false);
    TWICE(rs_shards_selector(here, which, came, 0, came, 0, came, sizeof came, &used), used == 77 && came[0] == 0,
          false);
    CHECK(used == 11 && memcmp(came, "RRSN\3set\1", 9) == 0);
    CHECK(came[9] == which >> 8 && came[10] == (which & 0xff));
    rs_session first = open_over(&mine, RS_FIRST, profile);
    CHECK(rs_shards_asked(there, came, used, false, &named, &taken, &wire, &asked) == 98);
    memcpy(came + used, profile == 1 ? "RRS1" : "RRS2", 4);
    CHECK(rs_shards_asked(there, came, used + 3, false, &named, &taken, &wire, &asked) == 98);
    CHECK(named == 77 && taken == 77 && wire == 77 && asked.at == NULL);
    TWICE(rs_shards_asked(there, came, used + 4, false, &named, &taken, &wire, &asked),
          named == 77 && taken == 77 && asked.at == NULL, false);
    CHECK(named == which && taken == used && wire == profile);
    rs_session second = open_over(&asked, RS_SECOND, wire);
    rs_free(mine), rs_free(asked);
    while (pass(&first, &second) + pass(&second, &first) > 0) {
    }
    rs_free(second);
    return first;
}

/* Asks for what is no shard here, or no selector, or not all of one. */
static void refuse_asked(rs_shards *shards) {
    static const struct {
        uint32_t number, profile;
        size_t length;
        const char *came;
    } asked[] = {
        {1, 1, 4, "RRS1"}, {1, 2, 4, "RRS2"}, {55, 2, 15, "RRSN\3sat\1\0\0RRS2"}, {55, 1, 11, "RRSN\3set\1\0\2"},
        {3, 1, 10, "RRSN\3set\1\0"}, {55, 1, 5, "RRSN\101"}, {3, 1, 0, ""}, {55, 1, 13, "RRSP\3set\1\0\0\0\0"},
    };
    for (size_t place = 0; place < sizeof asked / sizeof *asked; place++) {
        uint32_t named = 77, wire = 77;
        size_t taken = 77;
        rs_version out = {NULL};
        sprintf(about, "what is asked, %zu", place);
        CHECK(rs_shards_asked(shards, (const uint8_t *)asked[place].came, asked[place].length, true, &named, &taken,
                              &wire, &out) == asked[place].number);
        CHECK(wire == asked[place].profile && named == 77 && taken == 77 && out.at == NULL);
    }
}

static void sharded(rs_strategy *strategy, uint32_t profile) {
    uint8_t told[3] = {7, 7, 7};
    rs_shards here = open_shards(strategy, "ab"), there = read_shards(strategy, "acb");
    rs_session directory = ask_for(&here, &there, RS_DIRECTORY, profile);
    CHECK(rs_session_differing(&directory, 1, told, 1) == 98 && rs_session_differing(&directory, 13, told, 3) == 98);
    TWICE(rs_session_differing(&directory, 1, told, 3), told[0] == 7 && told[1] == 7, false);
    CHECK(told[0] == RS_DIFFERS && told[1] == RS_EQUAL && told[2] == 7);
    rs_session shard = ask_for(&here, &there, 0, profile);
    check_ended(&shard, "", "c");
    met = false;
    uint32_t gave = rs_session_differing(&shard, 1, told, 2);
    CHECK(gave == (met ? 90 : 57) && told[0] == RS_DIFFERS);
    refuse_asked(&here);
    rs_free(directory), rs_free(shard), rs_free(here), rs_free(there);
}

#define STRATEGY_OF_64 \
    "cap = 64\nlimit = 2\nrounds = 5\nrow = [{upto = 2, list = true}, {upto = 64, split = [1, 1]}]"

/* Each call, in an order in which a program makes them. */
static void whole_run(uint32_t profile) {
    said_length = 0;
    rs_strategy strategy = read_strategy(STRATEGY_OF_64);
    rs_set left = read_set(&strategy, RS_TEXT, "abcdefghijklmnopqrstuvw");
    rs_set right = read_set(&strategy, RS_HEX, "bcdefghijklmnopqrstuvwxy");
    put_in(&left, 'z', true);
    put_in(&left, 'a', false);
    rs_version here = share(&left), there = share(&right), part = part_of(&there, "c", "k");
    put_in(&left, 'x', true);
    rs_session first = open_over(&here, RS_FIRST, profile), second = open_over(&there, RS_SECOND, profile);
    rs_session third = open_over(&part, RS_SECOND, profile);
    rs_shards shards = open_shards(&strategy, "");
    other_kinds((void *[]){&strategy, &left, &here, &first, &shards});
    sharded(&strategy, profile);
    rs_free(shards);
    rs_free(strategy), rs_free(left), rs_free(right);
    rs_free(here), rs_free(there), rs_free(part);
    while (pass(&first, &second) + pass(&second, &first) > 0) {
    }
    check_ended(&first, "az", "xy");
    check_ended(&second, "xy", "az");
    check_garbage(&third, profile == 1 ? "RRS1\0\0\0\x02\x05\x01" : "RRS2\0\0\0\x02\x05\x01");
    rs_free(first), rs_free(second), rs_free(third);
}

/* A run in which each request for memory is served, and then runs in which the first is refused, the second, .., up to
 * one that has no such request. Says how many were refused. */
static long refuse_in_turn(uint32_t profile) {
    long refused = 0;
    whole_run(profile);
    memcpy(first_said, said, first_length = said_length);
    for (ahead = 0; failed == 0; ahead = ++refused) {
        sprintf(about, "profile %u, request %ld%s", profile, refused + 1, all_after ? " and those after it" : "");
        whole_run(profile);
        CHECK(live == 0 && said_length == first_length && memcmp(said, first_said, said_length) == 0);
        if (ahead >= 0) break;
    }
    ahead = -1;
    return refused;
}

int main(void) {
    setvbuf(stdout, NULL, _IOLBF, 0);
    rs_strategy strategy = read_strategy(HEAD HALVES);
    bad_strategies();
    bad_item_files(&strategy);
    bad_shards(&strategy);
    rs_free(strategy);
    for (int way = 0; way < 4; way++) {
        all_after = way >= 2;
        const char *how = all_after ? ", each with those after it in its call" : "";
        printf("profile %d: %ld requests refused in turn%s\n", 1 + way % 2, refuse_in_turn(1 + way % 2), how);
    }
    printf("%u passed, %u failed\n", passed, failed);
    return failed != 0;
}
