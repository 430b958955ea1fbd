/* One side of a rangesync session, in this process.
 *
 * A program keeps a set of items, and opens sessions over versions of it. A session takes the bytes that came from its
 * peer, cut in any way, and gives the bytes that are due to it: the program moves them, over a socket or whatever it
 * has. Once a session has ended it tells the items that only one of the sides has.
 *
 *     rs_strategy strategy; rs_set set; rs_version version; rs_session session;
 *     rs_strategy_read(text, text_length, &strategy);          a strategy file, as examples/all-round.toml
 *     rs_set_read(&strategy, RS_HEX, lines, lines_length, &set);
 *     rs_set_share(&set, &version);                            the set as it is now
 *     rs_session_open(&version, RS_FIRST, 1, &session);
 *     rs_session_pull(&session, room, sizeof room, &used);     and send these bytes
 *     rs_session_push(&session, came, came_length, &taken);    bytes that came
 *
 * A set has at most as many items as its strategy's cap, 65,536 at most. One of any size is in shards, rs_shards below.
 *
 * Handles. A handle is a struct of one pointer, which the library owns. The compiler warns where one of another kind is
 * given; in a language without these types, one type serves for all. A call that makes a handle writes it to *out, and
 * only where it returns 0. Each handle is given back once, by rs_free, in any order: a session keeps what it needs of
 * its version, its set and its strategy.
 *
 * What is proved of these functions rests on the caller for this, which no call tests:
 *   - each pointer is valid for what it is used for, as far as the length beside it says, and none is NULL, also where
 *     that length is 0;
 *   - what a call may write to overlaps nothing else that it is given: the handle that it uses, `out`, `room`, and each
 *     number or flag. So rs_session_learned(&s, &n, &n) is not allowed. Bytes that a call only reads (const) may
 *     overlap one another: both bounds of a range may be one text;
 *   - each handle was made by a call that returned 0, and was not given back;
 *   - one call at a time uses a handle, and no call is given one handle twice. Between calls a handle may move to
 *     another thread, by a lock, or as a thread starts or is joined. Threads that share a set each take a version of
 *     it (rs_set_share);
 *   - malloc, realloc and free are those of the C library, or serve as they do. No call comes from a signal handler,
 *     or from the forked child of a process with threads.
 *
 * What a call writes a result to need not be initialised: no call reads it. What stood there is overwritten; a handle
 * that stood at `out` is not given back.
 *
 * Each function returns 0, or a number, and then changes nothing, but where it says so:
 *   28 to 35  a text is no strategy          36 to 38  a strategy is not accepted
 *   1, 3, 55  a peer asks for no set, or not wholly, or for another set
 *   40        an item is new, and the set or its shard has as many items as its strategy's cap
 *   57        what a session learned is no directory
 *   71, 72    an item has no byte, or it or a bound has more than 64
 *   73        a lower bound is not below the upper one
 *   81, 82    a line is no item, or there are more different items, or more shards, than the cap
 *   90        memory ran out
 *   98        there is no such thing, or no room for it
 *   99        the handle is of another kind
 * The numbers beside a function are all that it returns but 0. One that has no 90 among them needs no memory: it
 * returns 0 wherever none of its numbers is due.
 * docs/PROTOCOL.md has the numbers by which a session is refused (rs_session_state).
 */
#ifndef RANGESYNC_H
#define RANGESYNC_H
#include <stdbool.h>
#include <stddef.h>
#include <stdint.h>
#ifdef __cplusplus
extern "C" {
#endif

/* A handle of each kind, and one of any kind. They are alike in memory. */
typedef struct rs_strategy {
    void *at;
} rs_strategy;
typedef struct rs_set {
    void *at;
} rs_set;
typedef struct rs_version {
    void *at;
} rs_version;
typedef struct rs_session {
    void *at;
} rs_session;
typedef struct rs_shards {
    void *at;
} rs_shards;
typedef struct rs_handle {
    void *at;
} rs_handle;

/* The form of an item file: a line is an item in hex, or as it stands. In text too, a line that begins with `0x` is in
 * hex. docs/COMMANDS.md says what else is skipped or dropped of a line, under "The item file". */
enum { RS_HEX = 0, RS_TEXT = 1 };

/* The role of a session: it speaks first, or its peer does. */
enum { RS_FIRST = 0, RS_SECOND = 1 };

/* How a session stands. */
enum { RS_OPEN = 0, RS_ENDED = 1, RS_REFUSED = 2, RS_PEER_REFUSED = 3 };

/* Reads a strategy, a text in TOML, and checks that sessions under it end. 28 to 38, 90. */
uint32_t rs_strategy_read(const uint8_t *text, size_t length, rs_strategy *out);

/* Makes a set of the items of an item file's text, which may be empty. 81, 82, 90, 98 (another form), 99. */
uint32_t rs_set_read(rs_strategy *strategy, uint32_t form, const uint8_t *text, size_t length, rs_set *out);

/* Puts an item in, and says whether it is new. Versions that were taken before stay as they are. 40, 71, 72, 90, 99. */
uint32_t rs_set_insert(rs_set *set, const uint8_t *item, size_t length, bool *is_new);

/* Says how many items a set has. 99. */
uint32_t rs_set_count(rs_set *set, size_t *count);

/* Makes a handle of the newest version of a set, which stays as it is. 90, 99. */
uint32_t rs_set_share(rs_set *set, rs_version *out);

/* Says how many items a version has. 99. */
uint32_t rs_version_count(rs_version *version, size_t *count);

/* Says whether a version has an item. 71, 72, 99. */
uint32_t rs_version_has(rs_version *version, const uint8_t *item, size_t length, bool *found);

/* Says how many items a version has from the lower bound on and before the upper one. Items are in the order of their
 * bytes; a bound of length 0 is the start, or the end. 72, 73, 99. */
uint32_t rs_version_count_in(rs_version *version, const uint8_t *lower, size_t lower_length, const uint8_t *upper,
                             size_t upper_length, size_t *count);

/* Writes one of these items, by its place from 0 in their order, and says its length, which is at most 64. 72, 73, 98
 * (there is none; or there is no room for it, and its length is said all the same), 99. */
uint32_t rs_version_item_in(rs_version *version, const uint8_t *lower, size_t lower_length, const uint8_t *upper,
                            size_t upper_length, size_t place, uint8_t *room, size_t length, size_t *used);

/* Makes a handle of a version that has these items alone; the first version stays as it is. A session between two such
 * parts with the same bounds finds how the items there differ. A server opens its part if the selector of that part
 * comes before the bytes of the session (docs/PROTOCOL.md, "Selectors"). 72, 73, 90, 99. */
uint32_t rs_version_part(rs_version *version, const uint8_t *lower, size_t lower_length, const uint8_t *upper,
                         size_t upper_length, rs_version *out);

/* Opens a session over a version, in a role and in wire profile 1 or 2. 90, 98 (another role or profile), 99. */
uint32_t rs_session_open(rs_version *version, uint32_t role, uint32_t profile, rs_session *out);

/* Takes bytes of the peer, cut in any way, and says how many it took: all, unless memory ran out; push the rest again
 * later. It takes at least one, if there is one, or fails. Bytes after the end of a session, or after a refusal, are
 * all taken, and count no more. 90 (it took none, and the session goes on as before), 99. */
uint32_t rs_session_push(rs_session *session, const uint8_t *bytes, size_t length, size_t *taken);

/* Says that the peer's bytes end here: a session that is still open is refused 3, and what is pushed later counts no
 * more. 99. */
uint32_t rs_session_finish(rs_session *session);

/* Moves bytes that are due to the peer to `room`, all of them or as many as fit, and says how many: none where none are
 * due, or where length is 0. Send them all, also where the session has ended or is refused. 90 (it moved none), 99. */
uint32_t rs_session_pull(rs_session *session, uint8_t *room, size_t length, size_t *used);

/* Says how a session stands, and the number by which it is refused, or 0. 99. */
uint32_t rs_session_state(rs_session *session, uint32_t *state, uint32_t *code);

/* Says how many messages a session said, and how many it says at most, whatever comes. 99. */
uint32_t rs_session_messages(rs_session *session, uint32_t *sent, uint32_t *bound);

/* Says how many items were learned that only this side has, and how many that only the other side has. 98 (the session
 * has not ended), 99. */
uint32_t rs_session_learned(rs_session *session, size_t *ours, size_t *theirs);

/* Writes one of these items, by its place from 0 in the order learned, and says its length, which is at most 64. 98
 * (there is none; or there is no room for it, and its length is said all the same), 99. */
uint32_t rs_session_ours(rs_session *session, size_t place, uint8_t *room, size_t length, size_t *used);
uint32_t rs_session_theirs(rs_session *session, size_t place, uint8_t *room, size_t length, size_t *used);

/* A set of any size: 2 to the power of `bits` shards, 0 to 12, each of at most as many items as the strategy's cap. An
 * item is in the shard whose number is the first bits of its SHA-256 digest. The directory is a set of one entry a
 * shard. Both sides need the same bits and the same name.
 *
 * A side that speaks first has a connection for the directory, and one for each shard that differs. On each it sends
 * the selector, and then what its session gives. With 0 bits there is shard 0 alone, and no directory.
 *
 *     rs_shards_share(&shards, RS_DIRECTORY, none, 0, none, 0, &version);       none is where no bytes are
 *     rs_shards_selector(&shards, RS_DIRECTORY, none, 0, none, 0, room, sizeof room, &used);
 *     rs_session_open(&version, RS_FIRST, 1, &session);                         and run it until it has ended
 *     rs_session_differing(&session, bits, told, sizeof told);                  told has a byte for each shard
 *     for each number with told[number] == RS_DIFFERS, the same with the number in place of RS_DIRECTORY
 *
 * A side that answers gives rs_shards_asked what has come, and reads on while that is 98. Its session then takes what
 * has come after the selector. Where it is refused 1, 3 or 55, ten bytes tell the peer: `RRS` and the profile as a
 * digit, then 0 0 0 2 5 and the number. */
enum { RS_DIRECTORY = 0xFFFF };

/* What is said of a shard: the same entry, or none, on both sides; another entry on the other side; none there, and one
 * here. */
enum { RS_EQUAL = 0, RS_DIFFERS = 1, RS_LACKED = 2 };

/* Makes a set without items, in shards. A name has at most 64 bytes. 82 (there are more shards than the cap), 90, 98 (a
 * longer name, or more bits), 99. */
uint32_t rs_shards_open(rs_strategy *strategy, const uint8_t *name, size_t length, uint32_t bits, rs_shards *out);

/* Makes a set of the items of an item file's text, in shards: as rs_shards_open, and then as rs_set_read. 81, 82 (there
 * are more shards than the cap, or more different items in one of them), 90, 98 (a longer name, more bits, or another
 * form), 99. */
uint32_t rs_shards_read(rs_strategy *strategy, const uint8_t *name, size_t name_length, uint32_t bits, uint32_t form,
                        const uint8_t *text, size_t length, rs_shards *out);

/* Puts an item into its shard, and says whether it is new. Versions that were taken before stay as they are. 40, 71,
 * 72, 90, 99. */
uint32_t rs_shards_insert(rs_shards *shards, const uint8_t *item, size_t length, bool *is_new);

/* Says how many items all shards have. 99. */
uint32_t rs_shards_count(rs_shards *shards, size_t *count);

/* Makes a handle of the newest version of a shard, by its number, or of the directory: of the items from the lower
 * bound on and before the upper one, as for rs_version_count_in. The entries of the directory are then of those. 72,
 * 73, 90, 98 (there is no such shard; or there is one alone, and so no directory), 99. */
uint32_t rs_shards_share(rs_shards *shards, uint32_t number, const uint8_t *lower, size_t lower_length,
                         const uint8_t *upper, size_t upper_length, rs_version *out);

/* Writes the selector by which a peer is asked for the same, and says its length, which is at most 202. 72, 73, 90, 98
 * (there is no such shard; or there is no room for it, and its length is said all the same), 99. */
uint32_t rs_shards_selector(rs_shards *shards, uint32_t number, const uint8_t *lower, size_t lower_length,
                            const uint8_t *upper, size_t upper_length, uint8_t *room, size_t length, size_t *used);

/* Makes a handle of the version that the selector of a peer asks for, and says its number, the length of the selector
 * and the profile of the hello after it. It judges what has come once the hello has, or where `ended` says that nothing
 * more comes. 98 (more is to come); 1, 3, 55 (the profile is said all the same: 1 where there is no hello); 90, 99. */
uint32_t rs_shards_asked(rs_shards *shards, const uint8_t *bytes, size_t length, bool ended, uint32_t *number,
                         size_t *used, uint32_t *profile, rs_version *out);

/* Says of each of 2 to the power of `bits` shards, in the byte at its number, what a session over two directories
 * learned: RS_EQUAL, RS_DIFFERS or RS_LACKED. 57, 90, 98 (the session has not ended, there is less room, or there are
 * more bits than 12), 99. */
uint32_t rs_session_differing(rs_session *session, uint32_t bits, uint8_t *room, size_t length);

/* Gives a handle back. The macro takes one of each kind. */
void rs_free(rs_handle handle);
#ifdef __cplusplus
#define rs_free(handle) rs_free(rs_handle{(handle).at})
#else
#define rs_free(handle) rs_free((rs_handle){(handle).at})
#endif

#ifdef __cplusplus
}
#endif
#endif
