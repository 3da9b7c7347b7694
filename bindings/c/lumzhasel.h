/*
 * Lumzhasel from C and C++: the replay of a road network, by the loss of a road and by
 * the loss of a junction, the contraction, the check of sizes, the kind of an event, the
 * reader's call and the check number of answers. Each call is proved, for all inputs, to
 * return and to leave in the lent tables exactly what the definitions say
 * (crates/call_exports_c/src/lib.rt). Link the archive, which `bindings/archive`
 * writes to target/staticlib/libcall_exports.a and `bindings/c/install` puts beside this
 * header as liblumzhasel.a; it is for x86-64 Linux and needs only memcpy and memset of the
 * C library.
 *
 * VERSIONS. What a call is lent gains fields, and replies gain numbers, from one version
 * to the next; their names stay (docs/integrate.md says what each version brought). A
 * program that was built with the header of one version and linked with the archive of
 * another would hand over its tables in the wrong places, and nothing else would notice. So
 * compare lum_version() with LUM_VERSION before the first other call, and make none where
 * they differ. lum_version takes nothing and returns one number in every version. Set the
 * fields of a struct by their names, all of them. A code above those below is a refusal
 * too, by a reason that a later version names.
 *
 * WHAT THE CALLER OWES. The proofs begin where these hold, and no call can check them:
 *  - Each pointer points to at least as many entries as the length after it says,
 *    all of them initialised, also those of the tables that are written.
 *  - Each pointer is non-null and aligned for its type, even where its length is 0:
 *    a table without entries may be any such pointer, for example one to a
 *    variable of that type.
 *  - A table that is written (no `const`) overlaps no other table of the call.
 *    Tables that are only read may overlap each other.
 *  - While a call runs nothing else writes its tables, and nothing else reads
 *    those that it writes.
 *  - A table takes at most PTRDIFF_MAX bytes.
 *
 * A call keeps nothing after it returns, allocates nothing, and reads and writes
 * nothing but its tables, so that calls on different tables may run at the same time.
 * It takes stack: a thread with 64 KB is enough for every call. Replays of 4,096 events, by
 * the loss of a road and by that of a junction, ran on one with 48 KB for the shares 4, 5, 8
 * and 12, and a contraction at the full sizes on one with 16 KB. This is measured
 * (bench/stack) and not proved.
 *
 * A REPLAY below, where no call is named, is lum_replay or lum_replay_junctions: both take
 * the same network and list and refuse them alike.
 *
 * TABLES of a replay that are only read have exactly their sizes: a_len, b_len and
 * start_len are m, x_len and y_len are t, whatever stands behind them in memory. A longer
 * one is refused, so that old entries behind the last are never taken for live ones. All
 * other tables, those that a replay writes and those of the other calls, may be longer
 * than they must be: entries past the stated sizes are ignored there, and none of them
 * changes.
 *
 * REPLIES. `code` is 0 where the call is accepted, and `place` is then 0. Otherwise
 * `code` is the refusal's number, `place` its place, every other number of the reply
 * is 0, and every table is as it was lent: a refusal changes nothing. The refusals:
 *
 *  code                 place    when
 *  LUM_SIZES        1   0        n > 4,096, m > 8,192, t > 4,096 or k > 8,192
 *  LUM_SHORT        2   0        a table is shorter than its least length
 *  LUM_SHARE        3   0        p is below 4 or above 12 (replay)
 *  LUM_END          4   segment  the first segment (edge) with an end not below n
 *  LUM_EVENT        5   event    x or y names no junction, segment or kind of event (replay)
 *  LUM_OPEN_TWICE   6   event    opens an open segment (replay)
 *  LUM_NOT_OPEN     7   event    closes a closed segment (replay)
 *  LUM_ENTRY        8   entry    the first active entry not below n (contraction)
 *  LUM_START       11   segment  the first starting entry above 1 (replay)
 *  LUM_LONG        12   0        a table that is only read is longer than its size (replay)
 *
 * The first that holds counts, in this order: 1, 2, 4, 8 in the contraction; 1, 2, 12, 3,
 * 4, 11 in a replay, then the first event that shows 5, 6 or 7, and 5 precedes the others
 * at one event. So a table too short and another too long give 2. Places are counted from
 * 0. 9 and 10 are the program's alone. lum_refusal_text(code) says each in words.
 */
#ifndef LUMZHASEL_H
#define LUMZHASEL_H

#include <stddef.h>
#include <stdint.h>

#ifdef __cplusplus
extern "C" {
#endif

/* The version of the calls below. */
#define LUM_VERSION 10u

/* The limits. */
#define LUM_MOST_JUNCTIONS 4096u
#define LUM_MOST_SEGMENTS 8192u
#define LUM_MOST_EVENTS 4096u
#define LUM_MOST_ENTRIES 8192u

/* The replies' codes. */
#define LUM_ACCEPTED 0u
#define LUM_SIZES 1u
#define LUM_SHORT 2u
#define LUM_SHARE 3u
#define LUM_END 4u
#define LUM_EVENT 5u
#define LUM_OPEN_TWICE 6u
#define LUM_NOT_OPEN 7u
#define LUM_ENTRY 8u
#define LUM_START 11u
#define LUM_LONG 12u

/*
 * A refusal in words. The text is static, without a full stop. 0 is "accepted", and a code
 * that a later version names has a text too.
 */
static inline const char *lum_refusal_text(size_t code)
{
    switch (code) {
    case 0: return "accepted";
    case 1: return "a size is over its limit";
    case 2: return "a table is too short";
    case 3: return "the share is not 4 to 12";
    case 4: return "an end of the segment or edge is no junction or node";
    case 5: return "the event names no junction, segment or kind of event";
    case 6: return "the event opens an open segment";
    case 7: return "the event closes a closed segment";
    case 8: return "the active entry is no node";
    case 9: return "the input is not exactly as long as its sizes say";
    case 10: return "a size is over the program's limit";
    case 11: return "the segment's starting entry is neither 0 nor 1";
    case 12: return "a table is longer than its size";
    default: return "this version has no name for the reason";
    }
}

/*
 * The answer bytes: of a query, and of an event that opens or closes. By the loss of what
 * 1 and 2 are told apart, each replay says: a road, or a third junction.
 */
#define LUM_NOT_JOINED 0u
#define LUM_JOINED_ONCE 1u
#define LUM_JOINED_TWICE 2u
#define LUM_NO_QUERY 3u

/* The x of an event that opens or closes the segment in its y. */
#define LUM_OPENS 65535u
#define LUM_CLOSES 65534u

/*
 * What an event is: the rows of the table of events (lum_replay) in their order, and none for
 * an x of no row, which a replay refuses by 5.
 */
enum lum_kind {
    LUM_KIND_QUERY = 0,
    LUM_KIND_OPENS = 1,
    LUM_KIND_CLOSES = 2,
    LUM_KIND_NONE = 3
};

/* The archive returns a kind as a number of 32 bits. */
typedef char lum_kind_has_32_bits[sizeof(enum lum_kind) == 4 ? 1 : -1];

/* The name at an event that is no query with answer 1 (lum_replay). No road has it. */
#define LUM_NO_NAME 65535u

/* The least length of lum_replay's work table, for sizes within the limits. */
#define LUM_REPLAY_WORK(n, m, t) \
    (256u * (size_t)(t) + 32u * (size_t)(n) + 8u * (size_t)(m) + 2048u)

/* The least length of lum_replay_junctions's work table, likewise. */
#define LUM_REPLAY_JUNCTIONS_WORK(n, m, t) \
    (1024u * (size_t)(t) + 32u * (size_t)(n) + 8u * (size_t)(m) + 2048u)

/* The least length of the contraction's work table, likewise. */
#define LUM_CONTRACT_WORK(n, m) (16u * (size_t)(n) + 8u * (size_t)(m) + 512u)

struct lum_sizes_reply {
    size_t code, place;
    size_t n, m, t, k; /* the sizes as they were given */
};

struct lum_check_number_reply {
    size_t code, place;
    uint32_t number; /* any number, 0 too: `code` alone tells a refusal */
};

struct lum_contract_reply {
    size_t code, place;
    size_t nodes; /* of the small graph */
    size_t edges;
};

struct lum_replay_reply {
    size_t code, place;
    size_t queries; /* the queries in the list */
    size_t open;    /* the segments open at its end */
    size_t kept;    /* the nodes of the small graphs, summed over all windows */
};

struct lum_replay_junctions_reply {
    size_t code, place;
    size_t queries; /* the queries in the list */
    size_t open;    /* the segments open at its end */
};

/* What a contraction is lent: each table with the number of its entries. */
struct lum_contract_lent {
    size_t n, m, k; /* nodes, edges, active entries */
    const uint16_t *from;
    size_t from_len;
    const uint16_t *to;
    size_t to_len;
    const uint16_t *names;
    size_t names_len;
    const uint16_t *active;
    size_t active_len;
    uint16_t *map;
    size_t map_len;
    uint16_t *out_from;
    size_t out_from_len;
    uint16_t *out_to;
    size_t out_to_len;
    uint16_t *out_names;
    size_t out_names_len;
    uint16_t *pieces;
    size_t pieces_len;
    uint32_t *work;
    size_t work_len;
};

/* What a replay by the loss of a road is lent: each table with the number of its entries. */
struct lum_replay_lent {
    size_t n, m, t, p; /* junctions, segments, events, the share */
    const uint16_t *a;
    size_t a_len;
    const uint16_t *b;
    size_t b_len;
    const uint16_t *start;
    size_t start_len;
    const uint16_t *x;
    size_t x_len;
    const uint16_t *y;
    size_t y_len;
    uint8_t *answers;
    size_t answers_len;
    uint16_t *names;
    size_t names_len;
    uint32_t *work;
    size_t work_len;
};

/* What a replay by the loss of a junction is lent: the same, but for the names. */
struct lum_replay_junctions_lent {
    size_t n, m, t, p; /* junctions, segments, events, the share */
    const uint16_t *a;
    size_t a_len;
    const uint16_t *b;
    size_t b_len;
    const uint16_t *start;
    size_t start_len;
    const uint16_t *x;
    size_t x_len;
    const uint16_t *y;
    size_t y_len;
    uint8_t *answers;
    size_t answers_len;
    uint32_t *work;
    size_t work_len;
};

/*
 * The version of the calls in the archive: LUM_VERSION where it fits this header.
 */
uint32_t lum_version(void);

/*
 * The kind of an event, from its x and the number n of junctions alone, as the replay itself
 * decides it: LUM_KIND_QUERY where x is below n, LUM_KIND_OPENS where it is LUM_OPENS,
 * LUM_KIND_CLOSES where it is LUM_CLOSES, else LUM_KIND_NONE. The first of these that holds
 * counts; with at most 4,096 junctions only one can. Nothing is refused.
 */
enum lum_kind lum_kind_of(uint16_t x, size_t n);

/*
 * Checks sizes: n junctions, m segments and t events of a replay (k = 0), or n nodes,
 * m edges and k active entries of a contraction (t = 0). Refused by 1 alone. The other
 * calls make this check themselves.
 */
struct lum_sizes_reply lum_sizes(size_t n, size_t m, size_t t, size_t k);

/*
 * The reader's call: the table's own first t bytes, or its empty part where t is larger
 * than the table. The part begins at `table`; its length is returned, t or 0. Nothing is
 * refused and nothing written.
 */
size_t lum_answers(const uint8_t *table, size_t table_len, size_t t);

/*
 * A number to compare answers by voice: the check number of the table's first t bytes. It
 * starts at 1, and each byte a turns h into 31h + a + 1, reduced modulo 4,294,967,296. The
 * table is only read. Refused by 1 where t is above 4,096, then by 2 where the table is
 * shorter than t.
 *
 * Two tables with the same first t bytes have the same number, and two that differ in one
 * of these bytes alone have different ones. Tables that differ in two bytes or more may
 * share a number, so equal numbers do not show that the tables are equal. Where the numbers
 * of the first t bytes agree and those of the first t + 1 do not, byte t differs.
 */
struct lum_check_number_reply lum_check_number(const uint8_t *table, size_t table_len, size_t t);

/*
 * Contracts the graph of n nodes and m edges, edge s between from[s] and to[s] and with the
 * name names[s], to its first k active entries. An edge may join a node to itself, parallel
 * edges count each (they stand for different roads), names are any numbers, and active
 * entries may repeat.
 *
 *  table      least length       afterwards, where the call is accepted
 *  from, to   m                  (read)
 *  names      m                  (read)
 *  active     k                  (read)
 *  map        k                  map[i] is the new number of active[i], for i below k
 *  out_from   2k                 the first `edges` entries: the smaller end of each edge
 *  out_to     2k                 the first `edges` entries: the larger end of each edge
 *  out_names  2k                 the first `edges` entries: the name of each edge
 *  pieces     k                  pieces[i] is the number of active[i]'s piece, for i below k
 *  work       16n + 8m + 512     0 over that length
 *
 * No other entry changes. The new nodes are numbered from 0: those that hold an active
 * node in order of first appearance in `active`, then the others by their smallest node.
 * Edges ascend by their first end, then by their second. Connected pieces are numbered
 * from 0 in order of first appearance in `active`. The name of an edge is the smallest along
 * the route that it stands for: of an edge given whose loss parts its two ends. Refused by 1,
 * 2, 4 and 8.
 *
 * Two entries have different numbers in `pieces` exactly where their nodes are not joined,
 * answer 0, in the graph given and, by `map`, in the small one. So a caller draws unjoined
 * areas in different colours without another search. An edge that is added afterwards may
 * join two pieces: answer 0 is read off different numbers only where none was added.
 */
struct lum_contract_reply lum_contract(struct lum_contract_lent lent);

/*
 * Replays t events over n junctions and m segments, with the share p, 4 to 12. Segment s
 * joins a[s] and b[s], both ways; it is open before the first event where start[s] is 1,
 * and closed where it is 0. All segments with the same two ends, in either order, are one
 * road, which is open while any of them is: the carriageways of a road may be segments of
 * their own. Event i is
 *
 *  x[i]             y[i]
 *  0 to n - 1       junction   a query of x[i] and y[i]
 *  LUM_OPENS        segment    it opens
 *  LUM_CLOSES       segment    it closes
 *
 *  table        length                      afterwards, where the call is accepted
 *  a, b, start  m, and no more              (read)
 *  x, y         t, and no more              (read)
 *  answers      t at least                  the first t entries: the answer bytes
 *  names        t at least                  the first t entries: the roads to watch
 *  work         256t + 32n + 8m + 2,048     0 over that length
 *               at least
 *
 * No other entry changes. The answer byte of a query is LUM_JOINED_TWICE, 2, where the
 * junctions are joined and stay joined whichever single open road is lost, LUM_JOINED_ONCE,
 * 1, where they are joined and the loss of some single road parts them, LUM_NOT_JOINED, 0,
 * where they are not joined; an event that opens or closes has LUM_NO_QUERY, 3. So two open
 * segments between the same junctions are no second way. `open` counts segments, and 6 and
 * 7 are about segments. The share changes `kept`, no answer and no name.
 *
 * At a query with the answer 1, names[i] is the road to watch: the smallest name of an open
 * road whose loss parts the two junctions; at every other event it is LUM_NO_NAME. A road's
 * name is its smallest segment number, open or not. Refused by 1 to 7, 11 and 12.
 */
struct lum_replay_reply lum_replay(struct lum_replay_lent lent);

/*
 * Replays the same list over the same network by the loss of a junction: what a flooded
 * crossing does, which shuts every road that meets there. Sizes, share, segments, roads and
 * events are those of lum_replay.
 *
 *  table        length                      afterwards, where the call is accepted
 *  a, b, start  m, and no more              (read)
 *  x, y         t, and no more              (read)
 *  answers      t at least                  the first t entries: the answer bytes
 *  work         1,024t + 32n + 8m + 2,048   0 over that length
 *               at least
 *
 * No other entry changes. The answer byte of a query is LUM_NOT_JOINED, 0, where the
 * junctions are not joined, LUM_JOINED_ONCE, 1, where they are joined and the loss of some
 * third junction parts them, LUM_JOINED_TWICE, 2, where they are joined and the loss of no
 * third junction does; an event that opens or closes has LUM_NO_QUERY, 3. The 0 are those of
 * lum_replay, as are `queries` and `open`. The share changes nothing.
 *
 * The two junctions themselves are not lost. So a junction with itself has 2, and so have
 * two junctions that an open road joins, where lum_replay has 1 if there is no other way.
 * A 2 here need not be a 2 of lum_replay, nor one there a 2 here: from one ring to another
 * that shares a crossing with it lum_replay has 2, and this call 1. Refused by 1 to 7, 11
 * and 12.
 */
struct lum_replay_junctions_reply lum_replay_junctions(struct lum_replay_junctions_lent lent);

#ifdef __cplusplus
}
#endif

#endif
