/*
 * balanced.h: the interface for C of the balanced image store.
 *
 * The store lays a message over n nodes so that any k of them give it back, a change of one symbol writes n-k+1 nodes,
 * and the symbols that nodes depend on are shared out as evenly as can be. Link with -lbalanced (docs/LINKING.md). The functions are
 * written in Rattle and proved: crates/balanced_c has the contract of each.
 *
 *
 * Records
 *
 * A record fixes a code. Every call takes the record itself; there is nothing to set up and nothing to free. It is
 * one byte of kind, then a body:
 *
 *   kind 1, a prime field:              1 p a n k       (5 bytes)   p is a prime from 3 to 251; symbols are the bytes 0 to p-1
 *   kind 2, the field of 256 elements:  2 a n k         (4 bytes)   every byte is a symbol; products are modulo 0x11D
 *   kind 3, a prime field above a byte: 3 p p a a n k   (7 bytes)   p is a prime from 257 to 65,521; symbols are the numbers
 *                                                                   0 to p-1; p and a are two bytes each, high byte first
 *
 * n is the number of nodes, at least 2. k is the number of symbols of a message, from 1 to n. a is a root: a symbol
 * of multiplicative order exactly n. d = n-k+1 is the number of nodes that a change of one symbol writes. Each node
 * depends on k*d/n symbols, rounded down or up.
 * For example { 2, 11, 15, 10 } is a code for bytes with n = 15 and k = 10, so d = 6 and every node depends on 4 symbols.
 *
 *
 * Blocks
 *
 * A block has `lanes` lanes, from 1 to 4,096, and each lane is encoded by itself. Nodes, symbols and lanes are
 * numbered from 0. In every buffer a symbol is one byte, and in kind 3 two bytes, high byte first. Places count symbols;
 * lengths that a call is given count bytes, so in kind 3 a buffer of symbols has twice as many as symbols.
 *
 *   A message has k * lanes symbols: symbol r of lane t stands at r * lanes + t.
 *   The shares of a block have n * lanes symbols: what node j holds of lane t stands at t * n + j. So lane t is the part of
 *   n symbols that starts at t * n. The shares of k listed nodes have k * lanes symbols: what node i of the list holds of lane
 *   t stands at t * k + i. What balanced_rebuild writes is one share: its symbol of lane t stands at t.
 *   Shares of an older store stand node after node, node j of lane t at j * lanes + t; balanced_to_lanes and
 *   balanced_to_nodes rearrange them.
 *
 *
 * What a call returns
 *
 * 0 (BALANCED_OK), or the number that turned the call away. Conditions are tested in the order of the numbers, and the
 * lowest that holds is returned. A call that is turned away has changed nothing: no byte of a buffer, and none of the
 * numbers that it hands over through a pointer; only balanced_roster_start writes a roster without nodes. No other value
 * is ever returned.
 *
 *
 * What the caller sees to
 *
 * - Buffers. A pointer is followed by the length of its buffer, which the caller vouches for: a pointer leads to at least
 *   so many bytes that may be read and, where it is not `const`, written. Bytes that are read have been initialised;
 *   a buffer that is only written need not be. A length that is not what the call asks for meets BALANCED_LENGTH.
 * - Null. No pointer is null, not even with the length 0.
 * - Alignment. Byte buffers may start anywhere. What has the type uint16_t, uint32_t or size_t is aligned as that type is.
 * - Aliasing. What a call writes overlaps nothing else that is lent to the same call. Buffers that are only read may
 *   overlap, or be one.
 * - Threads. There is no state outside the buffers. Calls may run at the same time in any number of threads as long as
 *   none writes what another reads or writes.
 * - Memory. No call allocates. Each takes less than 664 KiB of stack (measured; balanced_correct_listed and Recover take most); Update less than 24 KiB, the plan and balanced_find_update less than 16 KiB.
 *
 * A call always returns: none reads or writes a file, waits, or ends the program.
 */
#ifndef BALANCED_H
#define BALANCED_H

#include <stddef.h>
#include <stdint.h>

#ifdef __cplusplus
extern "C" {
#endif

/* What a call returns. */
enum balanced_number {
    BALANCED_OK = 0,      /* the call was accepted */
    BALANCED_KIND = 1,    /* the record is empty or its first byte is none of 1, 2 and 3 */
    BALANCED_BODY = 2,    /* the record's body has another length than its kind's */
    BALANCED_FIELD = 3,   /* p is not a prime from 3 to 251 in kind 1, from 257 to 65,521 in kind 3 */
    BALANCED_SIZE = 4,    /* n is below 2, k is 0, or k is above n */
    BALANCED_ROOT = 5,    /* the root is not a symbol of order exactly n */
    BALANCED_UNEVEN = 6,  /* reserved: no longer given */
    BALANCED_LANES = 7,   /* lanes is 0 or above 4,096 */
    BALANCED_LENGTH = 8,  /* a buffer or a list of nodes has another length than stated */
    BALANCED_RANGE = 9,   /* a node, symbol or lane number is outside its range */
    BALANCED_TWICE = 10,  /* a node stands twice in a list */
    BALANCED_SYMBOL = 11, /* a number that the call reads as a symbol is p or more, in kind 2 above 255 */
    BALANCED_WORD = 12,   /* the lane that an update is to change is no word of the code */
    BALANCED_STALE = 13,  /* the message of that lane holds another symbol than the old one */
    BALANCED_FAR = 14,    /* some lane has no word of the code within (n-k)/2 nodes, or (s-k)/2 of s listed ones */
    BALANCED_ALREADY = 15, /* the node already is what the event says: absent, or present */
    BALANCED_MANY = 16,   /* there are more than 65,536 messages */
    BALANCED_TRACES = 17, /* the record has no repair by traces with so many nodes missing */
    BALANCED_CARRY = 18   /* the record's symbols do not carry bytes */
};

/* What balanced_find_update answers. */
enum balanced_finding {
    BALANCED_FIND_UNCHANGED = 0,
    BALANCED_FIND_ADDED = 1,
    BALANCED_FIND_NONE = 2
};

/* The version of this header and of the library that it belongs to. */
#define BALANCED_VERSION "1.0.0"

/*
 * What a number that a call returned says, in words: a constant string, the same as beside the number above, without a full stop. A
 * number that no call returns is said to be none. It stands in the header, so it is no name of the library.
 */
static inline const char *balanced_text(unsigned number) {
    switch (number) {
    case BALANCED_OK: return "the call was accepted";
    case BALANCED_KIND: return "the record is empty or its first byte is none of 1, 2 and 3";
    case BALANCED_BODY: return "the record's body has another length than its kind's";
    case BALANCED_FIELD: return "p is not a prime from 3 to 251 in kind 1, from 257 to 65,521 in kind 3";
    case BALANCED_SIZE: return "n is below 2, k is 0, or k is above n";
    case BALANCED_ROOT: return "the root is not a symbol of order exactly n";
    case BALANCED_UNEVEN: return "reserved: no longer given";
    case BALANCED_LANES: return "lanes is 0 or above 4,096";
    case BALANCED_LENGTH: return "a buffer or a list of nodes has another length than stated";
    case BALANCED_RANGE: return "a node, symbol or lane number is outside its range";
    case BALANCED_TWICE: return "a node stands twice in a list";
    case BALANCED_SYMBOL: return "a number that the call reads as a symbol is p or more, in kind 2 above 255";
    case BALANCED_WORD: return "the lane that an update is to change is no word of the code";
    case BALANCED_STALE: return "the message of that lane holds another symbol than the old one";
    case BALANCED_FAR: return "some lane has no word of the code within (n-k)/2 nodes, or (s-k)/2 of s listed ones";
    case BALANCED_ALREADY: return "the node already is what the event says: absent, or present";
    case BALANCED_MANY: return "there are more than 65,536 messages";
    case BALANCED_TRACES: return "the record has no repair by traces with so many nodes missing";
    case BALANCED_CARRY: return "the record's symbols do not carry bytes";
    default: return "no number of this library";
    }
}

/*
 * The version of the library that the program runs with: 10000 times the first number of the version, 100 times the second, and the
 * third, so 10000 for 1.0.0. BALANCED_VERSION is that of the header that it was compiled with.
 */
uint32_t balanced_version(void);

/* The largest numbers of lanes and of nodes; the lengths of the buffers of balanced_plan. */
#define BALANCED_MAX_LANES 4096
#define BALANCED_MAX_NODES 255
#define BALANCED_PLAN_NUMBERS 5
#define BALANCED_PLAN_SHIFTS 255
#define BALANCED_PLAN_FIRSTS 255
#define BALANCED_PLAN_BASE 255
#define BALANCED_ROSTER 256

/*
 * The plan of a record.
 *
 *   numbers  5 bytes, written: n, k, d, and k * d / n rounded down and rounded up, which are equal where it is whole
 *   shifts   255 bytes, written: the k shifts in the order of the rows, then zeros
 *   firsts   255 bytes, written: the node at which each of the k rows begins, (n - shift) % n, then zeros
 *   base     255 numbers, written: the n entries of the base word, then zeros; base_len is 255, the number of numbers
 *
 * Entry (r, j) of the generator, by which symbol r of a message goes into node j, is base[(j + shifts[r]) % n]. It is
 * not 0 exactly where (j + shifts[r]) % n is below d: at the d nodes from firsts[r] on, going round.
 *
 * Returns 0 or one of 1 to 5, 8.
 */
uint8_t balanced_plan(const uint8_t *record, size_t record_len,
                      uint8_t *numbers, size_t numbers_len,
                      uint8_t *shifts, size_t shifts_len,
                      uint8_t *firsts, size_t firsts_len,
                      uint16_t *base, size_t base_len);

/*
 * Encodes a message: writes the shares of all n nodes.
 *
 *   message  k * lanes symbols, read
 *   shares   n * lanes symbols, written: the encoding of lane 0, that of lane 1, and so on
 *
 * Returns 0 or one of 1 to 5, 7, 8, 11.
 */
uint8_t balanced_encode(const uint8_t *record, size_t record_len,
                        uint32_t lanes,
                        const uint8_t *message, size_t message_len,
                        uint8_t *shares, size_t shares_len);

/*
 * Changes one symbol of one lane from old_symbol to new_symbol in shares that are in place: adds (new - old) times the
 * symbol's row of the generator to that lane.
 *
 *   symbol   below k
 *   lane     below lanes
 *   shares   n * lanes symbols, of which the lane's n symbols are read, and written at the nodes that are altered
 *   altered  receives the number of nodes that were altered, which is the number of symbols that differ afterwards
 *
 * An update is accepted only if the lane encodes a message, which then is the only one, and this message holds old_symbol
 * there. Afterwards the lane encodes the message with new_symbol in its place, and *altered is n-k+1, or 0 where the two
 * symbols are equal. An update that was made already, or that another one overtook, meets BALANCED_STALE. Bytes of other
 * lanes are neither read nor changed. The symbols are numbers: one that the field does not have meets BALANCED_SYMBOL.
 *
 * Returns 0 or one of 1 to 5, 7 to 9, 11 to 13. For 11 the two symbols and the n symbols of the lane count.
 */
uint8_t balanced_update(const uint8_t *record, size_t record_len,
                        uint32_t lanes, uint32_t symbol, uint32_t lane,
                        uint32_t old_symbol, uint32_t new_symbol,
                        uint8_t *shares, size_t shares_len,
                        uint32_t *altered);

/*
 * Update for a run of lanes at once: in lane first + i, for each i below m, the symbol changes from symbol i of old_symbols to symbol i
 * of new_symbols.
 *
 *   symbol       below k
 *   first        the first lane of the run, which ends within the block: first + m is at most lanes
 *   old_symbols  m symbols, read: what the messages of these lanes hold there
 *   new_symbols  m symbols, read: what they are to hold; as many as of the old
 *   shares       n * lanes symbols, of which those of the run are read, and written at the nodes that are altered
 *   altered      receives the number of symbols that were altered, over all lanes
 *
 * Every lane of the run is judged before anything is written, as balanced_update judges one: each encodes a message, which holds the
 * old symbol there. The first lane of the run that does not decides: it gives BALANCED_WORD or BALANCED_STALE. Afterwards each lane
 * encodes the message with the new symbol in its place, and *altered is n-k+1 times the number of lanes whose two symbols differ. Bytes of
 * other lanes are neither read nor changed. A run of one lane is balanced_update; one of no lanes (m is 0) changes nothing.
 *
 * Returns 0 or one of 1 to 5, 7 to 9, 11 to 13. For 8 m is the number of whole symbols of old_symbols. For 11 the symbols, old and new, and
 * those of the run's lanes count.
 */
uint8_t balanced_update_lanes(const uint8_t *record, size_t record_len,
                              uint32_t lanes, uint32_t symbol, uint32_t first,
                              const uint8_t *old_symbols, size_t old_len,
                              const uint8_t *new_symbols, size_t new_len,
                              uint8_t *shares, size_t shares_len,
                              uint32_t *altered);

/*
 * What each node has to add where one symbol changes in every lane of a block: for shares that stand apart, each with its node.
 *
 *   symbol       below k
 *   old_symbols  lanes symbols, read: what the messages hold there
 *   new_symbols  lanes symbols, read: what they are to hold
 *   differences  n * lanes symbols, written, node after node: what node j adds in lane t stands at j * lanes + t
 *
 * Node j adds (new - old) times entry (symbol, j) of the generator. So the n-k+1 nodes that the symbol's row begins at and runs over get
 * what changes, in a lane whose two symbols are equal 0, and every other node gets zeros and need not be told. Where each node has added its
 * part (balanced_add_share), shares that encoded messages with the old symbols there encode them with the new ones.
 *
 * Returns 0 or one of 1 to 5, 7 to 9, 11.
 */
uint8_t balanced_differences(const uint8_t *record, size_t record_len,
                             uint32_t lanes, uint32_t symbol,
                             const uint8_t *old_symbols, size_t old_len,
                             const uint8_t *new_symbols, size_t new_len,
                             uint8_t *differences, size_t differences_len);

/*
 * The node's side of it: adds a difference to a share, symbol by symbol.
 *
 *   difference  lanes symbols, read: the node's part of what balanced_differences wrote
 *   share       lanes symbols, read and written: what the node holds of lane t stands at t
 *
 * Returns 0 or one of 1 to 5, 7, 8, 11.
 */
uint8_t balanced_add_share(const uint8_t *record, size_t record_len,
                           uint32_t lanes,
                           const uint8_t *difference, size_t difference_len,
                           uint8_t *share, size_t share_len);

/*
 * Recovers a message from the shares of any k nodes.
 *
 *   nodes    k bytes, read: k different node numbers below n, in any order
 *   shares   k * lanes symbols, read: in each lane what those nodes hold, in the order of the list
 *   message  k * lanes symbols, written
 *
 * The message is the one whose encoding holds the given shares at those nodes. There is exactly one, whatever symbols
 * the shares hold.
 *
 * Returns 0 or one of 1 to 5, 7 to 11.
 */
uint8_t balanced_recover(const uint8_t *record, size_t record_len,
                         uint32_t lanes,
                         const uint8_t *nodes, size_t nodes_len,
                         const uint8_t *shares, size_t shares_len,
                         uint8_t *message, size_t message_len);

/*
 * Rebuilds what one node holds from the shares of any k nodes.
 *
 *   nodes    k bytes, read: k different node numbers below n, in any order
 *   shares   k * lanes symbols, read: in each lane what those nodes hold, in the order of the list
 *   target   the node to rebuild, below n; it may stand in the list
 *   share    lanes symbols, written: the target's share of the encoding of the message that balanced_recover would give
 *
 * Returns 0 or one of 1 to 5, 7 to 11.
 */
uint8_t balanced_rebuild(const uint8_t *record, size_t record_len,
                         uint32_t lanes,
                         const uint8_t *nodes, size_t nodes_len,
                         const uint8_t *shares, size_t shares_len,
                         uint32_t target,
                         uint8_t *share, size_t share_len);

/*
 * Repair by traces: one node's share from one, two or four bits of each symbol of the other nodes, in place of k whole symbols. Records of kind 2
 * with n-k of 16 or more have it. The target is the node whose share is wanted. Nodes that are missing besides are listed, and send nothing;
 * nodes that are there may be listed, too, so that fewer bits move. With m nodes missing a node sends, of each symbol, b bits:
 *
 *   b = 1 where n - k - m is 128 or more, 2 where it is 64 or more, 4 where it is 16 or more
 *
 * What a node sends is b planes of (lanes + 7) / 8 bytes, the lowest bits first: bit t % 8 of byte t / 8 of a plane is the bit of lane t, and
 * bits behind the last lane are 0. Every node and the target are told the same target and the same nodes missing, in any order.
 */

/*
 * Whether there is a repair by traces, and what it takes.
 *
 *   missing  how many nodes are missing beside the target
 *   bits     receives b, the bits of a symbol that each node sends: 1, 2 or 4
 *   spare    receives how many further nodes may be missing with no more bits
 *
 * Returns 0 or one of 1 to 5, 17: the record is not of kind 2, or n - k - missing is below 16.
 */
uint8_t balanced_repair_plan(const uint8_t *record, size_t record_len,
                             uint32_t missing,
                             uint32_t *bits, uint32_t *spare);

/*
 * What a node sends to the target.
 *
 *   node     the node that sends, below n; neither the target nor missing
 *   target   below n
 *   missing  any number of different nodes below n, not the target; missing_len is 0 where none is
 *   share    lanes symbols, read: what the node holds
 *   bits     b * ((lanes + 7) / 8) bytes, written
 *
 * Where there is no repair by traces b is 0. So BALANCED_TRACES is met with no byte of room; ask balanced_repair_plan.
 *
 * Returns 0 or one of 1 to 5, 7 to 10, 17.
 */
uint8_t balanced_repair_bits(const uint8_t *record, size_t record_len,
                             uint32_t lanes, uint32_t node, uint32_t target,
                             const uint8_t *missing, size_t missing_len,
                             const uint8_t *share, size_t share_len,
                             uint8_t *bits, size_t bits_len);

/*
 * The target's share from what all other nodes sent.
 *
 *   target   below n
 *   missing  as the nodes were told it
 *   rows     what the n - 1 - missing_len nodes sent that are neither the target nor missing, one after the other in the order of their
 *            numbers: b * ((lanes + 7) / 8) bytes each, read
 *   share    lanes symbols, written
 *
 * From what nodes of one encoding sent it is that encoding's share, in every lane. Of bits that no encoding's nodes send nothing is said: where a
 * node may be wrong, look at the block with balanced_belongs.
 *
 * Returns 0 or one of 1 to 5, 7 to 10, 17.
 */
uint8_t balanced_repair_share(const uint8_t *record, size_t record_len,
                              uint32_t lanes, uint32_t target,
                              const uint8_t *missing, size_t missing_len,
                              const uint8_t *rows, size_t rows_len,
                              uint8_t *share, size_t share_len);

/*
 * Tests whether every lane of a block is a word of the code, that is the encoding of some message.
 *
 *   shares       n * lanes symbols, read
 *   first_wrong  receives the smallest lane that is no word, or `lanes` where every lane is one
 *
 * A block that does not belong to the code is a result, and the call returns 0.
 *
 * Returns 0 or one of 1 to 5, 7, 8, 11.
 */
uint8_t balanced_belongs(const uint8_t *record, size_t record_len,
                         uint32_t lanes,
                         const uint8_t *shares, size_t shares_len,
                         uint32_t *first_wrong);

/*
 * Finds the update that leads from one lane to another: the symbol of the message and the amount that was added to it.
 * Adding *amount times row *symbol of the generator to `before` gives `after`, taking it away from `after` gives `before`,
 * and no other symbol and amount do. The lanes need not be words of the code.
 *
 *   before, after  n symbols each
 *   answer         receives one of BALANCED_FIND_UNCHANGED, exactly if the two lanes are equal; BALANCED_FIND_ADDED;
 *                  BALANCED_FIND_NONE, exactly if they differ and no symbol and amount lead from one to the other
 *   symbol         receives the symbol's number with BALANCED_FIND_ADDED, and 0 otherwise
 *   amount         receives the amount with BALANCED_FIND_ADDED, and 0 otherwise: a symbol of the field, in kind 2 the
 *                  exclusive or of what the symbol was and what it became
 *
 * Returns 0 or one of 1 to 5, 8, 11.
 */
uint8_t balanced_find_update(const uint8_t *record, size_t record_len,
                             const uint8_t *before, size_t before_len,
                             const uint8_t *after, size_t after_len,
                             uint32_t *answer, uint32_t *symbol, uint32_t *amount);

/*
 * Sets wrong symbols right: each lane becomes the word of the code that differs from it at no more than (n-k)/2 nodes,
 * rounded down. There is at most one such word, and for a lane that is a word it is the lane itself.
 *
 *   shares   n * lanes symbols, read, and written at the nodes that are altered
 *   altered  receives the number of symbols that were altered, over all lanes
 *
 * If some lane has no word that near, the call returns BALANCED_FAR and no lane is touched. For k = n and k = n-1 every
 * lane must be a word. A lane with more than (n-k)/2 wrong symbols may be near to another word than the one it was; it
 * then becomes that word.
 *
 * Returns 0 or one of 1 to 5, 7, 8, 11, 14.
 */
uint8_t balanced_correct(const uint8_t *record, size_t record_len,
                         uint32_t lanes,
                         uint8_t *shares, size_t shares_len,
                         uint32_t *altered);

/*
 * Recovers a message from the shares of s listed nodes, any s from k to n, of which some may be wrong: lost and wrong together. In each lane
 * it is the one message whose encoding differs from the listed symbols at no more than (s-k)/2 of them, rounded down. There is at most
 * one such message.
 *
 *   nodes      s bytes, read: s different node numbers below n, in any order; nodes_len is s
 *   shares     s * lanes symbols, read: in each lane what those nodes hold, in the order of the list: node i of the list of lane t at
 *              t * s + i
 *   message    k * lanes symbols, written
 *   wrong      s numbers, written: for each place of the list in how many lanes it held another symbol than the message's encoding does
 *   wrong_len  s: the number of numbers, not of bytes
 *   altered    receives the sum of these numbers
 *
 * If some lane has no message that near, the call returns BALANCED_FAR and nothing is written. With k nodes there always is one, and it is what
 * balanced_recover gives; with k+1 nodes every lane must be right. With all n nodes it is the message of what balanced_correct makes of the
 * block. A lane with more than (s-k)/2 wrong symbols may be near to another message, which then is given.
 *
 * Returns 0 or one of 1 to 5, 7 to 11, 14.
 */
uint8_t balanced_correct_listed(const uint8_t *record, size_t record_len,
                                uint32_t lanes,
                                const uint8_t *nodes, size_t nodes_len,
                                const uint8_t *shares, size_t shares_len,
                                uint8_t *message, size_t message_len,
                                uint32_t *wrong, size_t wrong_len,
                                uint32_t *altered);

/*
 * Lists the single changes that make a lane a word of the code, lowest node first: with symbol i of `symbols` in the place of what
 * node nodes[i] holds, the lane is one. A lane that is a word has none. Another has one for each node where k = n-1, and
 * at most one where k is below that. Where k = n every lane is a word.
 *
 *   lane     n symbols, read
 *   nodes    n bytes: the first *count are written, the others are left as they are
 *   symbols  n symbols: likewise
 *   count    receives how many changes are listed
 *
 * Returns 0 or one of 1 to 5, 8, 11.
 */
uint8_t balanced_mends(const uint8_t *record, size_t record_len,
                       const uint8_t *lane, size_t lane_len,
                       uint8_t *nodes, size_t nodes_len,
                       uint8_t *symbols, size_t symbols_len,
                       uint32_t *count);

/*
 * Rearranges the shares of a block: from node after node, as an older store has them, to lane after lane, and back. What
 * stands at j * lanes + t of `by_node` stands at t * n + j of `by_lane`, for each node j below n and each lane t. The two
 * undo each other. Symbols are moved, not judged: they need not be symbols of the field.
 *
 *   by_node  n * lanes symbols, read by balanced_to_lanes, written by balanced_to_nodes
 *   by_lane  n * lanes symbols, written by balanced_to_lanes, read by balanced_to_nodes
 *
 * Returns 0 or one of 1 to 5, 7, 8.
 */
uint8_t balanced_to_lanes(const uint8_t *record, size_t record_len,
                          uint32_t lanes,
                          const uint8_t *by_node, size_t by_node_len,
                          uint8_t *by_lane, size_t by_lane_len);
uint8_t balanced_to_nodes(const uint8_t *record, size_t record_len,
                          uint32_t lanes,
                          const uint8_t *by_lane, size_t by_lane_len,
                          uint8_t *by_node, size_t by_node_len);

/*
 * The same for the shares of k listed nodes, as balanced_recover and balanced_rebuild take them: what stands at i * lanes + t of `by_node`
 * stands at t * k + i of `by_lane`, for each place i of the list and each lane t. So shares that come from k nodes, each by itself, are
 * laid one after the other in the order of the list and rearranged by one call.
 *
 *   by_node  k * lanes symbols, read by balanced_listed_to_lanes, written by balanced_listed_to_nodes
 *   by_lane  k * lanes symbols, written by balanced_listed_to_lanes, read by balanced_listed_to_nodes
 *
 * Returns 0 or one of 1 to 5, 7, 8.
 */
uint8_t balanced_listed_to_lanes(const uint8_t *record, size_t record_len,
                                 uint32_t lanes,
                                 const uint8_t *by_node, size_t by_node_len,
                                 uint8_t *by_lane, size_t by_lane_len);
uint8_t balanced_listed_to_nodes(const uint8_t *record, size_t record_len,
                                 uint32_t lanes,
                                 const uint8_t *by_lane, size_t by_lane_len,
                                 uint8_t *by_node, size_t by_node_len);

/*
 * Counts the messages by the nodes that hold something other than zero: counts[w] is the number of messages of k symbols
 * whose encoding has just w nodes that are not zero, the Hamming weight w. counts[0] is 1, for the message of zeros,
 * counts[w] is 0 for w from 1 to n-k, and all counts together are q to the power k, where q is the number of symbols.
 *
 *   counts      written: n + 1 numbers, for w from 0 to n
 *   counts_len  the number of numbers, not of bytes
 *
 * Returns 0 or one of 1 to 5, 8, 16.
 */
uint8_t balanced_weights(const uint8_t *record, size_t record_len,
                         uint32_t *counts, size_t counts_len);

/*
 * Bytes on any number of nodes: any bytes, carried in the symbols of a record.
 *
 * A record of kind 2 has bytes for symbols, and there n is 3, 5, 15, 17, 51, 85 or 255. Every n from 2 to 255 can be had with symbols of
 * two bytes, which are the numbers below a prime. These calls carry any bytes in such symbols, in little more room: 1/255 more with a
 * prime from 65,296 on. Bytes are taken two by two as words of 16 bits, the last of an odd number with a zero behind it. Each group of up
 * to 255 words, with lesser primes fewer, becomes a mask, which is a symbol, and then the words, each the exclusive or of the word and
 * the mask. So what is carried is a list of symbols, which balanced_encode and every other call take; where it does not fill the
 * k * lanes symbols of a block, zeros fill it up.
 *
 * Records of kind 2 carry bytes as they are. Records of kind 1, and those of kind 3 with a prime below 34,816, carry none: BALANCED_CARRY,
 * which is tested right after 1 to 5, for the lengths depend on it.
 */

/*
 * How many bytes the symbols take that carry so many bytes.
 *
 *   bytes_len    how many bytes are to be carried; up to 2 to the power 62
 *   carried_len  receives how many bytes the symbols take
 *
 * Returns 0 or one of 1 to 5, 8, 18.
 */
uint8_t balanced_carried_len(const uint8_t *record, size_t record_len,
                             size_t bytes_len,
                             size_t *carried_len);

/*
 * Carries bytes in symbols.
 *
 *   bytes    any bytes, read
 *   symbols  written; symbols_len is what balanced_carried_len says for bytes_len
 *
 * Returns 0 or one of 1 to 5, 8, 18.
 */
uint8_t balanced_carry_in(const uint8_t *record, size_t record_len,
                          const uint8_t *bytes, size_t bytes_len,
                          uint8_t *symbols, size_t symbols_len);

/*
 * Reads the bytes that symbols carry.
 *
 *   symbols  read; symbols_len is what balanced_carried_len says for bytes_len
 *   bytes    written: of symbols that balanced_carry_in wrote, the bytes that it read
 *
 * A group is read under whatever mask stands before it, so it reads what balanced_carry_change has changed, too.
 *
 * Returns 0 or one of 1 to 5, 8, 11, 18.
 */
uint8_t balanced_carry_out(const uint8_t *record, size_t record_len,
                           const uint8_t *symbols, size_t symbols_len,
                           uint8_t *bytes, size_t bytes_len);

/*
 * Changes bytes where symbols carry them: those from `at` on.
 *
 *   bytes_len  of how many bytes the symbols carry
 *   new_bytes  read: what the bytes from `at` on become; the last of them is one of the bytes_len bytes
 *   symbols    read, and written: symbols_len is what balanced_carried_len says for bytes_len
 *
 * A group that holds no changed byte is not written. One that does keeps its mask while all its words are symbols under it, so that a
 * byte that changes changes one symbol; else the group is carried anew.
 *
 * Returns 0 or one of 1 to 5, 8, 9, 11, 18.
 */
uint8_t balanced_carry_change(const uint8_t *record, size_t record_len,
                              size_t bytes_len, size_t at,
                              const uint8_t *new_bytes, size_t new_len,
                              uint8_t *symbols, size_t symbols_len);

/* The length of the longest record. */
#define BALANCED_RECORD 7

/*
 * A record with n nodes, any k of which give a message back, that carries bytes: kind 2 where n divides 255, else kind 3 with the largest
 * prime that fits. Every n from 2 to 255 and every k from 1 to n has one.
 *
 *   record      BALANCED_RECORD bytes: the first *record_len are written, the others are left as they are
 *   room        BALANCED_RECORD, which is 7
 *   record_len  receives the length of the record, 4 or 7
 *
 * Returns 0 or one of 4, 8.
 */
uint8_t balanced_choose(uint32_t n, uint32_t k,
                        uint8_t *record, size_t room,
                        uint32_t *record_len);

/*
 * Rosters: which nodes are present.
 *
 * A roster is 256 bytes that the caller keeps. Byte j, for j from 0 to 254, is the mark of node j: 0 for an absent node,
 * 1 for a present one; any other byte counts as present. Byte 255 is the number of the next job. Every call takes the
 * record beside it, and a roster belongs to the record that it was started with. Marks at n and above play no part.
 *
 * A node is present exactly if the last event that names it is a return, or no event names it. A refused event leaves
 * the roster as it was.
 */

/*
 * Starts a roster: all n nodes are present.
 *
 *   roster   256 bytes, written; where the record is turned away, 256 zeros: no node is present
 *
 * Returns 0 or one of 1 to 5, 8.
 */
uint8_t balanced_roster_start(const uint8_t *record, size_t record_len,
                              uint8_t *roster, size_t roster_len);

/*
 * A node leaves; a node returns.
 *
 *   roster   256 bytes, read and written
 *   node     below n
 *
 * An accepted event sets the number of the next job to 0.
 *
 * Returns 0 or one of 1 to 5, 8, 9, 15.
 */
uint8_t balanced_roster_leave(const uint8_t *record, size_t record_len,
                              uint8_t *roster, size_t roster_len,
                              uint32_t node);
uint8_t balanced_roster_rejoin(const uint8_t *record, size_t record_len,
                               uint8_t *roster, size_t roster_len,
                               uint32_t node);

/*
 * The k lowest present nodes, rising: a list that balanced_recover and balanced_rebuild take.
 *
 *   roster   256 bytes, read
 *   list     k bytes, written where k nodes are present, else left as they were
 *   enough   receives 1 where the list was written, 0 where fewer than k nodes are present
 *
 * Too few nodes are a result, and the call returns 0.
 *
 * Returns 0 or one of 1 to 5, 8.
 */
uint8_t balanced_roster_lowest(const uint8_t *record, size_t record_len,
                               const uint8_t *roster, size_t roster_len,
                               uint8_t *list, size_t list_len,
                               uint32_t *enough);

/*
 * The nodes that the next job reads, and the roster after it. With s present nodes, s at least k, job i reads those at
 * the places (i * k + t) mod s for t from 0 to k-1, in this order; place 0 is the lowest present node. So over a run of
 * jobs no present node is read more than once oftener than another, and each has its turn within s/k jobs, rounded up.
 *
 *   roster   256 bytes, read; where the list is written, the job number goes up by one, modulo s
 *   list     k bytes, written where k nodes are present, else left as they were
 *   enough   receives 1 where the list was written, 0 where fewer than k nodes are present
 *
 * A job number that is s or more, of a roster that was made elsewhere, is taken modulo s.
 *
 * Returns 0 or one of 1 to 5, 8.
 */
uint8_t balanced_roster_job(const uint8_t *record, size_t record_len,
                            uint8_t *roster, size_t roster_len,
                            uint8_t *list, size_t list_len,
                            uint32_t *enough);

#ifdef __cplusplus
}
#endif

#endif
