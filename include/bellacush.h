/*
 * Bellacush: the bulk-channel scheduler of a crossbar shelf, for C and C++.
 *
 * One call serves one slot: it takes the block of configuration frames that the hosts sent,
 * joins initiators to targets without conflict, and writes a grant frame for each host. A
 * ledger counts what was asked and what came of it, each waiting request once. A trace keeps
 * the blocks of slots in one file, from which they are replayed; packet captures are imported
 * into one.
 * The library holds nothing of its own, allocates nothing and always returns; everything that
 * it reads or changes is lent by the caller for the time of the call.
 *
 * What the caller must see to, for every call:
 *  - A pointer shows as many bytes as the length beside it says; where it points to uint32_t
 *    or uint16_t, as many words of that type, aligned as it asks. A null pointer is not to be
 *    lent with a length other than 0.
 *  - Nothing that a call may write (state, out, table, tables, part, ledger of a feed, figures,
 *    shown, place, report, fates, records but of a count, pool of an add) overlaps anything else
 *    that is lent to the same call.
 *  - No other thread touches what is lent before the call returns. Calls on separate memory
 *    may run at the same time.
 * Nothing else is asked: any lengths, bytes, words and numbers are answered as said below.
 */
#ifndef BELLACUSH_H
#define BELLACUSH_H

#include <stddef.h>
#include <stdint.h>

#ifdef __cplusplus
extern "C" {
#endif

/* The most ports that a shelf can have. Initiators and targets are numbered from 0. */
#define BELLACUSH_MOST_PORTS 16

/* Lengths in bytes. */
#define BELLACUSH_STATE_LEN 9        /* n, I, J, the due slot in four, the owners in two */
#define BELLACUSH_TABLE_LEN 32       /* sixteen sets of targets, two bytes each, high byte first */
#define BELLACUSH_CONFIG_LEN 11      /* type 1, req, pre, ben, qen, check */
#define BELLACUSH_CONFIG_PART_LEN 8  /* req, pre, ben, qen */
#define BELLACUSH_GRANT3_LEN 7       /* type 3, nodeId, flags, the set of targets held, check */
#define BELLACUSH_GRANT3_PART_LEN 4  /* nodeId, flags, the set of targets held */
#define BELLACUSH_GRANT_LEN 5        /* type 2, which is only read: nodeId and gnt, flags, check */
#define BELLACUSH_GRANT_PART_LEN 2   /* nodeId and gnt, flags */
#define BELLACUSH_BLOCK_LEN(n) ((size_t)BELLACUSH_CONFIG_LEN * (n)) /* one slot of n hosts */
#define BELLACUSH_OUT_LEN(n) ((size_t)BELLACUSH_GRANT3_LEN * (n))   /* the grants of one slot */

/* Lengths in words of 32 bits. */
#define BELLACUSH_LEDGER_LEN 1041 /* the slots counted, four tables of counts, the sets that wait */
#define BELLACUSH_FIGURES_LEN 5   /* the figures of one pair */
#define BELLACUSH_RECORDS_LEN(cells) ((size_t)3 + (cells)) /* the queues' records of so many cells */
#define BELLACUSH_HEAD_WORDS 2    /* what is shown of a trace */
#define BELLACUSH_BODY_WORDS 4    /* what is shown of one of its bodies */
#define BELLACUSH_SALVAGE_WORDS 2 /* what is shown of a salvage */

/* The measures of a trace: how many bodies it has at most, how many slots a body; in bytes, its
   first two fields, its contents with so many bodies, and a body of so many slots of n ports. */
#define BELLACUSH_MOST_BODIES 1024
#define BELLACUSH_MOST_BODY_SLOTS 360
#define BELLACUSH_HEAD_LEN 3
#define BELLACUSH_CONTENTS_LEN(count) ((size_t)5 + (size_t)10 * (count))
#define BELLACUSH_BODY_LEN(n, slots) ((size_t)5 + BELLACUSH_BLOCK_LEN(n) * (slots))

/* The measures of a capture, in bytes: its header, a record with its packet; the report on its
   import; and room that is enough for its trace, where each record adds a body of one slot. */
#define BELLACUSH_CAPTURE_HEADER_LEN 24
#define BELLACUSH_CAPTURE_RECORD_LEN 32
#define BELLACUSH_REPORT_LEN 8
#define BELLACUSH_IMPORT_LEN(n, capture_len) \
    ((size_t)5 + (BELLACUSH_BLOCK_LEN(n) + 15) * ((capture_len) / BELLACUSH_CAPTURE_RECORD_LEN))

/* The queues: the bytes of a cell, and how many cells a pool has at most. */
#define BELLACUSH_CELL_LEN 64
#define BELLACUSH_MOST_CELLS 960

/* Modes: central, the distributed form with a limit of 1 to 16 rounds, or diagonal first. */
#define BELLACUSH_CENTRAL 0
#define BELLACUSH_MOST_ROUNDS 16
#define BELLACUSH_DIAGONAL 17

/* The third byte of a grant frame of either type, the second of its part. */
#define BELLACUSH_GNT_VAL 1
#define BELLACUSH_LINK_ERR 2
#define BELLACUSH_CRC_ERR 4

/* The places of a pair's five figures. */
#define BELLACUSH_ASKED 0     /* slots in which the target was asked for */
#define BELLACUSH_CONNECTED 1 /* those of them in which it was connected */
#define BELLACUSH_FRESH 2     /* fresh requests: each counts once, however long it waits */
#define BELLACUSH_WITHDRAWN 3 /* requests that waited and were then no longer asked */
#define BELLACUSH_OPEN 4      /* 1 if a request waited in the last counted slot, otherwise 0 */

/* The places of what is shown of a trace, and of one of its bodies. */
#define BELLACUSH_PORTS 0  /* n, 1 to 16 */
#define BELLACUSH_BODIES 1 /* the body count, 0 to 1024 */
#define BELLACUSH_FIRST 0  /* the number of the body's first slot */
#define BELLACUSH_SLOTS 1  /* how many slots it has, 1 to 360 */
#define BELLACUSH_OFFSET 2 /* where in the file it starts */
#define BELLACUSH_LENGTH 3 /* how many bytes it has */

/* The places of what is shown of a salvage. */
#define BELLACUSH_NEW_LENGTH 0 /* how many bytes the new trace has */
#define BELLACUSH_OLD_BODIES 1 /* the body count of the file, 0 to 1024 */

/* What becomes of a body of a damaged trace: it is kept, or dropped for the first of these. */
#define BELLACUSH_KEPT 0
#define BELLACUSH_SHORT 1 /* the file ends before it does */
#define BELLACUSH_CHECK 2 /* its check differs */
#define BELLACUSH_FORM 3  /* its mode is above 17, or its I or J at or above n */

/*
 * The numbers that calls return: 0, or why a call declined.
 *
 * 12 is not given, and gets no other meaning. It was kept for a round of the distributed form
 * that begins with a live request and joins nobody. There is no such round: a target that is
 * asked grants one of those who ask it, and whoever is granted something accepts one of them.
 * So no call ever returned it; a 12 in a log did not come from this library.
 */
enum bellacush_number {
    BELLACUSH_DONE = 0,             /* done */
    BELLACUSH_BAD_PORTS = 1,        /* n outside 1 to 16 */
    BELLACUSH_BAD_OFFSET = 2,       /* I or J at or above n */
    BELLACUSH_SLOT_STALE = 3,       /* (due - slot) mod 2^32 from 1 to 2147483648 */
    BELLACUSH_SLOT_EARLY = 4,       /* that difference above 2147483648 */
    BELLACUSH_BAD_LIMIT = 5,        /* distributed round limit outside 1 to 16: a mode
                                       from 18 on */
    BELLACUSH_BAD_BLOCK_LEN = 6,    /* block length other than 11 n */
    BELLACUSH_OUT_TOO_SHORT = 7,    /* output below 7 n for a slot, 64 n for one of the queues,
                                       11 or 7 for one frame; for a
                                       trace or body, below its length; for tables, below 32
                                       for each slot; for fates, below 1 for each body */
    BELLACUSH_BAD_LEN = 8,          /* a state, table, frame, part, ledger, figures, operator
                                       numbers, cell, records of new queues, report, or words to
                                       show of a trace, body or salvage, of another length */
    BELLACUSH_BAD_TYPE = 9,         /* frame type other than asked for */
    BELLACUSH_BAD_CHECK = 10,       /* the frame's check differs */
    BELLACUSH_BAD_GRANT_FIELD = 11, /* bits 3 to 7 of the flags set, nodeId above 15, gntVal
                                       without a target held or a target held without it; for
                                       figures, initiator or target above 15 */
    BELLACUSH_BAD_LEDGER = 13,      /* 4294967295 slots are counted already, or a figure of the
                                       ledger is above its slots counted */
    BELLACUSH_BAD_TRACE = 14,       /* anything that departs from the layout of a trace, or a
                                       body number at or above the count; for a salvage, only
                                       what departs from it in the contents */
    BELLACUSH_BAD_OPERATOR = 15,    /* an operator number above 1 on a port below n */
    BELLACUSH_QUEUES_FULL = 16,     /* every cell of the pool holds a queued cell */
    BELLACUSH_BAD_QUEUES = 17,      /* initiator or target at or above n, a pool of other than 1
                                       to 960 whole cells or than the queues were made for, or
                                       records out of order or of another number of ports */
    BELLACUSH_BAD_CAPTURE = 18      /* another magic or link type, a cut header or record, a
                                       captured length other than 16, a host at or above n, a
                                       slot stale against the packet before, or need of more
                                       than 1024 bodies */
};

/* What bellacush_slot and bellacush_queue_slot return, taken apart: the number, and the rounds
   that were run. */
#define BELLACUSH_NUMBER(word) ((uint32_t)(word) % 256u)
#define BELLACUSH_ROUNDS(word) ((uint32_t)(word) / 256u)

/*
 * Makes a fresh state: n ports, offsets I = 0 and J = 0, and the slot that is due first.
 *
 * operators  16 bytes: the operator of port p, 0 or 1, in byte p, whatever n is. Bytes from n on
 *            are ignored, and the ports there count as operator 0's. Zeros make a shelf of one
 *            operator.
 * state      9 bytes: gets n, I, J, a byte each, the due slot in four and the owners in two, high
 *            byte first. Bit p of the owners is set if port p is operator 1's. Every call keeps
 *            them.
 *
 * Returns BELLACUSH_DONE. Otherwise state keeps every byte. Tested in order: 8 (operators other
 * than 16 bytes, state other than 9), 1, 15.
 *
 * Two operators can share a shelf. No connection joins ports of different operators, and what
 * the hosts of one send does not show in what the other gets: for the same state, slot, mode,
 * link word and lengths, the number returned, the next state, its sets in the table and its
 * grant frames are the same, byte for byte, whatever the other's hosts send; and so on from slot
 * to slot. Only the rounds in the returned word are shared.
 */
uint32_t bellacush_fresh(uint32_t n, uint32_t due, const uint8_t *operators, size_t operators_len,
                         uint8_t *state, size_t state_len);

/*
 * Serves one slot.
 *
 * state  9 bytes, as bellacush_fresh makes them: the ports n, the initiator offset I, the target
 *        offset J, the due slot and the owners.
 * slot   the number of the slot that the block belongs to.
 * mode   BELLACUSH_CENTRAL; 1 to 16, the round limit of the distributed form; or
 *        BELLACUSH_DIAGONAL: after the planned connections each pair ((I + k) mod n,
 *        (J + k) mod n), k from 0 to n - 1, that is asked for, initiator and target being free,
 *        is connected, and then the central form serves the rest.
 * block  11 n bytes: the configuration frame of host h from byte 11 h; a missing frame is
 *        eleven zeros. A host is heard if its frame is correct. An unheard host asks for
 *        nothing, plans nothing and votes on nothing; it never declines the slot. Bits of req
 *        and pre towards the other operator's ports are ignored. A host is enabled unless two
 *        different heard hosts of its own operator have its bit clear in ben; if not, it asks
 *        for nothing and plans nothing, and its vote still counts. So one host by itself,
 *        whatever it sends, disables nobody.
 * link   bit i is handed on as linkErr of host i.
 * out    at least 7 n bytes: gets the grant frame, of type 3, of host i from byte 7 i. It tells
 *        the host all the targets that it holds, and has CRCErr set if the host is unheard.
 *        Bytes from 7 n on are not touched.
 * table  32 bytes: gets the set of targets of initiator i in bytes 2 i and 2 i + 1, high byte
 *        first, bit t for target t. Several targets for one initiator are a planned multicast.
 *        No target is in two sets. The sets from n on are empty.
 *
 * Returns the number plus 256 times the rounds (0 unless distributed). Each round joins a
 * pair, so there are no more rounds than ports, and a limit of n or more leaves no request
 * whose initiator and target are both free. If the number is
 * BELLACUSH_DONE, the offsets in the state have moved on by one place (I by one; where it comes
 * round to 0, J too) and the due slot has grown by one; after 4294967295 comes 0.
 * Otherwise the call declined: the word returned is just the number, and state, out and table
 * keep every byte. So a block that comes twice is served once, and its copy is refused with
 * BELLACUSH_SLOT_STALE. Tested in order: 8 (state, table), 1, 2, 3 or 4, 5, 6, 7.
 *
 * Whatever the other hosts send, a pair is connected in at least W / n^2, rounded down, of any
 * W slots served one after another if in each of them its host is heard, enabled, asks for the
 * target, which is its own operator's, and plans nothing, and no enabled host plans that target
 * (what is towards the other operator's ports is no plan). The modes may change from slot
 * to slot. If all of them are in mode BELLACUSH_DIAGONAL, it is connected at least once in any
 * n + 1 of them, and at least n times in any n^2; for n of 2 or more others can keep it out for n.
 */
uint32_t bellacush_slot(uint8_t *state, size_t state_len, uint32_t slot, uint32_t mode,
                        const uint8_t *block, size_t block_len, uint16_t link,
                        uint8_t *out, size_t out_len, uint8_t *table, size_t table_len);

/*
 * The ledger of a shelf: what each pair asked for and what came of it, over the slots counted.
 *
 * A host raises a waiting request again in every slot, so the slots asked are no demand. The
 * ledger counts it once: a request is fresh if it is asked now and, in the previous counted
 * slot, was either not asked or else connected; in the first slot every one asked is fresh. It
 * is withdrawn if it waited in the previous counted slot and is not asked now, and open if it
 * was asked and not connected in the last one. So, for each pair, fresh requests = slots
 * connected + withdrawals + open, and no figure is above the slots counted.
 *
 * Its words are lent, in the machine's own byte order:
 *
 *      word 0                the slots counted
 *      word    1 + 16 i + t  slots in which initiator i asked for target t
 *      word  257 + 16 i + t  slots in which it was connected while it asked
 *      word  513 + 16 i + t  fresh requests
 *      word  769 + 16 i + t  withdrawals
 *      word 1025 + i         the targets that initiator i waits for, bit t for target t; bits
 *                            from 16 on are ignored
 *
 * A fresh ledger is all zeros: memset makes one. It can be kept in a file and read back on
 * machines of the same byte order.
 *
 * Feed it after each slot that was served, and only then: with the sets asked of the block that
 * was served, and the table that the slot call wrote. A block that comes twice is served once
 * and its copy refused, so the copy is not fed and changes no figure.
 *
 *      if (BELLACUSH_NUMBER(bellacush_slot(..., block, ..., table, ...)) == BELLACUSH_DONE) {
 *          bellacush_asked(state, BELLACUSH_STATE_LEN, block, block_len,
 *                          asked, BELLACUSH_TABLE_LEN);
 *          bellacush_feed(ledger, BELLACUSH_LEDGER_LEN, n, asked, BELLACUSH_TABLE_LEN,
 *                         table, BELLACUSH_TABLE_LEN);
 *      }
 */

/*
 * Writes the sets asked of a block to table: 32 bytes, laid out as bellacush_slot writes the sets
 * connected. Of the state it looks at the ports n and the owners, which no slot changes, so the
 * state before the slot and the one after it serve alike. Initiator i asks for target t if its
 * host is heard and enabled, bit t of its req is set, i and t are below n and of one operator;
 * whether it also plans makes no difference.
 *
 * Returns BELLACUSH_DONE. Otherwise table keeps every byte. Tested in order: 8 (state other than
 * 9 bytes, table other than 32), 1, 6. For the state and block of a served slot it never
 * declines.
 */
uint32_t bellacush_asked(const uint8_t *state, size_t state_len,
                         const uint8_t *block, size_t block_len,
                         uint8_t *table, size_t table_len);

/*
 * Counts a served slot.
 *
 * ledger     1041 words, laid out as above: gets the slot counted.
 * n          the ports of the slot; it may differ from that of the slots before.
 * asked      32 bytes, as bellacush_asked writes them.
 * connected  32 bytes, as bellacush_slot writes them. What is connected and not asked, such as
 *            a planned target that is not in req, counts as nothing.
 *
 * Sets and bits at or above n are ignored: a pair there counts as not asked, and if it waited
 * it is withdrawn.
 *
 * Returns BELLACUSH_DONE. Otherwise ledger keeps every word. Tested in order: 8 (ledger other
 * than 1041 words, asked or connected other than 32 bytes), 1, 13. A ledger that was zeros and
 * was changed by this call alone meets 13 only once 4294967295 slots are counted.
 */
uint32_t bellacush_feed(uint32_t *ledger, size_t ledger_len, uint32_t n,
                        const uint8_t *asked, size_t asked_len,
                        const uint8_t *connected, size_t connected_len);

/*
 * Shows the five figures of the pair of an initiator and a target, both below 16 whatever the
 * ports: writes them to figures, 5 words, in the order of BELLACUSH_ASKED to BELLACUSH_OPEN.
 *
 * Returns BELLACUSH_DONE. Otherwise figures keeps every word. Tested in order: 8 (ledger other
 * than 1041 words, figures other than 5), 11. The ledger is shown as it is; whether its figures
 * can be right is tested when it is fed.
 */
uint32_t bellacush_figures(const uint32_t *ledger, size_t ledger_len,
                           uint32_t initiator, uint32_t target,
                           uint32_t *figures, size_t figures_len);

/*
 * A trace: slots kept for later, in one file. All its numbers have the high byte first.
 *
 *      contents   1 byte   the ports n, 1 to 16
 *                 2 bytes  the body count, 0 to 1024
 *                 10 bytes for each body, its entry:
 *                     4 bytes  the number of its first slot
 *                     2 bytes  how many slots it has, 1 to 360
 *                     4 bytes  the offset in the file at which it starts
 *                 2 bytes  the check of all this
 *      bodies     one behind the other in the order of their entries, the first right behind
 *                 the contents, without gaps; the last one ends the file
 *
 *      a body     1 byte   the mode: 0 central, 1 to 16 the round limit, 17 diagonal first
 *                 1 byte   the initiator offset I before its first slot, below n
 *                 1 byte   the target offset J, below n
 *                 11 n bytes for each slot: its block, as bellacush_slot takes it; what its
 *                          frames hold and whether they are correct is not part of the layout
 *                 2 bytes  the check of all this
 *
 * The check is that of the frames: CRC-16 of polynomial 0x1021, from 0xFFFF on. Slots of a body
 * follow each other, and after 4294967295 comes 0. Bodies need not follow each other, nor rise.
 * A body has at most 63365 bytes, a trace at most 64896005.
 *
 * A file is a trace exactly if it is, byte for byte, something that bellacush_write_trace writes.
 *
 * With the whole file in memory, bellacush_trace checks all of it, and then bellacush_entry shows
 * where each body is. bellacush_trace_body does both for one body, so each call of it takes the
 * time of a check of the whole file.
 *
 * A file can also be read once from beginning to end, with room for its contents and one body,
 * in time linear in its length: BELLACUSH_HEAD_LEN bytes, of which the last two are the body
 * count (above 1024 it is no trace); the contents to their end, which are checked once; and then
 * body after body, of which the replay checks each.
 *
 *      uint32_t shown[BELLACUSH_HEAD_WORDS], place[BELLACUSH_BODY_WORDS], k;
 *      if (bellacush_contents(start, BELLACUSH_CONTENTS_LEN(count), file_len, shown,
 *                             BELLACUSH_HEAD_WORDS) == BELLACUSH_DONE)
 *          for (k = 0; k < shown[BELLACUSH_BODIES]; k++) {
 *              bellacush_entry(start, BELLACUSH_CONTENTS_LEN(count), k, place,
 *                              BELLACUSH_BODY_WORDS);
 *              ... read the next place[BELLACUSH_LENGTH] bytes of the file to body ...
 *              bellacush_replay(shown[BELLACUSH_PORTS], place[BELLACUSH_FIRST],
 *                               place[BELLACUSH_SLOTS], body, place[BELLACUSH_LENGTH],
 *                               tables, tables_len);
 *          }
 *
 * With room in tables for each body, the file is a trace exactly if bellacush_contents and every
 * bellacush_replay return BELLACUSH_DONE.
 */

/*
 * Checks a whole file, contents and bodies: writes its ports and body count to shown, 2 words in
 * the order of BELLACUSH_PORTS and BELLACUSH_BODIES, if it is a trace.
 *
 * Returns BELLACUSH_DONE. Otherwise shown keeps every word. Tested in order: 8 (shown other than
 * 2 words), 14.
 */
uint32_t bellacush_trace(const uint8_t *file, size_t file_len,
                         uint32_t *shown, size_t shown_len);

/*
 * Checks a whole file, as bellacush_trace does, and shows where body k of it is: writes to place,
 * 4 words, its first slot, its slots, its offset and its length, in the order of BELLACUSH_FIRST
 * to BELLACUSH_LENGTH. So the body is the part of file of that length from that offset on.
 *
 * Returns BELLACUSH_DONE. Otherwise place keeps every word. Tested in order: 8 (place other than
 * 4 words), 14 (file is no trace, or k is at or above its body count).
 */
uint32_t bellacush_trace_body(const uint8_t *file, size_t file_len, uint32_t k,
                              uint32_t *place, size_t place_len);

/*
 * Checks the contents alone, in the beginning of a file of file_len bytes: start holds all of
 * the contents, and may hold bytes behind them, which are not looked at. Writes ports and body
 * count to shown, as bellacush_trace does, if the contents are correct, their offsets leave no
 * gaps, and the last body ends at file_len (without bodies, the contents do).
 *
 * Returns BELLACUSH_DONE. Otherwise shown keeps every word. Tested in order: 8 (shown other than
 * 2 words), 14.
 */
uint32_t bellacush_contents(const uint8_t *start, size_t start_len, size_t file_len,
                            uint32_t *shown, size_t shown_len);

/*
 * Shows the entry of body k as it stands: writes to place what bellacush_trace_body does. It
 * takes the same short time whatever the file, and so is for contents that bellacush_contents
 * or bellacush_trace found correct; of others, first slot, slots and offset are shown whatever
 * they are, and as length that of a body of so many slots.
 *
 * Returns BELLACUSH_DONE. Otherwise place keeps every word. Tested in order: 8 (place other than
 * 4 words), 14 (k at or above the body count, ports outside 1 to 16, or start ends before the
 * entry does).
 */
uint32_t bellacush_entry(const uint8_t *start, size_t start_len, uint32_t k,
                         uint32_t *place, size_t place_len);

/*
 * Checks a body and replays it: writes the table of its slot s, for s from 0 on, to the 32 bytes
 * of tables from byte 32 s, as bellacush_slot writes it. Bytes from 32 times the slots on are
 * not touched.
 *
 * n       the ports of its trace.
 * first   the number of its first slot, and slots how many it has, by its entry. The tables do
 *         not depend on the number of the first slot.
 * body    the bytes of the body, as many as BELLACUSH_BODY_LEN(n, slots).
 * tables  at least 32 times slots bytes; 11520 are enough for any body.
 *
 * The tables are those that bellacush_slot wrote, in the body's mode, from the state of n, the
 * body's I and J, first as the due slot and no port of operator 1, for one block after the
 * other. A trace has no owners: it stands for a shelf of one operator.
 *
 * Returns BELLACUSH_DONE. Otherwise tables keeps every byte. Tested in order: 14 (n outside 1 to
 * 16, slots outside 1 to 360, or not a body of so many slots for n ports), 7.
 */
uint32_t bellacush_replay(uint32_t n, uint32_t first, uint32_t slots,
                          const uint8_t *body, size_t body_len,
                          uint8_t *tables, size_t tables_len);

/*
 * Writes a body to the first BELLACUSH_BODY_LEN(n, slots) bytes of out; bytes beyond are not
 * touched. To record slots, keep the mode, n, I, J and the due slot (its first slot) of the state
 * before the first of them, and the block of each that is served; a copy that is refused is not
 * recorded. The owners are not kept: record shelves of one operator.
 *
 * mode    BELLACUSH_CENTRAL, the round limit of the distributed form, or BELLACUSH_DIAGONAL.
 * i, j    the offsets I and J before the first slot.
 * blocks  11 n bytes for each slot: the blocks, one behind the other.
 *
 * Returns BELLACUSH_DONE. Otherwise out keeps every byte. Tested in order: 14 (n outside 1 to 16,
 * slots outside 1 to 360, mode above 17, i or j at or above n, or blocks of another length), 7.
 */
uint32_t bellacush_seal_body(uint32_t n, uint32_t slots, uint32_t mode, uint32_t i, uint32_t j,
                             const uint8_t *blocks, size_t blocks_len,
                             uint8_t *out, size_t out_len);

/*
 * Writes a trace to the first BELLACUSH_CONTENTS_LEN(slots_len) + bodies_len bytes of out; bytes
 * beyond are not touched.
 *
 * n       the ports.
 * firsts  a word for each body: the number of its first slot.
 * slots   a word of 16 bits for each body: how many slots it has.
 * bodies  the bodies, one behind the other, as bellacush_seal_body writes them.
 *
 * Returns BELLACUSH_DONE. Otherwise out keeps every byte. Tested in order: 14 (n outside 1 to 16,
 * firsts and slots of different lengths or above 1024, a body's slots outside 1 to 360, or bodies
 * are not just a body for each of these slots), 7.
 */
uint32_t bellacush_write_trace(uint32_t n, const uint32_t *firsts, size_t firsts_len,
                               const uint16_t *slots, size_t slots_len,
                               const uint8_t *bodies, size_t bodies_len,
                               uint8_t *out, size_t out_len);

/*
 * Imports a capture of the quick channel: writes the trace of the slots that were captured to out.
 *
 * A capture is a classic libpcap file. The numbers of its headers have the low byte first or the
 * high byte first, as its magic has:
 *
 *      header     4 bytes  the magic, 0xA1B2C3D4; files in nanoseconds have another
 *                 16 bytes version, zone, accuracy and greatest captured length: not looked at
 *                 4 bytes  the link type, 147, in the low 28 bits; the others are not looked at
 *      records    one behind the other; the last one ends the file:
 *                 8 bytes  when it was captured: not looked at
 *                 4 bytes  the captured length, 16
 *                 4 bytes  the original length: not looked at
 *                 16 bytes the packet, the same in both byte orders:
 *                     4 bytes  the number of its slot, high byte first
 *                     1 byte   its host, below n
 *                     11 bytes the host's frame, whatever it holds
 *
 * Packets are in the order of their slots: none is stale against the packet before, whose slot
 * minus its own is, mod 2^32, not from 1 to 2147483648. In the block of a slot stands, for each
 * host, the first frame captured, and eleven zeros if there is none; a further one of the same
 * slot and host was resent, and is skipped and counted. A gap in the slots' numbers, or 360 slots,
 * starts a new body, whose offsets go on as if no slot had been served in the gap. From 4294967295
 * to 0 is no gap.
 *
 * n       the ports.
 * mode    that of every body: BELLACUSH_CENTRAL, the round limit of the distributed form, or
 *         BELLACUSH_DIAGONAL.
 * i, j    the offsets I and J before the first slot captured.
 * capture the bytes of the file.
 * out     gets the trace, for which BELLACUSH_IMPORT_LEN(n, capture_len) bytes are enough; bytes
 *         beyond the trace are not touched.
 * report  8 bytes: gets the length of the trace in four bytes, then in four how many frames were
 *         resent, both high byte first. The count starts again from 0 after 4294967295.
 *
 * What is written is a trace, which replays; a capture without packets is a trace without bodies.
 *
 * Returns BELLACUSH_DONE. Otherwise out and report keep every byte. Tested in order: 8 (report
 * other than 8 bytes), 1, 2, 5, 18, 7.
 */
uint32_t bellacush_import(uint32_t n, uint32_t mode, uint32_t i, uint32_t j,
                          const uint8_t *capture, size_t capture_len,
                          uint8_t *out, size_t out_len, uint8_t *report, size_t report_len);

/*
 * Salvages a damaged trace: writes a new trace of just the sound bodies of file to out.
 *
 * file   any bytes. If the contents and their check are correct, every body that is complete,
 *        of proper form and with a right check is kept, unchanged and in order, with its first
 *        slot and its slots; each other one is dropped, and so are bytes after the last body.
 * out    gets the new trace in its first shown[BELLACUSH_NEW_LENGTH] bytes; bytes beyond are not
 *        touched. The new trace is never longer than file.
 * fates  gets a byte for each body of file: BELLACUSH_KEPT, or why it is dropped, tested in the
 *        order BELLACUSH_SHORT, BELLACUSH_CHECK, BELLACUSH_FORM. Bytes from
 *        shown[BELLACUSH_OLD_BODIES] on are not touched; 1024 bytes are enough for any file.
 * shown  2 words, in the order of BELLACUSH_NEW_LENGTH and BELLACUSH_OLD_BODIES.
 *
 * What is written is a trace; each of its bodies is replayed as in the file. Of a trace all bodies
 * are kept, and it comes back byte for byte; so salvaging twice gives what salvaging once gave.
 *
 * Returns BELLACUSH_DONE. Otherwise out, fates and shown keep every byte and word. Tested in
 * order: 8 (shown other than 2 words), 14 (the contents or their check are wrong), 7 (fates has
 * fewer bytes than file has bodies, or out than the new trace).
 */
uint32_t bellacush_salvage(const uint8_t *file, size_t file_len, uint8_t *out, size_t out_len,
                           uint8_t *fates, size_t fates_len, uint32_t *shown, size_t shown_len);

/*
 * Reads a configuration frame: copies the 8 bytes between type and check (req, pre, ben, qen,
 * high byte first) to part and returns BELLACUSH_DONE. Otherwise part keeps its bytes.
 * Tested in order: 8 (frame other than 11 bytes, part other than 8), 9, 10.
 */
uint32_t bellacush_read_config(const uint8_t *frame, size_t frame_len,
                               uint8_t *part, size_t part_len);

/*
 * Reads a grant frame, of type 3: copies the 4 bytes between type and check (nodeId; the flags;
 * the set of targets held in two, high byte first, bit t for target t) to part and returns
 * BELLACUSH_DONE. Otherwise part keeps its bytes. Tested in order: 8 (frame other than 7 bytes,
 * part other than 4), 9, 10, 11.
 */
uint32_t bellacush_read_grant3(const uint8_t *frame, size_t frame_len,
                               uint8_t *part, size_t part_len);

/*
 * Reads a grant frame of type 2, which earlier slot calls wrote: copies the 2 bytes between type
 * and check (nodeId in the high and gnt, the lowest target held, in the low four bits; the
 * flags) to part and returns BELLACUSH_DONE. Otherwise part keeps its bytes. Tested in order: 8
 * (frame other than 5 bytes, part other than 2), 9, 10, 11 (bits 3 to 7 of the flags set, or gnt
 * nonzero without gntVal).
 */
uint32_t bellacush_read_grant(const uint8_t *frame, size_t frame_len,
                              uint8_t *part, size_t part_len);

/*
 * Writes a configuration frame to the first 11 bytes of out and returns BELLACUSH_DONE; bytes
 * beyond are not touched. Declines with 7 if out is shorter, and then out keeps every byte.
 * req: targets asked for; pre: targets planned ahead; ben: bit i clear votes to disable
 * initiator i, which takes the votes of two heard hosts; qen: carried and unused.
 */
uint32_t bellacush_write_config(uint16_t req, uint16_t pre, uint16_t ben, uint16_t qen,
                                uint8_t *out, size_t out_len);

/*
 * Writes a grant frame, of type 3, to the first 7 bytes of out and returns BELLACUSH_DONE; bytes
 * beyond are not touched. A flag (gnt_val, link_err, crc_err) is set unless 0; set: the targets
 * held. Declining, out keeps every byte. Tested in order: 11 (node_id above 15, gnt_val with an
 * empty set, or a set that is not empty with gnt_val 0), 7.
 */
uint32_t bellacush_write_grant3(uint32_t node_id, uint32_t gnt_val, uint32_t link_err,
                                uint32_t crc_err, uint16_t set,
                                uint8_t *out, size_t out_len);

/*
 * The compact shelf: first-in first-out queues of 64-byte cells, one for each pair, for a product
 * without queue hardware. The cells lie in a pool and the queues in records, both lent by the
 * caller; a slot asks for what the queues hold, plans nothing and disables nobody.
 *
 * records  BELLACUSH_RECORDS_LEN(cells) words: the ports, the cells of the pool, how many of them
 *          are held, then an entry for each cell of the pool, (cell 16 + initiator) 16 + target:
 *          those held in the order of their arrival, behind them the free ones. They are in order
 *          if these numbers are as said, every cell of the pool has one entry, and every entry is
 *          of a pair of the shelf. Every call on queues tests it; new queues, and what every call
 *          leaves of queues in order, are in order. Zeros are not.
 * pool     64 bytes for each cell.
 *
 * Each call returns BELLACUSH_DONE, a slot with its rounds and a count with its cells, or the number
 * why it declined. Then it changes nothing: records, pool, state, output and table keep every byte.
 */

/*
 * Makes empty queues for n ports in records, for a pool of pool_len bytes.
 * Tested in order: 8 (records other than 3 + pool_len / 64 words), 1, 17 (pool_len other than 1 to
 * 960 whole cells).
 */
uint32_t bellacush_new_queues(uint32_t *records, size_t records_len, uint32_t n, size_t pool_len);

/*
 * Adds a cell to the end of the queue of (initiator, target).
 * Tested in order: 8 (cell other than 64 bytes), 1 (the records' ports), 17, 16 (exactly when every
 * cell of the pool is held: the room of a forwarded cell is used again).
 */
uint32_t bellacush_add_cell(uint32_t *records, size_t records_len, uint32_t initiator,
                            uint32_t target, const uint8_t *cell, size_t cell_len, uint8_t *pool,
                            size_t pool_len);

/*
 * Serves one slot of the queues: a pair asks if its queue holds a cell. The head of each granted
 * queue is removed, and target t's cell goes to byte 64 t of out; other bytes of out are not
 * touched, nor is the pool. State, slot, mode and table are those of bellacush_slot, and so is the
 * word returned; the owners in the state are kept and play no part, so a cell between ports of two
 * operators is forwarded. A cell at the head of a queue is forwarded within n^2 served slots.
 * Tested in order: 8 (state, table), 17 (pool, records, ports in the state other than the records'),
 * 2, 3 or 4, 5, 7 (out below 64 n).
 */
uint32_t bellacush_queue_slot(uint8_t *state, size_t state_len, uint32_t slot, uint32_t mode,
                              uint32_t *records, size_t records_len, const uint8_t *pool,
                              size_t pool_len, uint8_t *out, size_t out_len, uint8_t *table,
                              size_t table_len);

/*
 * How many cells the queue of (initiator, target) holds: BELLACUSH_NUMBER of the word is the number,
 * BELLACUSH_CELLS of it the cells, 0 if it declines. Tested in order: 1 (the records' ports), 17.
 */
uint32_t bellacush_count_cells(const uint32_t *records, size_t records_len, uint32_t initiator,
                               uint32_t target);
#define BELLACUSH_CELLS(word) ((uint32_t)(word) / 256u)

#ifdef __cplusplus
}
#endif

#endif
