/*
 * Calls every function of the header and checks what comes back. Written in what C99 and C++
 * share: it is compiled as both. Ends with 'N passed, M failed'.
 */
#include "bellacush.h"
#include "bellacush.h" /* the header may be included twice */

#include <stdio.h>
#include <string.h>

static unsigned passed, failed;

static void check(const char *what, int holds)
{
    if (holds) {
        passed++;
    } else {
        failed++;
        printf("failed: %s\n", what);
    }
}

#define CHECK(test) check(#test, (test))

/* Buffers of one slot call, and a copy of them as they were before it. */
struct lent {
    uint8_t state[BELLACUSH_STATE_LEN + 1];
    uint8_t block[BELLACUSH_BLOCK_LEN(BELLACUSH_MOST_PORTS)];
    uint8_t out[BELLACUSH_OUT_LEN(BELLACUSH_MOST_PORTS)];
    uint8_t table[BELLACUSH_TABLE_LEN + 1];
};

/* A slot of n hosts that ask for these targets, at offsets 0 and 0 with slot 5 due. */
static struct lent asking(unsigned n, const uint16_t *req)
{
    struct lent lent;
    unsigned h;

    memset(&lent, 0xB7, sizeof lent);
    memset(lent.state, 0, sizeof lent.state);
    lent.state[0] = (uint8_t)n;
    lent.state[6] = 5;
    for (h = 0; h < n; h++)
        CHECK(bellacush_write_config(req[h], 0, 0xFFFF, 0xFFFF, lent.block + BELLACUSH_BLOCK_LEN(h),
                                     BELLACUSH_CONFIG_LEN) == BELLACUSH_DONE);
    return lent;
}

static uint32_t slot(struct lent *lent, uint32_t number, uint32_t mode)
{
    size_t n = lent->state[0];
    return bellacush_slot(lent->state, BELLACUSH_STATE_LEN, number, mode, lent->block,
                          BELLACUSH_BLOCK_LEN(n), 0, lent->out, BELLACUSH_OUT_LEN(n), lent->table,
                          BELLACUSH_TABLE_LEN);
}

static int same(const struct lent *a, const struct lent *b)
{
    return memcmp(a, b, sizeof *a) == 0;
}

static void constants_are_the_documents(void)
{
    CHECK(BELLACUSH_MOST_PORTS == 16);
    CHECK(BELLACUSH_STATE_LEN == 9 && BELLACUSH_TABLE_LEN == 32);
    CHECK(BELLACUSH_CONFIG_LEN == 11 && BELLACUSH_CONFIG_PART_LEN == 8);
    CHECK(BELLACUSH_GRANT3_LEN == 7 && BELLACUSH_GRANT3_PART_LEN == 4);
    CHECK(BELLACUSH_GRANT_LEN == 5 && BELLACUSH_GRANT_PART_LEN == 2);
    CHECK(BELLACUSH_BLOCK_LEN(3) == 33 && BELLACUSH_OUT_LEN(2 + 1) == 21);
    CHECK(BELLACUSH_CENTRAL == 0 && BELLACUSH_MOST_ROUNDS == 16 && BELLACUSH_DIAGONAL == 17);
    CHECK(BELLACUSH_DONE == 0 && BELLACUSH_BAD_PORTS == 1 && BELLACUSH_BAD_OFFSET == 2);
    CHECK(BELLACUSH_SLOT_STALE == 3 && BELLACUSH_SLOT_EARLY == 4 && BELLACUSH_BAD_LIMIT == 5);
    CHECK(BELLACUSH_BAD_BLOCK_LEN == 6 && BELLACUSH_OUT_TOO_SHORT == 7 && BELLACUSH_BAD_LEN == 8);
    CHECK(BELLACUSH_BAD_TYPE == 9 && BELLACUSH_BAD_CHECK == 10);
    CHECK(BELLACUSH_BAD_GRANT_FIELD == 11);
    CHECK(BELLACUSH_BAD_LEDGER == 13 && BELLACUSH_BAD_TRACE == 14);
    CHECK(BELLACUSH_BAD_OPERATOR == 15);
    CHECK(BELLACUSH_LEDGER_LEN == 1 + 4 * 256 + 16 && BELLACUSH_FIGURES_LEN == 5);
    CHECK(BELLACUSH_ASKED == 0 && BELLACUSH_CONNECTED == 1 && BELLACUSH_FRESH == 2);
    CHECK(BELLACUSH_WITHDRAWN == 3 && BELLACUSH_OPEN == 4);
    CHECK(BELLACUSH_NUMBER(2 * 256 + 14) == 14 && BELLACUSH_ROUNDS(2 * 256 + 14) == 2);
}

static void measures_of_a_trace_are_the_documents(void)
{
    CHECK(BELLACUSH_MOST_BODIES == 1024 && BELLACUSH_MOST_BODY_SLOTS == 360);
    CHECK(BELLACUSH_HEAD_LEN == 3 && BELLACUSH_HEAD_WORDS == 2 && BELLACUSH_BODY_WORDS == 4);
    CHECK(BELLACUSH_CONTENTS_LEN(0) == 5 && BELLACUSH_CONTENTS_LEN(1 + 1) == 25);
    CHECK(BELLACUSH_BODY_LEN(1, 1) == 16 && BELLACUSH_BODY_LEN(8 + 8, 180 + 180) == 63365);
    CHECK(BELLACUSH_PORTS == 0 && BELLACUSH_BODIES == 1);
    CHECK(BELLACUSH_FIRST == 0 && BELLACUSH_SLOTS == 1);
    CHECK(BELLACUSH_OFFSET == 2 && BELLACUSH_LENGTH == 3);
}

static void measures_of_a_capture_are_the_documents(void)
{
    CHECK(BELLACUSH_CAPTURE_HEADER_LEN == 24 && BELLACUSH_CAPTURE_RECORD_LEN == 32);
    CHECK(BELLACUSH_REPORT_LEN == 8 && BELLACUSH_BAD_CAPTURE == 18);
    CHECK(BELLACUSH_IMPORT_LEN(1 + 1, 24) == 5 && BELLACUSH_IMPORT_LEN(2, 24 + 64) == 5 + 2 * 37);
}

/* Ports 1 and 2 of three are operator 1's; what stands at or above n is ignored. */
static void fresh_states(void)
{
    static const uint8_t wanted[9] = {3, 0, 0, 1, 2, 3, 4, 0, 6};
    uint8_t operators[17] = {0, 1, 1, 1, 2, 255}, state[10], kept[10];

    memset(state, 0xB7, sizeof state);
    memcpy(kept, state, sizeof kept);
    CHECK(bellacush_fresh(3, 5, operators, 15, state, 9) == BELLACUSH_BAD_LEN);
    CHECK(bellacush_fresh(3, 5, operators, 17, state, 9) == BELLACUSH_BAD_LEN);
    CHECK(bellacush_fresh(3, 5, operators, 16, state, 8) == BELLACUSH_BAD_LEN);
    CHECK(bellacush_fresh(0, 5, operators, 16, state, 10) == BELLACUSH_BAD_LEN);
    CHECK(bellacush_fresh(0, 5, NULL, 0, NULL, 0) == BELLACUSH_BAD_LEN);
    CHECK(bellacush_fresh(0, 5, operators, 16, state, 9) == BELLACUSH_BAD_PORTS);
    CHECK(bellacush_fresh(17, 5, operators, 16, state, 9) == BELLACUSH_BAD_PORTS);
    CHECK(bellacush_fresh(4294967295u, 5, operators, 16, state, 9) == BELLACUSH_BAD_PORTS);
    CHECK(bellacush_fresh(5, 5, operators, 16, state, 9) == BELLACUSH_BAD_OPERATOR);
    CHECK(bellacush_fresh(16, 5, operators, 16, state, 9) == BELLACUSH_BAD_OPERATOR);
    CHECK(memcmp(state, kept, sizeof state) == 0);
    CHECK(bellacush_fresh(3, 0x01020304, operators, 16, state, 9) == BELLACUSH_DONE);
    CHECK(memcmp(state, wanted, sizeof wanted) == 0 && state[9] == 0xB7);
}

/* Ports 2 and 3 of four are operator 1's. Hosts ask for each other's ports, which is ignored, and
   both of operator 1's vote against both of operator 0's, which counts for nothing. */
static void operators_stay_apart(void)
{
    static const uint16_t req[4] = {1, 14, 13, 12};
    static const uint8_t table[8] = {0, 1, 0, 2, 0, 4, 0, 8};
    struct lent l = asking(4, req), alone;

    l.state[7] = 0xA0; /* at or above n */
    l.state[8] = 0x0C;
    CHECK(bellacush_write_config(13, 2, 12, 0, l.block + 22, 11) == BELLACUSH_DONE);
    CHECK(bellacush_write_config(12, 0, 12, 0, l.block + 33, 11) == BELLACUSH_DONE);
    alone = l;
    memset(alone.block + 22, 0, 22);
    CHECK(slot(&l, 5, 4) == 256 + BELLACUSH_DONE);
    CHECK(memcmp(l.table, table, sizeof table) == 0);
    CHECK(l.state[1] == 1 && l.state[6] == 6 && l.state[7] == 0xA0 && l.state[8] == 0x0C);
    /* with operator 1 silent operator 0 gets the same, byte for byte */
    CHECK(slot(&alone, 5, 4) == 256 + BELLACUSH_DONE);
    CHECK(memcmp(alone.state, l.state, sizeof l.state) == 0);
    CHECK(memcmp(alone.out, l.out, 14) == 0 && memcmp(alone.table, l.table, 4) == 0);
    CHECK(memcmp(alone.out + 28, l.out + 28, sizeof l.out - 28) == 0);
    CHECK(alone.table[5] == 0 && alone.table[7] == 0);
}

/* Case B of document 01, and the frames that come of it. */
static void central_slot_is_served(void)
{
    static const uint16_t req[3] = {3, 1, 6};
    static const uint8_t table[6] = {0, 1, 0, 0, 0, 2};
    static const uint8_t grant[5] = {3, 2, BELLACUSH_GNT_VAL, 0, 2};
    struct lent lent = asking(3, req);

    CHECK(slot(&lent, 5, BELLACUSH_CENTRAL) == BELLACUSH_DONE);
    CHECK(memcmp(lent.table, table, sizeof table) == 0);
    CHECK(lent.table[6] == 0 && lent.table[31] == 0 && lent.table[32] == 0xB7);
    CHECK(memcmp(lent.out + BELLACUSH_OUT_LEN(2), grant, sizeof grant) == 0);
    CHECK(lent.state[0] == 3 && lent.state[1] == 1 && lent.state[2] == 0 && lent.state[6] == 6);
}

/* Case I of document 01 from its offsets. */
static void distributed_slot_is_served(void)
{
    static const uint16_t req[3] = {3, 7, 4};
    static const uint8_t table[6] = {0, 2, 0, 1, 0, 4};
    struct lent lent = asking(3, req);
    uint32_t word;

    lent.state[1] = 2;
    word = slot(&lent, 5, 2);
    CHECK(BELLACUSH_NUMBER(word) == BELLACUSH_DONE && BELLACUSH_ROUNDS(word) == 2);
    CHECK(memcmp(lent.table, table, sizeof table) == 0);
    CHECK(lent.state[1] == 0 && lent.state[2] == 1 && lent.state[6] == 6);
}

/* Initiator 1 has its diagonal position, and the central form gives target 0 to initiator 2. */
static void diagonal_first_slot_is_served(void)
{
    static const uint16_t req[3] = {2, 2, 1};
    static const uint8_t table[6] = {0, 0, 0, 2, 0, 1};
    struct lent lent = asking(3, req), before = lent;

    CHECK(slot(&lent, 5, BELLACUSH_DIAGONAL + 1) == BELLACUSH_BAD_LIMIT && same(&lent, &before));
    CHECK(slot(&lent, 5, BELLACUSH_DIAGONAL) == BELLACUSH_DONE);
    CHECK(memcmp(lent.table, table, sizeof table) == 0);
    CHECK(lent.state[1] == 1 && lent.state[2] == 0 && lent.state[6] == 6);
}

static void a_copy_is_refused_and_changes_nothing(void)
{
    static const uint16_t req[4] = {15, 15, 15, 15};
    struct lent lent = asking(4, req), served;

    CHECK(slot(&lent, 5, BELLACUSH_CENTRAL) == BELLACUSH_DONE);
    served = lent;
    CHECK(slot(&lent, 5, BELLACUSH_CENTRAL) == BELLACUSH_SLOT_STALE && same(&lent, &served));
    CHECK(slot(&lent, 7, BELLACUSH_CENTRAL) == BELLACUSH_SLOT_EARLY && same(&lent, &served));
    CHECK(slot(&lent, 6, 18) == BELLACUSH_BAD_LIMIT && same(&lent, &served));
    CHECK(slot(&lent, 6, 16) % 256 == BELLACUSH_DONE && !same(&lent, &served));
}

static void lengths_are_tested(void)
{
    static const uint16_t req[2] = {3, 3};
    struct lent l = asking(2, req), before = l;

    CHECK(bellacush_slot(l.state, 8, 5, 0, l.block, 22, 0, l.out, 14, l.table, 32) ==
          BELLACUSH_BAD_LEN);
    CHECK(bellacush_slot(l.state, 9, 5, 0, l.block, 22, 0, l.out, 14, l.table, 33) ==
          BELLACUSH_BAD_LEN);
    CHECK(bellacush_slot(l.state, 9, 5, 0, l.block, 21, 0, l.out, 14, l.table, 32) ==
          BELLACUSH_BAD_BLOCK_LEN);
    CHECK(bellacush_slot(l.state, 9, 5, 0, l.block, 22, 0, l.out, 13, l.table, 32) ==
          BELLACUSH_OUT_TOO_SHORT);
    CHECK(bellacush_slot(NULL, 0, 5, 0, NULL, 0, 0, NULL, 0, NULL, 0) == BELLACUSH_BAD_LEN);
    CHECK(bellacush_write_config(0, 0, 0, 0, NULL, 0) == BELLACUSH_OUT_TOO_SHORT);
    CHECK(bellacush_write_grant3(0, 0, 0, 0, 0, NULL, 0) == BELLACUSH_OUT_TOO_SHORT);
    CHECK(bellacush_read_config(NULL, 0, NULL, 0) == BELLACUSH_BAD_LEN);
    CHECK(bellacush_read_grant(NULL, 0, NULL, 0) == BELLACUSH_BAD_LEN);
    CHECK(bellacush_read_grant3(NULL, 0, NULL, 0) == BELLACUSH_BAD_LEN);
    l.state[1] = before.state[1] = 2;
    CHECK(slot(&l, 5, 0) == BELLACUSH_BAD_OFFSET);
    CHECK(same(&l, &before));
    l.state[0] = 17;
    CHECK(bellacush_slot(l.state, 9, 5, 0, l.block, 176, 0, l.out, 112, l.table, 32) ==
          BELLACUSH_BAD_PORTS);
}

static void link_and_quiet_hosts_are_told(void)
{
    static const uint16_t req[2] = {1, 2};
    struct lent l = asking(2, req);

    memset(l.block + BELLACUSH_CONFIG_LEN, 0, BELLACUSH_CONFIG_LEN);
    CHECK(bellacush_slot(l.state, 9, 5, 0, l.block, 22, 0xFFFE, l.out, 112, l.table, 32) ==
          BELLACUSH_DONE);
    CHECK(l.out[1] == 0x00 && l.out[2] == BELLACUSH_GNT_VAL);
    CHECK(l.out[8] == 1 && l.out[9] == (BELLACUSH_LINK_ERR | BELLACUSH_CRC_ERR));
    CHECK(l.out[BELLACUSH_OUT_LEN(2)] == 0xB7);
}

static void config_frames(void)
{
    static const uint8_t frame[11] = {1, 0, 1, 0, 2, 0, 3, 0, 4, 0x16, 0x67};
    uint8_t out[12], part[9], kept[9];

    memset(out, 0xB7, sizeof out);
    memset(part, 0xB7, sizeof part);
    memcpy(kept, part, sizeof kept);
    CHECK(bellacush_write_config(1, 2, 3, 4, out, 10) == BELLACUSH_OUT_TOO_SHORT && out[0] == 0xB7);
    CHECK(bellacush_write_config(1, 2, 3, 4, out, sizeof out) == BELLACUSH_DONE);
    CHECK(memcmp(out, frame, sizeof frame) == 0 && out[11] == 0xB7);
    CHECK(bellacush_read_config(frame, 10, part, 8) == BELLACUSH_BAD_LEN);
    CHECK(bellacush_read_config(frame, 11, part, 9) == BELLACUSH_BAD_LEN);
    out[10] ^= 1;
    CHECK(bellacush_read_config(out, 11, part, 8) == BELLACUSH_BAD_CHECK);
    out[0] = 2;
    CHECK(bellacush_read_config(out, 11, part, 8) == BELLACUSH_BAD_TYPE);
    CHECK(memcmp(part, kept, sizeof part) == 0);
    CHECK(bellacush_read_config(frame, 11, part, 8) == BELLACUSH_DONE);
    CHECK(memcmp(part, frame + 1, 8) == 0 && part[8] == 0xB7);
}

static void grant3_frames(void)
{
    static const uint8_t frame[7] = {3, 12, 5, 0x09, 0x20, 0xC5, 0xE6};
    uint8_t out[8], part[5];

    memset(out, 0xB7, sizeof out);
    memset(part, 0xB7, sizeof part);
    CHECK(bellacush_write_grant3(16, 0, 1, 0, 0, out, 6) == BELLACUSH_BAD_GRANT_FIELD);
    CHECK(bellacush_write_grant3(0, 1, 0, 0, 0, out, 7) == BELLACUSH_BAD_GRANT_FIELD);
    CHECK(bellacush_write_grant3(0, 0, 0, 0, 1, out, 7) == BELLACUSH_BAD_GRANT_FIELD);
    CHECK(bellacush_write_grant3(12, 1, 0, 1, 0x0920, out, 6) == BELLACUSH_OUT_TOO_SHORT);
    CHECK(out[0] == 0xB7);
    CHECK(bellacush_write_grant3(12, 256, 0, 4294967295u, 0x0920, out, sizeof out) ==
          BELLACUSH_DONE);
    CHECK(memcmp(out, frame, sizeof frame) == 0 && out[7] == 0xB7);
    CHECK(bellacush_read_grant3(frame, 7, part, 5) == BELLACUSH_BAD_LEN);
    CHECK(bellacush_read_grant3(frame, 6, part, 4) == BELLACUSH_BAD_LEN);
    out[2] |= 8;
    CHECK(bellacush_read_grant3(out, 7, part, 4) == BELLACUSH_BAD_CHECK);
    out[0] = 2;
    CHECK(bellacush_read_grant3(out, 7, part, 4) == BELLACUSH_BAD_TYPE && part[0] == 0xB7);
    CHECK(bellacush_read_grant3(frame, 7, part, 4) == BELLACUSH_DONE);
    CHECK(memcmp(part, frame + 1, 4) == 0 && part[4] == 0xB7);
}

/* Frames of type 2, as earlier slot calls wrote them. */
static void grant_frames(void)
{
    static const uint8_t frame[5] = {2, 0xC5, 5, 0x1B, 0xF8};
    uint8_t wrong[5], part[3];

    memcpy(wrong, frame, sizeof wrong);
    memset(part, 0xB7, sizeof part);
    CHECK(bellacush_read_grant(frame, 5, part, 3) == BELLACUSH_BAD_LEN);
    CHECK(bellacush_read_grant(frame, 4, part, 2) == BELLACUSH_BAD_LEN);
    wrong[2] |= 8;
    CHECK(bellacush_read_grant(wrong, 5, part, 2) == BELLACUSH_BAD_CHECK);
    wrong[0] = 1;
    CHECK(bellacush_read_grant(wrong, 5, part, 2) == BELLACUSH_BAD_TYPE && part[0] == 0xB7);
    CHECK(bellacush_read_grant(frame, 5, part, 2) == BELLACUSH_DONE);
    CHECK(part[0] == 0xC5 && part[1] == (BELLACUSH_GNT_VAL | BELLACUSH_CRC_ERR) && part[2] == 0xB7);
}

static void asked_sets_of_a_block(void)
{
    static const uint16_t req[3] = {0xFFFF, 5, 6};
    static const uint8_t wanted[6] = {0, 7, 0, 5, 0, 0};
    static const uint8_t no_ports[9] = {0}, many_ports[9] = {17};
    struct lent l = asking(3, req), before;

    /* hosts 1 and 2 vote against host 2; bits at or above n are nothing */
    CHECK(bellacush_write_config(5, 0, 0xFFFB, 0, l.block + 11, 11) == BELLACUSH_DONE);
    CHECK(bellacush_write_config(6, 0, 0xFFFB, 0, l.block + 22, 11) == BELLACUSH_DONE);
    before = l;
    CHECK(bellacush_asked(l.state, 9, l.block, 33, l.table, 31) == BELLACUSH_BAD_LEN);
    CHECK(bellacush_asked(l.state, 8, l.block, 33, l.table, 32) == BELLACUSH_BAD_LEN);
    CHECK(bellacush_asked(no_ports, 9, l.block, 0, l.table, 33) == BELLACUSH_BAD_LEN);
    CHECK(bellacush_asked(no_ports, 9, l.block, 0, l.table, 32) == BELLACUSH_BAD_PORTS);
    CHECK(bellacush_asked(many_ports, 9, l.block, 176, l.table, 32) == BELLACUSH_BAD_PORTS);
    CHECK(bellacush_asked(l.state, 9, l.block, 32, l.table, 32) == BELLACUSH_BAD_BLOCK_LEN);
    CHECK(bellacush_asked(NULL, 0, NULL, 0, NULL, 0) == BELLACUSH_BAD_LEN);
    CHECK(same(&l, &before));
    CHECK(bellacush_asked(l.state, 9, l.block, 33, l.table, 32) == BELLACUSH_DONE);
    CHECK(memcmp(l.table, wanted, sizeof wanted) == 0);
    CHECK(l.table[6] == 0 && l.table[31] == 0 && l.table[32] == 0xB7);
    memset(l.block, 0, 11);
    CHECK(bellacush_asked(l.state, 9, l.block, 33, l.table, 32) == BELLACUSH_DONE);
    CHECK(l.table[0] == 0 && l.table[1] == 0 && l.table[3] == 5 && l.table[5] == 0);
    /* port 2 is operator 1's: hosts 0 and 1 do not ask for it, and one vote left does not disable it */
    l.state[8] = 4;
    CHECK(bellacush_asked(l.state, 9, l.block, 33, l.table, 32) == BELLACUSH_DONE);
    CHECK(l.table[0] == 0 && l.table[1] == 0 && l.table[3] == 1 && l.table[5] == 4);
}

/* The figures of a pair are these. */
static int shows(const uint32_t *ledger, uint32_t i, uint32_t t, uint32_t asked,
                 uint32_t connected, uint32_t fresh, uint32_t withdrawn, uint32_t open)
{
    uint32_t f[BELLACUSH_FIGURES_LEN] = {9, 9, 9, 9, 9};

    return bellacush_figures(ledger, BELLACUSH_LEDGER_LEN, i, t, f, 5) == BELLACUSH_DONE &&
           f[BELLACUSH_ASKED] == asked && f[BELLACUSH_CONNECTED] == connected &&
           f[BELLACUSH_FRESH] == fresh && f[BELLACUSH_WITHDRAWN] == withdrawn &&
           f[BELLACUSH_OPEN] == open;
}

/* Feeds sets of initiator 1 alone. */
static uint32_t feed_1(uint32_t *ledger, uint32_t n, unsigned asks, unsigned holds)
{
    uint8_t asked[BELLACUSH_TABLE_LEN] = {0}, connected[BELLACUSH_TABLE_LEN] = {0};

    asked[2] = (uint8_t)(asks / 256);
    asked[3] = (uint8_t)(asks % 256);
    connected[2] = (uint8_t)(holds / 256);
    connected[3] = (uint8_t)(holds % 256);
    return bellacush_feed(ledger, BELLACUSH_LEDGER_LEN, n, asked, sizeof asked, connected,
                          sizeof connected);
}

static void a_ledger_counts_a_request_once(void)
{
    uint32_t ledger[BELLACUSH_LEDGER_LEN];

    memset(ledger, 0, sizeof ledger);
    CHECK(shows(ledger, 1, 2, 0, 0, 0, 0, 0));
    CHECK(feed_1(ledger, 16, 1u << 2 | 1u << 15, 1u << 3) == BELLACUSH_DONE);
    CHECK(shows(ledger, 1, 2, 1, 0, 1, 0, 1) && shows(ledger, 1, 3, 0, 0, 0, 0, 0));
    CHECK(feed_1(ledger, 16, 1u << 2 | 1u << 15, 0) == BELLACUSH_DONE);
    CHECK(shows(ledger, 1, 2, 2, 0, 1, 0, 1) && shows(ledger, 1, 15, 2, 0, 1, 0, 1));
    CHECK(feed_1(ledger, 3, 1u << 2 | 1u << 15, 1u << 2) == BELLACUSH_DONE);
    CHECK(shows(ledger, 1, 2, 3, 1, 1, 0, 0) && shows(ledger, 1, 15, 2, 0, 1, 1, 0));
    CHECK(feed_1(ledger, 16, 1u << 2, 0) == BELLACUSH_DONE);
    CHECK(shows(ledger, 1, 2, 4, 1, 2, 0, 1) && shows(ledger, 2, 1, 0, 0, 0, 0, 0));
    CHECK(ledger[0] == 4 && ledger[1 + 18] == 4 && ledger[257 + 18] == 1);
    CHECK(ledger[513 + 18] == 2 && ledger[769 + 31] == 1 && ledger[1025 + 1] == 4);
}

static void a_ledger_that_cannot_be_is_refused(void)
{
    uint32_t ledger[BELLACUSH_LEDGER_LEN], kept[BELLACUSH_LEDGER_LEN];
    uint32_t figures[BELLACUSH_FIGURES_LEN] = {7, 7, 7, 7, 7};
    uint8_t t[BELLACUSH_TABLE_LEN + 1] = {0};

    memset(ledger, 0, sizeof ledger);
    ledger[769] = 1;
    memcpy(kept, ledger, sizeof kept);
    CHECK(bellacush_feed(ledger, 1040, 0, t, 32, t, 32) == BELLACUSH_BAD_LEN);
    CHECK(bellacush_feed(ledger, 1041, 0, t, 33, t, 32) == BELLACUSH_BAD_LEN);
    CHECK(bellacush_feed(ledger, 1041, 0, t, 32, t, 31) == BELLACUSH_BAD_LEN);
    CHECK(bellacush_feed(NULL, 0, 1, NULL, 0, NULL, 0) == BELLACUSH_BAD_LEN);
    CHECK(bellacush_feed(ledger, 1041, 0, t, 32, t, 32) == BELLACUSH_BAD_PORTS);
    CHECK(bellacush_feed(ledger, 1041, 17, t, 32, t, 32) == BELLACUSH_BAD_PORTS);
    CHECK(bellacush_feed(ledger, 1041, 1, t, 32, t, 32) == BELLACUSH_BAD_LEDGER);
    CHECK(memcmp(ledger, kept, sizeof kept) == 0);
    memset(ledger, 0, sizeof ledger);
    ledger[1025 + 15] = 0x8000;
    CHECK(bellacush_feed(ledger, 1041, 1, t, 32, t, 32) == BELLACUSH_BAD_LEDGER);
    ledger[1025 + 15] = 0x10000;
    CHECK(bellacush_feed(ledger, 1041, 1, t, 32, t, 32) == BELLACUSH_DONE && ledger[0] == 1);
    ledger[0] = 4294967295u;
    CHECK(bellacush_feed(ledger, 1041, 1, t, 32, t, 32) == BELLACUSH_BAD_LEDGER);
    CHECK(bellacush_figures(ledger, 1042, 16, 0, figures, 5) == BELLACUSH_BAD_LEN);
    CHECK(bellacush_figures(ledger, 1041, 16, 0, figures, 4) == BELLACUSH_BAD_LEN);
    CHECK(bellacush_figures(NULL, 0, 0, 0, NULL, 0) == BELLACUSH_BAD_LEN);
    CHECK(bellacush_figures(ledger, 1041, 16, 0, figures, 5) == BELLACUSH_BAD_GRANT_FIELD);
    CHECK(bellacush_figures(ledger, 1041, 0, 4294967295u, figures, 5) == BELLACUSH_BAD_GRANT_FIELD);
    CHECK(figures[0] == 7 && figures[4] == 7);
}

/* Slots served and fed, each block's copy refused and not fed. */
static void a_ledger_beside_a_slot_loop(void)
{
    static const uint16_t req[2] = {1, 1};
    struct lent l = asking(2, req);
    uint32_t ledger[BELLACUSH_LEDGER_LEN], number;
    uint8_t asked[BELLACUSH_TABLE_LEN];

    memset(ledger, 0, sizeof ledger);
    for (number = 5; number < 9; number++) {
        CHECK(slot(&l, number, BELLACUSH_CENTRAL) == BELLACUSH_DONE);
        CHECK(bellacush_asked(l.state, 9, l.block, 22, asked, 32) == BELLACUSH_DONE);
        CHECK(bellacush_feed(ledger, 1041, 2, asked, 32, l.table, 32) == BELLACUSH_DONE);
        CHECK(slot(&l, number, BELLACUSH_CENTRAL) == BELLACUSH_SLOT_STALE);
    }
    CHECK(ledger[0] == 4);
    CHECK(shows(ledger, 0, 0, 4, 2, 2, 0, 0) && shows(ledger, 1, 0, 4, 2, 3, 0, 1));
}

/* The two bodies of the trace below: their first slots and slot counts. */
static const uint32_t firsts[2] = {4294967295u, 1};
static const uint16_t counts[2] = {2, 1};

/* Three slots of two ports, with numbers across the wrap, and the trace that records them. */
struct recorded {
    uint8_t blocks[3 * 22];
    uint8_t tables[3 * 32];
    uint8_t bodies[49 + 27];
    uint8_t file[25 + 49 + 27 + 1];
};

static struct recorded record(void)
{
    static const uint16_t req[3][2] = {{3, 3}, {1, 1}, {2, 3}};
    uint8_t state[BELLACUSH_STATE_LEN] = {2, 0, 0, 255, 255, 255, 255, 0, 0};
    struct recorded r;
    uint32_t k;

    memset(&r, 0xB7, sizeof r);
    for (k = 0; k < 3; k++) {
        struct lent l = asking(2, req[k]);
        memcpy(l.state, state, sizeof state);
        CHECK(BELLACUSH_NUMBER(slot(&l, firsts[0] + k, 2)) == BELLACUSH_DONE);
        memcpy(state, l.state, sizeof state);
        memcpy(r.blocks + 22 * k, l.block, 22);
        memcpy(r.tables + 32 * k, l.table, 32);
    }
    CHECK(bellacush_seal_body(2, 2, 2, 0, 0, r.blocks, 44, r.bodies, 76) == BELLACUSH_DONE);
    CHECK(r.bodies[49] == 0xB7);
    CHECK(bellacush_seal_body(2, 1, 2, 0, 1, r.blocks + 44, 22, r.bodies + 49, 27) ==
          BELLACUSH_DONE);
    CHECK(bellacush_write_trace(2, firsts, 2, counts, 2, r.bodies, 76, r.file, sizeof r.file) ==
          BELLACUSH_DONE);
    CHECK(r.file[101] == 0xB7);
    return r;
}

static void a_trace_stands_as_the_header_says(void)
{
    static const uint8_t contents[25] = {2, 0, 2, 255, 255, 255, 255, 0, 2, 0, 0, 0, 25,
                                         0, 0, 0, 1, 0, 1, 0, 0, 0, 74, 0x9D, 0x03};
    static const uint8_t empty[5] = {1, 0, 0, 0xFB, 0xAC};
    static const uint8_t fields[2][3] = {{2, 0, 0}, {2, 0, 1}};
    struct recorded r = record();
    uint32_t shown[2] = {7, 7}, place[4] = {7, 7, 7, 7};
    uint8_t out[6] = {7, 7, 7, 7, 7, 7};

    CHECK(memcmp(r.file, contents, sizeof contents) == 0);
    CHECK(memcmp(r.file + 25, r.bodies, sizeof r.bodies) == 0);
    CHECK(memcmp(r.file + 25, fields[0], 3) == 0 && memcmp(r.file + 28, r.blocks, 44) == 0);
    CHECK(memcmp(r.file + 74, fields[1], 3) == 0 && memcmp(r.file + 77, r.blocks + 44, 22) == 0);
    CHECK(bellacush_trace(r.file, 101, shown, 2) == BELLACUSH_DONE);
    CHECK(shown[BELLACUSH_PORTS] == 2 && shown[BELLACUSH_BODIES] == 2);
    CHECK(bellacush_trace_body(r.file, 101, 1, place, 4) == BELLACUSH_DONE);
    CHECK(place[BELLACUSH_FIRST] == 1 && place[BELLACUSH_SLOTS] == 1);
    CHECK(place[BELLACUSH_OFFSET] == 74 && place[BELLACUSH_LENGTH] == 27);
    CHECK(bellacush_write_trace(1, NULL, 0, NULL, 0, NULL, 0, out, 6) == BELLACUSH_DONE);
    CHECK(memcmp(out, empty, 5) == 0 && out[5] == 7);
    CHECK(bellacush_trace(empty, 5, shown, 2) == BELLACUSH_DONE);
    CHECK(shown[BELLACUSH_PORTS] == 1 && shown[BELLACUSH_BODIES] == 0);
}

/* The way through a file that the header shows. */
static void a_trace_is_replayed_body_by_body(void)
{
    struct recorded r = record();
    uint32_t shown[2] = {7, 7}, place[4], k;
    uint8_t tables[3 * 32 + 1], *next = tables;

    memset(tables, 0xB7, sizeof tables);
    CHECK(bellacush_contents(r.file, 25, 101, shown, 2) == BELLACUSH_DONE);
    CHECK(shown[BELLACUSH_PORTS] == 2 && shown[BELLACUSH_BODIES] == 2);
    for (k = 0; k < 2; k++) {
        CHECK(bellacush_entry(r.file, 25, k, place, 4) == BELLACUSH_DONE);
        CHECK(place[BELLACUSH_FIRST] == firsts[k] && place[BELLACUSH_SLOTS] == counts[k]);
        CHECK(bellacush_replay(2, place[BELLACUSH_FIRST], place[BELLACUSH_SLOTS],
                               r.file + place[BELLACUSH_OFFSET], place[BELLACUSH_LENGTH], next,
                               (size_t)(tables + sizeof tables - next)) == BELLACUSH_DONE);
        next += 32 * place[BELLACUSH_SLOTS];
    }
    CHECK(memcmp(tables, r.tables, sizeof r.tables) == 0 && *next == 0xB7);
}

static void what_is_no_trace_is_refused(void)
{
    struct recorded r = record();
    uint32_t shown[3] = {7, 7, 7}, place[5] = {7, 7, 7, 7, 7};

    CHECK(bellacush_trace(r.file, 100, shown, 3) == BELLACUSH_BAD_LEN);
    CHECK(bellacush_trace(r.file, 101, NULL, 0) == BELLACUSH_BAD_LEN);
    CHECK(bellacush_trace(NULL, 0, shown, 2) == BELLACUSH_BAD_TRACE);
    CHECK(bellacush_trace(r.file, 100, shown, 2) == BELLACUSH_BAD_TRACE);
    CHECK(bellacush_trace(r.file, 102, shown, 2) == BELLACUSH_BAD_TRACE);
    CHECK(bellacush_trace_body(r.file, 101, 2, place, 3) == BELLACUSH_BAD_LEN);
    CHECK(bellacush_trace_body(r.file, 101, 2, place, 4) == BELLACUSH_BAD_TRACE);
    CHECK(bellacush_trace_body(r.file, 100, 0, place, 4) == BELLACUSH_BAD_TRACE);
    CHECK(bellacush_contents(r.file, 24, 101, shown, 1) == BELLACUSH_BAD_LEN);
    CHECK(bellacush_contents(r.file, 24, 101, shown, 2) == BELLACUSH_BAD_TRACE);
    CHECK(bellacush_contents(r.file, 25, 102, shown, 2) == BELLACUSH_BAD_TRACE);
    CHECK(bellacush_entry(r.file, 25, 2, place, 5) == BELLACUSH_BAD_LEN);
    CHECK(bellacush_entry(r.file, 25, 2, place, 4) == BELLACUSH_BAD_TRACE);
    CHECK(bellacush_entry(r.file, 22, 1, place, 4) == BELLACUSH_BAD_TRACE);
    CHECK(bellacush_entry(NULL, 0, 0, place, 4) == BELLACUSH_BAD_TRACE);
    r.file[90] ^= 1;
    CHECK(bellacush_trace(r.file, 101, shown, 2) == BELLACUSH_BAD_TRACE);
    CHECK(bellacush_trace_body(r.file, 101, 0, place, 4) == BELLACUSH_BAD_TRACE);
    CHECK(shown[0] == 7 && shown[1] == 7 && place[0] == 7 && place[3] == 7);
    CHECK(bellacush_contents(r.file, 101, 101, shown, 2) == BELLACUSH_DONE);
    r.file[3] ^= 1; /* an entry is shown as it stands, though its check is wrong now */
    CHECK(bellacush_contents(r.file, 101, 101, shown, 2) == BELLACUSH_BAD_TRACE);
    CHECK(bellacush_entry(r.file, 13, 0, place, 4) == BELLACUSH_DONE && place[0] == 0xFEFFFFFF);
}

static void what_is_no_body_is_not_replayed(void)
{
    struct recorded r = record();
    uint8_t t[64], kept[64];

    memset(t, 0xB7, sizeof t);
    memcpy(kept, t, sizeof kept);
    CHECK(bellacush_replay(0, 9, 2, r.bodies, 49, t, 64) == BELLACUSH_BAD_TRACE);
    CHECK(bellacush_replay(17, 9, 2, r.bodies, 49, t, 64) == BELLACUSH_BAD_TRACE);
    CHECK(bellacush_replay(2, 9, 0, r.bodies, 49, t, 64) == BELLACUSH_BAD_TRACE);
    CHECK(bellacush_replay(2, 9, 361, r.bodies, 49, t, 64) == BELLACUSH_BAD_TRACE);
    CHECK(bellacush_replay(2, 9, 2, r.bodies, 48, t, 63) == BELLACUSH_BAD_TRACE);
    CHECK(bellacush_replay(2, 9, 2, NULL, 0, NULL, 0) == BELLACUSH_BAD_TRACE);
    CHECK(bellacush_replay(2, 9, 2, r.bodies, 49, t, 63) == BELLACUSH_OUT_TOO_SHORT);
    CHECK(bellacush_replay(2, 9, 2, r.bodies, 49, NULL, 0) == BELLACUSH_OUT_TOO_SHORT);
    r.bodies[48] ^= 1;
    CHECK(bellacush_replay(2, 9, 2, r.bodies, 49, t, 64) == BELLACUSH_BAD_TRACE);
    CHECK(memcmp(t, kept, sizeof t) == 0);
}

static void what_is_no_body_is_not_sealed(void)
{
    struct recorded r = record();
    uint8_t out[50], kept[50];

    memset(out, 0xB7, sizeof out);
    memcpy(kept, out, sizeof kept);
    CHECK(bellacush_seal_body(0, 2, 0, 0, 0, r.blocks, 44, out, 50) == BELLACUSH_BAD_TRACE);
    CHECK(bellacush_seal_body(17, 2, 0, 0, 0, r.blocks, 44, out, 50) == BELLACUSH_BAD_TRACE);
    CHECK(bellacush_seal_body(2, 0, 0, 0, 0, NULL, 0, out, 50) == BELLACUSH_BAD_TRACE);
    CHECK(bellacush_seal_body(2, 361, 0, 0, 0, r.blocks, 44, out, 50) == BELLACUSH_BAD_TRACE);
    CHECK(bellacush_seal_body(2, 2, 18, 0, 0, r.blocks, 44, out, 50) == BELLACUSH_BAD_TRACE);
    CHECK(bellacush_seal_body(2, 2, 0, 2, 0, r.blocks, 44, out, 50) == BELLACUSH_BAD_TRACE);
    CHECK(bellacush_seal_body(2, 2, 0, 0, 2, r.blocks, 44, out, 50) == BELLACUSH_BAD_TRACE);
    CHECK(bellacush_seal_body(2, 2, 0, 0, 0, r.blocks, 43, out, 48) == BELLACUSH_BAD_TRACE);
    CHECK(bellacush_seal_body(2, 2, 0, 0, 0, r.blocks, 44, out, 48) == BELLACUSH_OUT_TOO_SHORT);
    CHECK(bellacush_seal_body(2, 2, 0, 0, 0, r.blocks, 44, NULL, 0) == BELLACUSH_OUT_TOO_SHORT);
    CHECK(memcmp(out, kept, sizeof out) == 0);
    CHECK(bellacush_seal_body(2, 2, 2, 0, 0, r.blocks, 44, out, 50) == BELLACUSH_DONE);
    CHECK(memcmp(out, r.bodies, 49) == 0 && out[49] == 0xB7);
}

static void what_is_no_trace_is_not_written(void)
{
    static const uint16_t swapped[2] = {1, 2}, none[2] = {2, 0};
    struct recorded r = record();
    const uint8_t *b = r.bodies;
    uint8_t out[101], kept[101];

    memset(out, 0xB7, sizeof out);
    memcpy(kept, out, sizeof kept);
    CHECK(bellacush_write_trace(0, firsts, 2, counts, 2, b, 76, out, 101) == BELLACUSH_BAD_TRACE);
    CHECK(bellacush_write_trace(3, firsts, 2, counts, 2, b, 76, out, 101) == BELLACUSH_BAD_TRACE);
    CHECK(bellacush_write_trace(2, firsts, 1, counts, 2, b, 76, out, 101) == BELLACUSH_BAD_TRACE);
    CHECK(bellacush_write_trace(2, firsts, 1, counts, 1, b, 76, out, 101) == BELLACUSH_BAD_TRACE);
    CHECK(bellacush_write_trace(2, firsts, 2, swapped, 2, b, 76, out, 101) == BELLACUSH_BAD_TRACE);
    CHECK(bellacush_write_trace(2, firsts, 2, none, 2, b, 49, out, 101) == BELLACUSH_BAD_TRACE);
    CHECK(bellacush_write_trace(2, firsts, 2, counts, 2, b, 75, out, 99) == BELLACUSH_BAD_TRACE);
    CHECK(bellacush_write_trace(2, firsts, 2, counts, 2, b, 76, out, 100) ==
          BELLACUSH_OUT_TOO_SHORT);
    r.bodies[75] ^= 1;
    CHECK(bellacush_write_trace(2, firsts, 2, counts, 2, b, 76, out, 101) == BELLACUSH_BAD_TRACE);
    CHECK(memcmp(out, kept, sizeof out) == 0);
    r.bodies[75] ^= 1;
    CHECK(bellacush_write_trace(2, firsts, 2, counts, 2, b, 76, out, 101) == BELLACUSH_DONE);
    CHECK(memcmp(out, r.file, sizeof out) == 0);
}

/* Four packets of two ports: the first slot is the last number there is, the second packet is
   resent, and there is a gap before the last. */
#define PACKETS 4

struct captured {
    uint8_t file[BELLACUSH_CAPTURE_HEADER_LEN + PACKETS * BELLACUSH_CAPTURE_RECORD_LEN];
    uint8_t out[BELLACUSH_IMPORT_LEN(2, 24 + 32 * PACKETS)];
    uint8_t report[BELLACUSH_REPORT_LEN + 1];
};

static void put_long(uint8_t *at, uint32_t number, int low_first)
{
    unsigned k;

    for (k = 0; k < 4; k++)
        at[low_first ? k : 3 - k] = (uint8_t)(number >> (8 * k));
}

static struct captured capture(int low_first)
{
    static const uint32_t slots[PACKETS] = {4294967295u, 4294967295u, 0, 5};
    static const uint8_t hosts[PACKETS] = {1, 1, 0, 0}, values[PACKETS] = {11, 12, 13, 14};
    struct captured c;
    uint8_t *at = c.file + BELLACUSH_CAPTURE_HEADER_LEN;
    unsigned k;

    memset(&c, 0xB7, sizeof c);
    put_long(c.file, 0xA1B2C3D4u, low_first);
    put_long(c.file + 20, 147, low_first);
    for (k = 0; k < PACKETS; k++, at += BELLACUSH_CAPTURE_RECORD_LEN) {
        put_long(at + 8, 16, low_first);
        put_long(at + 16, slots[k], 0);
        at[20] = hosts[k];
        memset(at + 21, values[k], BELLACUSH_CONFIG_LEN);
    }
    return c;
}

static uint32_t import(struct captured *c, uint32_t n, uint32_t mode, uint32_t i, uint32_t j)
{
    return bellacush_import(n, mode, i, j, c->file, sizeof c->file, c->out, sizeof c->out,
                            c->report, BELLACUSH_REPORT_LEN);
}

static void a_capture_is_imported(int low_first)
{
    static const uint32_t starts[2] = {4294967295u, 5};
    static const uint16_t slots[2] = {2, 1};
    static const uint8_t report[8] = {0, 0, 0, 101, 0, 0, 0, 1};
    struct captured c = capture(low_first);
    uint8_t blocks[3 * BELLACUSH_BLOCK_LEN(2)], bodies[76], trace[101];

    memset(blocks, 0, sizeof blocks);
    memset(blocks + 11, 11, 11);
    memset(blocks + 22, 13, 11);
    memset(blocks + 44, 14, 11);
    /* two slots are served before the gap, and none in it: (1, 0), (0, 1), (1, 1) */
    CHECK(bellacush_seal_body(2, 2, 17, 1, 0, blocks, 44, bodies, 49) == BELLACUSH_DONE);
    CHECK(bellacush_seal_body(2, 1, 17, 1, 1, blocks + 44, 22, bodies + 49, 27) == BELLACUSH_DONE);
    CHECK(bellacush_write_trace(2, starts, 2, slots, 2, bodies, 76, trace, 101) == BELLACUSH_DONE);
    CHECK(import(&c, 2, BELLACUSH_DIAGONAL, 1, 0) == BELLACUSH_DONE);
    CHECK(memcmp(c.out, trace, sizeof trace) == 0 && c.out[101] == 0xB7);
    CHECK(memcmp(c.report, report, sizeof report) == 0 && c.report[8] == 0xB7);
}

static void what_is_no_capture_is_refused(void)
{
    struct captured c = capture(1), kept = c;
    const uint8_t *f = c.file;
    size_t len = sizeof c.file, room = sizeof c.out;

    CHECK(bellacush_import(0, 0, 0, 0, f, len, c.out, room, c.report, 7) == BELLACUSH_BAD_LEN);
    CHECK(bellacush_import(2, 0, 0, 0, f, len, c.out, room, c.report, 9) == BELLACUSH_BAD_LEN);
    CHECK(bellacush_import(2, 0, 0, 0, f, len, c.out, room, NULL, 0) == BELLACUSH_BAD_LEN);
    CHECK(import(&c, 0, 18, 2, 2) == BELLACUSH_BAD_PORTS);
    CHECK(import(&c, 17, 0, 0, 0) == BELLACUSH_BAD_PORTS);
    CHECK(import(&c, 2, 18, 2, 0) == BELLACUSH_BAD_OFFSET);
    CHECK(import(&c, 2, 0, 0, 4294967295u) == BELLACUSH_BAD_OFFSET);
    CHECK(import(&c, 1, 18, 0, 0) == BELLACUSH_BAD_LIMIT);
    CHECK(import(&c, 1, 0, 0, 0) == BELLACUSH_BAD_CAPTURE);
    CHECK(bellacush_import(2, 0, 0, 0, f, len - 1, c.out, 0, c.report, 8) ==
          BELLACUSH_BAD_CAPTURE);
    CHECK(bellacush_import(2, 0, 0, 0, NULL, 0, c.out, room, c.report, 8) ==
          BELLACUSH_BAD_CAPTURE);
    CHECK(bellacush_import(2, 0, 0, 0, f, len, c.out, 100, c.report, 8) ==
          BELLACUSH_OUT_TOO_SHORT);
    CHECK(bellacush_import(2, 0, 0, 0, f, len, NULL, 0, c.report, 8) == BELLACUSH_OUT_TOO_SHORT);
    put_long(c.file, 0xA1B23C4Du, 1); /* nanoseconds */
    put_long(kept.file, 0xA1B23C4Du, 1);
    CHECK(import(&c, 2, 0, 0, 0) == BELLACUSH_BAD_CAPTURE);
    CHECK(memcmp(&c, &kept, sizeof c) == 0);
}

/* A trace of one port and five bodies of a slot each: kept, check, form, kept, short. */
static void a_damaged_trace_is_salvaged(void)
{
    static const uint8_t contents[55] = {
        1, 0, 5, 0, 0, 0, 100, 0, 1, 0, 0, 0, 55, 0, 0, 0, 7, 0, 1, 0, 0, 0, 71, 0, 0, 0, 8, 0, 1,
        0, 0, 0, 87, 255, 255, 255, 255, 0, 1, 0, 0, 0, 103, 0, 0, 0, 10, 0, 1, 0, 0, 0, 119, 223,
        104};
    static const uint8_t bodies[5][16] = {{0, 0, 0, 7, 7, 7, 7, 7, 7, 7, 7, 7, 7, 7, 97, 130},
                                          {18, 0, 0, 9, 9, 9, 9, 9, 9, 9, 9, 9, 9, 9, 208, 71},
                                          {18, 0, 0, 9, 9, 9, 9, 9, 9, 9, 9, 9, 9, 9, 208, 70},
                                          {17, 0, 0, 5, 5, 5, 5, 5, 5, 5, 5, 5, 5, 5, 129, 228},
                                          {0}};
    static const uint8_t new_contents[25] = {1, 0, 2, 0, 0, 0, 100, 0, 1, 0, 0, 0, 25,
                                             255, 255, 255, 255, 0, 1, 0, 0, 0, 41, 81, 5};
    static const uint8_t told[6] = {BELLACUSH_KEPT, BELLACUSH_CHECK, BELLACUSH_FORM,
                                    BELLACUSH_KEPT, BELLACUSH_SHORT, 9};
    uint8_t file[55 + 80], out[58], fates[6];
    uint32_t shown[2] = {7, 7};

    memcpy(file, contents, 55);
    memcpy(file + 55, bodies, 80);
    memset(out, 0xB7, sizeof out);
    memset(fates, 9, sizeof fates);
    CHECK(bellacush_salvage(file, 134, out, 58, fates, 6, shown, 2) == BELLACUSH_DONE);
    CHECK(shown[BELLACUSH_NEW_LENGTH] == 57 && shown[BELLACUSH_OLD_BODIES] == 5);
    CHECK(memcmp(out, new_contents, 25) == 0 && memcmp(out + 25, bodies[0], 16) == 0);
    CHECK(memcmp(out + 41, bodies[3], 16) == 0 && out[57] == 0xB7);
    CHECK(memcmp(fates, told, sizeof told) == 0);
}

static void a_trace_comes_back_from_its_salvage(void)
{
    struct recorded r = record();
    uint8_t out[102], fates[2] = {9, 9};
    uint32_t shown[2] = {7, 7};

    memset(out, 0xB7, sizeof out); /* as the byte behind the trace */
    CHECK(bellacush_salvage(r.file, 102, out, 102, fates, 2, shown, 2) == BELLACUSH_DONE);
    CHECK(memcmp(out, r.file, sizeof out) == 0);
    CHECK(shown[BELLACUSH_NEW_LENGTH] == 101 && shown[BELLACUSH_OLD_BODIES] == 2);
    CHECK(fates[0] == BELLACUSH_KEPT && fates[1] == BELLACUSH_KEPT);
}

static void what_has_no_contents_is_not_salvaged(void)
{
    struct recorded r = record();
    uint8_t out[101], kept[101], fates[2] = {9, 9};
    uint32_t shown[3] = {7, 7, 7};

    memset(out, 0xB7, sizeof out);
    memcpy(kept, out, sizeof kept);
    CHECK(bellacush_salvage(r.file, 24, out, 101, fates, 2, shown, 3) == BELLACUSH_BAD_LEN);
    CHECK(bellacush_salvage(r.file, 101, out, 101, fates, 2, NULL, 0) == BELLACUSH_BAD_LEN);
    CHECK(bellacush_salvage(NULL, 0, out, 101, fates, 2, shown, 2) == BELLACUSH_BAD_TRACE);
    CHECK(bellacush_salvage(r.file, 24, out, 101, fates, 1, shown, 2) == BELLACUSH_BAD_TRACE);
    CHECK(bellacush_salvage(r.file, 101, out, 101, fates, 1, shown, 2) == BELLACUSH_OUT_TOO_SHORT);
    CHECK(bellacush_salvage(r.file, 101, out, 100, fates, 2, shown, 2) == BELLACUSH_OUT_TOO_SHORT);
    CHECK(bellacush_salvage(r.file, 101, NULL, 0, NULL, 0, shown, 2) == BELLACUSH_OUT_TOO_SHORT);
    r.file[24] ^= 1;
    CHECK(bellacush_salvage(r.file, 101, out, 101, fates, 2, shown, 2) == BELLACUSH_BAD_TRACE);
    CHECK(memcmp(out, kept, sizeof out) == 0);
    CHECK(fates[0] == 9 && fates[1] == 9 && shown[0] == 7 && shown[1] == 7);
}

/* Two ports and three cells, with what a call may change and a copy as it was before. */
struct compact {
    uint8_t state[BELLACUSH_STATE_LEN];
    uint32_t records[BELLACUSH_RECORDS_LEN(3)];
    uint8_t pool[3 * BELLACUSH_CELL_LEN];
    uint8_t out[2 * BELLACUSH_CELL_LEN + 1];
    uint8_t table[BELLACUSH_TABLE_LEN];
};

static struct compact compact_shelf(void)
{
    static const uint8_t one_operator[BELLACUSH_MOST_PORTS] = {0};
    struct compact shelf;

    memset(&shelf, 0xB7, sizeof shelf);
    CHECK(bellacush_fresh(2, 5, one_operator, sizeof one_operator, shelf.state,
                          sizeof shelf.state) == BELLACUSH_DONE);
    CHECK(bellacush_new_queues(shelf.records, 6, 2, sizeof shelf.pool) == BELLACUSH_DONE);
    return shelf;
}

static uint32_t add(struct compact *shelf, uint32_t initiator, uint32_t target, int value)
{
    uint8_t cell[BELLACUSH_CELL_LEN];

    memset(cell, value, sizeof cell);
    return bellacush_add_cell(shelf->records, 6, initiator, target, cell, sizeof cell,
                              shelf->pool, sizeof shelf->pool);
}

static uint32_t forward(struct compact *shelf, uint32_t slot_number)
{
    return bellacush_queue_slot(shelf->state, sizeof shelf->state, slot_number, BELLACUSH_CENTRAL,
                                shelf->records, 6, shelf->pool, sizeof shelf->pool, shelf->out,
                                sizeof shelf->out, shelf->table, sizeof shelf->table);
}

static void queues_are_first_in_first_out(void)
{
    struct compact shelf = compact_shelf();

    CHECK(shelf.records[0] == 2 && shelf.records[1] == 3 && shelf.records[2] == 0);
    CHECK(add(&shelf, 1, 0, 11) == BELLACUSH_DONE);
    CHECK(add(&shelf, 1, 0, 12) == BELLACUSH_DONE);
    CHECK(add(&shelf, 0, 0, 13) == BELLACUSH_DONE);
    CHECK(add(&shelf, 0, 1, 14) == BELLACUSH_QUEUES_FULL);
    CHECK(bellacush_count_cells(shelf.records, 6, 1, 0) == 2 * 256u);
    CHECK(BELLACUSH_CELLS(bellacush_count_cells(shelf.records, 6, 0, 1)) == 0);
    CHECK(forward(&shelf, 5) == BELLACUSH_DONE);
    CHECK(shelf.out[0] == 13 && shelf.out[63] == 13 && shelf.out[64] == 0xB7);
    CHECK(forward(&shelf, 6) == BELLACUSH_DONE);
    CHECK(shelf.out[0] == 11 && shelf.out[64] == 0xB7);
    CHECK(add(&shelf, 0, 1, 15) == BELLACUSH_DONE);
    CHECK(forward(&shelf, 7) == BELLACUSH_DONE);
    CHECK(shelf.out[0] == 12 && shelf.out[64] == 15 && shelf.out[127] == 15);
    CHECK(shelf.out[128] == 0xB7 && shelf.records[2] == 0);
}

static void queues_that_are_refused_stay(void)
{
    struct compact shelf = compact_shelf(), kept;
    uint32_t none[6] = {0, 0, 0, 0, 0, 0};

    CHECK(add(&shelf, 1, 1, 1) == BELLACUSH_DONE);
    kept = shelf;
    CHECK(add(&shelf, 2, 0, 1) == BELLACUSH_BAD_QUEUES);
    CHECK(add(&shelf, 0, 2, 1) == BELLACUSH_BAD_QUEUES);
    CHECK(forward(&shelf, 4) == BELLACUSH_SLOT_STALE);
    CHECK(forward(&shelf, 6) == BELLACUSH_SLOT_EARLY);
    CHECK(bellacush_queue_slot(shelf.state, sizeof shelf.state, 5, 0, shelf.records, 6, shelf.pool,
                               sizeof shelf.pool, shelf.out, 127, shelf.table,
                               sizeof shelf.table) == BELLACUSH_OUT_TOO_SHORT);
    CHECK(bellacush_queue_slot(shelf.state, sizeof shelf.state, 5, 0, shelf.records, 6, shelf.pool,
                               sizeof shelf.pool - 1, shelf.out, sizeof shelf.out, shelf.table,
                               sizeof shelf.table) == BELLACUSH_BAD_QUEUES);
    CHECK(bellacush_new_queues(shelf.records, 6, 0, sizeof shelf.pool) == BELLACUSH_BAD_PORTS);
    CHECK(bellacush_new_queues(shelf.records, 5, 2, sizeof shelf.pool) == BELLACUSH_BAD_LEN);
    CHECK(bellacush_new_queues(shelf.records, 6, 2, 193) == BELLACUSH_BAD_QUEUES);
    CHECK(memcmp(&shelf, &kept, sizeof shelf) == 0);
    CHECK(bellacush_count_cells(none, 6, 0, 0) == BELLACUSH_BAD_PORTS);
    none[0] = 2;
    CHECK(bellacush_count_cells(none, 6, 0, 0) == BELLACUSH_BAD_QUEUES);
    shelf.records[4] = shelf.records[5];
    kept = shelf;
    CHECK(add(&shelf, 0, 0, 1) == BELLACUSH_BAD_QUEUES);
    CHECK(forward(&shelf, 5) == BELLACUSH_BAD_QUEUES);
    CHECK(memcmp(&shelf, &kept, sizeof shelf) == 0);
}

int main(void)
{
    constants_are_the_documents();
    measures_of_a_trace_are_the_documents();
    measures_of_a_capture_are_the_documents();
    fresh_states();
    operators_stay_apart();
    central_slot_is_served();
    distributed_slot_is_served();
    diagonal_first_slot_is_served();
    a_copy_is_refused_and_changes_nothing();
    lengths_are_tested();
    link_and_quiet_hosts_are_told();
    config_frames();
    grant3_frames();
    grant_frames();
    asked_sets_of_a_block();
    a_ledger_counts_a_request_once();
    a_ledger_that_cannot_be_is_refused();
    a_ledger_beside_a_slot_loop();
    a_trace_stands_as_the_header_says();
    a_trace_is_replayed_body_by_body();
    what_is_no_trace_is_refused();
    what_is_no_body_is_not_replayed();
    what_is_no_body_is_not_sealed();
    what_is_no_trace_is_not_written();
    a_capture_is_imported(0);
    a_capture_is_imported(1);
    what_is_no_capture_is_refused();
    a_damaged_trace_is_salvaged();
    a_trace_comes_back_from_its_salvage();
    what_has_no_contents_is_not_salvaged();
    queues_are_first_in_first_out();
    queues_that_are_refused_stay();
    printf("%u passed, %u failed\n", passed, failed);
    return failed == 0 ? 0 : 1;
}
