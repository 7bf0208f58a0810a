/*
 * Plays the compact shelf over libbellacush: hosts that hand their cells to the library's queues,
 * and slots that forward the heads. Each cell says where it belongs and which of its pair's it is,
 * so that the program sees at the targets whether any was lost, doubled or overtaken.
 */
#include <stdio.h>
#include <stdlib.h>
#include <string.h>

#include "bellacush.h"

#define MOST BELLACUSH_MOST_PORTS

static const char usage[] =
    "usage: compact [queues=960] [ports=16] [load=20] [mode=central] [slots=10000] [seed=1]\n"
    "  queues cells of the pool, 1 to 960\n"
    "  ports  hosts on the shelf, 1 to 16\n"
    "  load   chance in percent that a new cell comes for a pair in a slot, 0 to 100\n"
    "  mode   central, diagonal, or the round limit of the distributed form, 1 to 16\n"
    "  slots  slots to play, 1 to 1000000\n"
    "  seed   of the random traffic, 0 to 4294967295\n";

struct settings {
    unsigned long queues, ports, load, mode, slots, seed;
};

typedef unsigned long grid[MOST][MOST]; /* a count for each initiator and target */

struct shelf {
    uint8_t state[BELLACUSH_STATE_LEN];
    uint32_t records[BELLACUSH_RECORDS_LEN(BELLACUSH_MOST_CELLS)];
    uint8_t pool[BELLACUSH_CELL_LEN * BELLACUSH_MOST_CELLS];
    uint32_t random;
    grid came, went;
    unsigned long in, out, turned_away, most;
};

static uint32_t draw(struct shelf *shelf)
{
    shelf->random ^= shelf->random << 13;
    shelf->random ^= shelf->random >> 17;
    shelf->random ^= shelf->random << 5;
    return shelf->random;
}

static void must(int right, const char *what)
{
    if (!right) {
        fprintf(stderr, "compact: %s\n", what);
        exit(1);
    }
}

static int number(const char *text, unsigned long low, unsigned long high, unsigned long *value)
{
    char *end;

    if (*text < '0' || *text > '9')
        return 0;
    *value = strtoul(text, &end, 10);
    return *end == '\0' && low <= *value && *value <= high;
}

static int mode_of(const char *text, unsigned long *mode)
{
    if (strcmp(text, "central") == 0)
        *mode = BELLACUSH_CENTRAL;
    else if (strcmp(text, "diagonal") == 0)
        *mode = BELLACUSH_DIAGONAL;
    else
        return number(text, 1, BELLACUSH_MOST_ROUNDS, mode);
    return 1;
}

static int settle_one(struct settings *set, const char *arg)
{
    if (strncmp(arg, "queues=", 7) == 0)
        return number(arg + 7, 1, BELLACUSH_MOST_CELLS, &set->queues);
    if (strncmp(arg, "ports=", 6) == 0)
        return number(arg + 6, 1, MOST, &set->ports);
    if (strncmp(arg, "load=", 5) == 0)
        return number(arg + 5, 0, 100, &set->load);
    if (strncmp(arg, "slots=", 6) == 0)
        return number(arg + 6, 1, 1000000, &set->slots);
    if (strncmp(arg, "seed=", 5) == 0)
        return number(arg + 5, 0, 4294967295ul, &set->seed);
    return strncmp(arg, "mode=", 5) == 0 && mode_of(arg + 5, &set->mode);
}

static void start(struct shelf *shelf, const struct settings *set)
{
    static const uint8_t one_operator[MOST];

    memset(shelf, 0, sizeof *shelf);
    shelf->random = (uint32_t)set->seed * 2654435761u + 1;
    if (shelf->random == 0)
        shelf->random = 1;
    must(bellacush_fresh((uint32_t)set->ports, 0, one_operator, sizeof one_operator,
                         shelf->state, sizeof shelf->state) == BELLACUSH_DONE, "no fresh state");
    must(bellacush_new_queues(shelf->records, BELLACUSH_RECORDS_LEN(set->queues),
                              (uint32_t)set->ports, BELLACUSH_CELL_LEN * set->queues)
         == BELLACUSH_DONE, "no new queues");
}

/* A cell holds its initiator and target, and its turn among its pair's in four bytes. */
static void hand_over(struct shelf *shelf, const struct settings *set, uint32_t i, uint32_t t)
{
    uint8_t cell[BELLACUSH_CELL_LEN] = {0};
    unsigned long turn = shelf->came[i][t];
    uint32_t got;

    cell[0] = (uint8_t)i;
    cell[1] = (uint8_t)t;
    memcpy(cell + 2, &turn, sizeof turn < 8 ? sizeof turn : 8);
    got = bellacush_add_cell(shelf->records, BELLACUSH_RECORDS_LEN(set->queues), i, t, cell,
                             sizeof cell, shelf->pool, BELLACUSH_CELL_LEN * set->queues);
    if (got == BELLACUSH_QUEUES_FULL) {
        must(shelf->in - shelf->out == set->queues, "turned away beside a free cell");
        shelf->turned_away++;
        return;
    }
    must(got == BELLACUSH_DONE, "a cell was not taken");
    shelf->came[i][t]++;
    shelf->in++;
}

static void receive(struct shelf *shelf, const uint8_t *cell, uint32_t i, uint32_t t)
{
    unsigned long turn = 0;

    memcpy(&turn, cell + 2, sizeof turn < 8 ? sizeof turn : 8);
    must(cell[0] == i && cell[1] == t, "a cell came to another target");
    must(turn == shelf->went[i][t], "a cell was lost, doubled or overtaken");
    shelf->went[i][t]++;
    shelf->out++;
}

static void serve(struct shelf *shelf, const struct settings *set, uint32_t slot)
{
    uint8_t out[BELLACUSH_CELL_LEN * MOST], table[BELLACUSH_TABLE_LEN];
    uint32_t word = bellacush_queue_slot(
        shelf->state, sizeof shelf->state, slot, (uint32_t)set->mode, shelf->records,
        BELLACUSH_RECORDS_LEN(set->queues), shelf->pool, BELLACUSH_CELL_LEN * set->queues, out,
        sizeof out, table, sizeof table);
    uint32_t i, t;

    must(BELLACUSH_NUMBER(word) == BELLACUSH_DONE, "a slot was declined");
    for (i = 0; i < set->ports; i++)
        for (t = 0; t < set->ports; t++)
            if ((table[2 * i] * 256u + table[2 * i + 1]) >> t & 1u)
                receive(shelf, out + BELLACUSH_CELL_LEN * t, i, t);
}

static void play(struct shelf *shelf, const struct settings *set)
{
    unsigned long slot;
    uint32_t i, t;

    for (slot = 0; slot < set->slots; slot++) {
        for (i = 0; i < set->ports; i++)
            for (t = 0; t < set->ports; t++)
                if (draw(shelf) % 100u < set->load)
                    hand_over(shelf, set, i, t);
        if (shelf->in - shelf->out > shelf->most)
            shelf->most = shelf->in - shelf->out;
        serve(shelf, set, (uint32_t)slot);
    }
}

/* What the library counts, over all pairs. */
static unsigned long held(const struct shelf *shelf, const struct settings *set)
{
    unsigned long cells = 0;
    uint32_t i, t;

    for (i = 0; i < set->ports; i++)
        for (t = 0; t < set->ports; t++) {
            uint32_t word = bellacush_count_cells(shelf->records,
                                                  BELLACUSH_RECORDS_LEN(set->queues), i, t);
            must(BELLACUSH_NUMBER(word) == BELLACUSH_DONE, "a pair was not counted");
            cells += BELLACUSH_CELLS(word);
        }
    return cells;
}

int main(int argc, char **argv)
{
    struct settings set = {960, 16, 20, BELLACUSH_CENTRAL, 10000, 1};
    static struct shelf shelf;
    int k;

    for (k = 1; k < argc; k++)
        if (!settle_one(&set, argv[k])) {
            fputs(usage, strcmp(argv[k], "help") == 0 ? stdout : stderr);
            return strcmp(argv[k], "help") != 0;
        }
    start(&shelf, &set);
    play(&shelf, &set);
    printf("%lu slots of %lu ports, a pool of %lu cells\n", set.slots, set.ports, set.queues);
    printf("cells in       %10lu\n", shelf.in);
    printf("cells out      %10lu\n", shelf.out);
    printf("cells held     %10lu\n", held(&shelf, &set));
    printf("most at a time %10lu\n", shelf.most);
    printf("turned away    %10lu\n", shelf.turned_away);
    must(shelf.in == shelf.out + held(&shelf, &set), "cells in are not cells out and held");
    return 0;
}
