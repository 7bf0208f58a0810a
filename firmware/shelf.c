/*
 * Plays a shelf over libbellacush: hosts with random traffic, whose every block of frames comes
 * twice, the second time by the standby link. First as built, where the copy is refused; then the
 * faulty way, where the card takes each copy for a new slot. Prints what both did, and what the
 * operators' charts make of it: the old one drew slots asked, the ledger counts a request once.
 * The slots as built can be kept in a trace, from which `replay` makes their tables again. Two
 * operators can share the shelf.
 */
#include <stdio.h>
#include <stdlib.h>
#include <string.h>

#include "bellacush.h"

#define MOST BELLACUSH_MOST_PORTS
#define POPULAR_TARGET 0u
#define SCREEN 80 /* columns */
#define NAME 12   /* the column of names left of a grid */
#define MOST_TRACED ((unsigned long)BELLACUSH_MOST_BODIES * BELLACUSH_MOST_BODY_SLOTS)

static const char usage[] =
    "usage: shelf [ports=4] [load=90] [mode=central] [slots=160] [seed=1]\n"
    "             [second=0] [trace=FILE] [tables]\n"
    "  ports  hosts on the shelf, 1 to 16\n"
    "  load   chance in percent that a new cell comes for a pair in a slot, 0 to 100\n"
    "  mode   central, diagonal, or the round limit of the distributed form, 1 to 16\n"
    "  slots  slots to play, 1 to 1000000; ten turns for each pair if not said\n"
    "  seed   of the random traffic, 0 to 4294967295\n"
    "  second how many ports, the last ones, are a second operator's, 0 to 15\n"
    "  trace  file to keep the slots in, as built; it holds 368640 of them\n"
    "  tables print just the table of each slot, as built: its number, and who holds what\n";

struct settings {
    unsigned long ports, load, mode, slots, seed, second;
    const char *trace; /* the name of its file, or NULL */
    int tables;
};

typedef unsigned long grid[MOST][MOST]; /* a count for each initiator and target */

struct shelf {
    const struct settings *set;
    uint8_t state[BELLACUSH_STATE_LEN];
    uint32_t random;
    uint32_t ledger[BELLACUSH_LEDGER_LEN];
    grid waiting, turns, sent;
    unsigned long served, refused;
};

/* Of some pairs: the ledger's figures and the cells sent. */
struct sums {
    unsigned long figures[BELLACUSH_FIGURES_LEN], sent;
};

/* The slots played so far, on their way into a trace. */
struct recorder {
    uint8_t start[BELLACUSH_STATE_LEN]; /* before the first slot that is in no body yet */
    uint8_t blocks[BELLACUSH_BLOCK_LEN(MOST) * BELLACUSH_MOST_BODY_SLOTS];
    uint32_t slots; /* that are in no body yet */
    uint8_t *bodies;
    size_t len, count; /* of the bodies */
    uint32_t firsts[BELLACUSH_MOST_BODIES];
    uint16_t counts[BELLACUSH_MOST_BODIES];
};

/* One block of frames with what the card needs to serve it. */
struct slot {
    uint8_t block[BELLACUSH_BLOCK_LEN(MOST)];
    uint8_t out[BELLACUSH_OUT_LEN(MOST)];
    uint8_t table[BELLACUSH_TABLE_LEN];
};

/* Arguments */

static void refuse(const char *argument, const char *why)
{
    fprintf(stderr, "shelf: %s: %s\n%s", argument, why, usage);
    exit(2);
}

/* The whole number after '=', which is to be from low to high. */
static unsigned long number_of(const char *argument, unsigned long low, unsigned long high)
{
    const char *digits = strchr(argument, '=') + 1;
    char range[64];
    unsigned long value = 0;
    size_t k;

    sprintf(range, "a whole number from %lu to %lu is wanted", low, high);
    if (digits[0] == '\0' || strlen(digits) > 10 || strspn(digits, "0123456789") != strlen(digits))
        refuse(argument, range);
    for (k = 0; digits[k] != '\0'; k++)
        value = value * 10 + (unsigned long)(digits[k] - '0');
    if (value < low || value > high)
        refuse(argument, range);
    return value;
}

static int names(const char *argument, const char *name)
{
    size_t len = strlen(name);
    return strncmp(argument, name, len) == 0 && argument[len] == '=';
}

static void take(struct settings *set, const char *argument)
{
    if (names(argument, "ports"))
        set->ports = number_of(argument, 1, MOST);
    else if (names(argument, "load"))
        set->load = number_of(argument, 0, 100);
    else if (strcmp(argument, "mode=central") == 0)
        set->mode = BELLACUSH_CENTRAL;
    else if (strcmp(argument, "mode=diagonal") == 0)
        set->mode = BELLACUSH_DIAGONAL;
    else if (names(argument, "mode"))
        set->mode = number_of(argument, 1, BELLACUSH_MOST_ROUNDS);
    else if (names(argument, "slots"))
        set->slots = number_of(argument, 1, 1000000);
    else if (names(argument, "seed"))
        set->seed = number_of(argument, 0, 4294967295ul);
    else if (names(argument, "second"))
        set->second = number_of(argument, 0, MOST - 1);
    else if (names(argument, "trace") && argument[strlen("trace=")] != '\0')
        set->trace = argument + strlen("trace=");
    else if (strcmp(argument, "tables") == 0)
        set->tables = 1;
    else
        refuse(argument, "not an argument of this program");
}

/* Traffic */

/* A small generator (xorshift), so that a seed gives the same traffic everywhere. */
static uint32_t next_random(struct shelf *shelf)
{
    shelf->random ^= shelf->random << 13;
    shelf->random ^= shelf->random >> 17;
    shelf->random ^= shelf->random << 5;
    return shelf->random;
}

/* The first port of the second operator; where there is none, it is past the last port. */
static unsigned second_from(const struct settings *set)
{
    return (unsigned)(set->ports - set->second);
}

static unsigned operator_of(const struct settings *set, unsigned port)
{
    return port >= second_from(set);
}

/* The host that sends to every target of its operator, as a backup would. */
static unsigned busy_host(const struct settings *set)
{
    return second_from(set) > 1 ? 1u : 0u;
}

/* The target that every host of an operator sends to. */
static unsigned popular(const struct settings *set, unsigned operator_number)
{
    return operator_number == 0 ? POPULAR_TARGET : second_from(set);
}

static int used(const struct settings *set, unsigned i, unsigned t)
{
    unsigned own = operator_of(set, i);
    return operator_of(set, t) == own && (i == busy_host(set) || t == popular(set, own));
}

/* New cells: from the busy host to every target, and from every host to the popular one. */
static void new_cells(struct shelf *shelf)
{
    unsigned i, t;

    for (i = 0; i < shelf->set->ports; i++)
        for (t = 0; t < shelf->set->ports; t++)
            if (used(shelf->set, i, t) && next_random(shelf) % 100u < shelf->set->load)
                shelf->waiting[i][t]++;
}

/* The card */

static void expect(const char *call, uint32_t answer, uint32_t wanted)
{
    if (answer == wanted)
        return;
    fprintf(stderr, "shelf: %s answered %lu in place of %lu\n", call, (unsigned long)answer,
            (unsigned long)wanted);
    exit(1);
}

/* Each host frames the targets that it has cells for; it plans nothing and disables nobody. */
static void send_frames(const struct shelf *shelf, struct slot *slot)
{
    unsigned i, t;

    for (i = 0; i < shelf->set->ports; i++) {
        uint16_t req = 0;
        for (t = 0; t < shelf->set->ports; t++)
            if (shelf->waiting[i][t] > 0)
                req = (uint16_t)(req | 1u << t);
        expect("bellacush_write_config",
               bellacush_write_config(req, 0, 0xFFFF, 0xFFFF, slot->block + BELLACUSH_BLOCK_LEN(i),
                                      BELLACUSH_CONFIG_LEN),
               BELLACUSH_DONE);
    }
}

static uint32_t due(const uint8_t *s)
{
    return (uint32_t)s[3] << 24 | (uint32_t)s[4] << 16 | (uint32_t)s[5] << 8 | s[6];
}

static uint32_t call_slot(struct shelf *shelf, struct slot *slot, uint32_t number)
{
    size_t n = shelf->set->ports;
    return bellacush_slot(shelf->state, sizeof shelf->state, number, (uint32_t)shelf->set->mode,
                          slot->block, BELLACUSH_BLOCK_LEN(n), 0, slot->out, BELLACUSH_OUT_LEN(n),
                          slot->table, sizeof slot->table);
}

/* A slot was served: the ledger counts it, and the collectors with it. */
static void count_slot(struct shelf *shelf, const struct slot *slot)
{
    uint32_t n = (uint32_t)shelf->set->ports;
    uint8_t asked[BELLACUSH_TABLE_LEN];

    shelf->served++;
    expect("bellacush_asked",
           bellacush_asked(shelf->state, sizeof shelf->state, slot->block, BELLACUSH_BLOCK_LEN(n),
                           asked, sizeof asked),
           BELLACUSH_DONE);
    expect("bellacush_feed",
           bellacush_feed(shelf->ledger, BELLACUSH_LEDGER_LEN, n, asked, sizeof asked, slot->table,
                          sizeof slot->table),
           BELLACUSH_DONE);
}

/* Each host reads its grant and sends one cell to each target that it holds. */
static void send_cells(struct shelf *shelf, const struct slot *slot)
{
    unsigned i, t;

    for (i = 0; i < shelf->set->ports; i++) {
        uint8_t part[BELLACUSH_GRANT3_PART_LEN];
        unsigned held;

        expect("bellacush_read_grant3",
               bellacush_read_grant3(slot->out + BELLACUSH_OUT_LEN(i), BELLACUSH_GRANT3_LEN, part,
                                     sizeof part),
               BELLACUSH_DONE);
        held = part[2] * 256u + part[3];
        for (t = 0; t < shelf->set->ports; t++)
            if (held >> t & 1u) {
                shelf->waiting[i][t]--;
                shelf->sent[i][t]++;
            }
    }
}

/* One slot of time: the block is served and its cells are sent; then its copy comes. */
static void play_slot(struct shelf *shelf, struct slot *slot, int copies_are_new)
{
    uint32_t number = due(shelf->state);

    new_cells(shelf);
    send_frames(shelf, slot);
    shelf->turns[shelf->state[1]][shelf->state[2]]++;
    expect("bellacush_slot", BELLACUSH_NUMBER(call_slot(shelf, slot, number)), BELLACUSH_DONE);
    count_slot(shelf, slot);
    send_cells(shelf, slot);
    if (copies_are_new) {
        /* the hosts are sending already: what this answers can no longer be used */
        struct slot copy = *slot;
        expect("bellacush_slot", BELLACUSH_NUMBER(call_slot(shelf, &copy, number + 1)),
               BELLACUSH_DONE);
        count_slot(shelf, &copy);
    } else {
        expect("bellacush_slot", call_slot(shelf, slot, number), BELLACUSH_SLOT_STALE);
        shelf->refused++;
    }
}

/* Recording */

static void give_up(const char *what, const char *name)
{
    fprintf(stderr, "shelf: %s %s\n", what, name);
    exit(1);
}

static uint8_t *room(size_t len)
{
    uint8_t *bytes = (uint8_t *)malloc(len);

    if (bytes == NULL)
        give_up("no memory for", "the trace");
    return bytes;
}

static void start_trace(struct recorder *recorder, const struct settings *set)
{
    size_t bodies = set->slots / BELLACUSH_MOST_BODY_SLOTS + 1;

    memset(recorder, 0, sizeof *recorder);
    recorder->bodies = room(BELLACUSH_BODY_LEN(set->ports, set->slots) +
                            BELLACUSH_BODY_LEN(set->ports, 0) * bodies);
}

/* The slots that are in no body yet become one. */
static void seal_body(struct recorder *recorder, const struct settings *set)
{
    size_t n = set->ports, len = BELLACUSH_BODY_LEN(n, recorder->slots);

    expect("bellacush_seal_body",
           bellacush_seal_body((uint32_t)n, recorder->slots, (uint32_t)set->mode,
                               recorder->start[1], recorder->start[2], recorder->blocks,
                               BELLACUSH_BLOCK_LEN(n) * recorder->slots,
                               recorder->bodies + recorder->len, len),
           BELLACUSH_DONE);
    recorder->firsts[recorder->count] = due(recorder->start);
    recorder->counts[recorder->count] = (uint16_t)recorder->slots;
    recorder->count++;
    recorder->len += len;
    recorder->slots = 0;
}

/* A slot was served from this state. */
static void record(struct recorder *recorder, const struct settings *set, const uint8_t *state,
                   const struct slot *slot)
{
    size_t len = BELLACUSH_BLOCK_LEN(set->ports);

    if (recorder->slots == BELLACUSH_MOST_BODY_SLOTS)
        seal_body(recorder, set);
    if (recorder->slots == 0)
        memcpy(recorder->start, state, sizeof recorder->start);
    memcpy(recorder->blocks + len * recorder->slots, slot->block, len);
    recorder->slots++;
}

static void write_file(const char *name, const uint8_t *bytes, size_t len)
{
    FILE *file = fopen(name, "wb");

    if (file == NULL || fwrite(bytes, 1, len, file) != len || fclose(file) != 0)
        give_up("cannot write", name);
}

static void end_trace(struct recorder *recorder, const struct settings *set)
{
    size_t len;
    uint8_t *trace;

    seal_body(recorder, set);
    len = BELLACUSH_CONTENTS_LEN(recorder->count) + recorder->len;
    trace = room(len);
    expect("bellacush_write_trace",
           bellacush_write_trace((uint32_t)set->ports, recorder->firsts, recorder->count,
                                 recorder->counts, recorder->count, recorder->bodies,
                                 recorder->len, trace, len),
           BELLACUSH_DONE);
    write_file(set->trace, trace, len);
    free(trace);
    free(recorder->bodies);
}

/* Printing */

/* Each initiator with the targets that it holds. */
static void print_table(unsigned long ports, const uint8_t *table)
{
    unsigned i, t;

    for (i = 0; i < ports; i++) {
        unsigned held = table[2 * i] * 256u + table[2 * i + 1];
        char before = ':';
        printf(" %u", i);
        for (t = 0; t < MOST; t++)
            if (held >> t & 1u) {
                printf("%c%u", before, t);
                before = ',';
            }
        if (held == 0)
            printf(":-");
    }
    printf("\n");
}

/* How wide a column is: the names of targets and the greatest count fit into it. */
static int column_width(const struct shelf *shelf)
{
    unsigned long most = 999;
    char digits[32];
    unsigned i, t;

    for (i = 0; i < shelf->set->ports; i++)
        for (t = 0; t < shelf->set->ports; t++) {
            most = shelf->turns[i][t] > most ? shelf->turns[i][t] : most;
            most = shelf->sent[i][t] > most ? shelf->sent[i][t] : most;
        }
    return sprintf(digits, " %lu", most);
}

static void print_heading(const char *name, unsigned long ports, int width)
{
    char target[8];
    unsigned t;

    printf("%-*s", NAME, name);
    for (t = 0; t < ports; t++) {
        sprintf(target, "t%u", t);
        printf("%*s", width, target);
    }
}

static void print_row(unsigned host, const unsigned long *row, unsigned long ports, int width)
{
    unsigned t;

    printf("  host %-*u", NAME - 7, host);
    for (t = 0; t < ports; t++)
        printf("%*lu", width, row[t]);
}

static void print_grid(const char *name, const unsigned long (*rows)[MOST], unsigned long ports,
                       int width)
{
    unsigned i;

    print_heading(name, ports, width);
    for (i = 0; i < ports; i++) {
        printf("\n");
        print_row(i, rows[i], ports, width);
    }
    printf("\n");
}

static void print_side_by_side(const struct shelf *shelf, int width)
{
    unsigned long n = shelf->set->ports;
    unsigned i;

    print_heading("  favoured", n, width);
    print_heading("  cells sent", n, width);
    for (i = 0; i < n; i++) {
        printf("\n");
        print_row(i, shelf->turns[i], n, width);
        print_row(i, shelf->sent[i], n, width);
    }
    printf("\n");
}

/* How often each pair was the favoured one, and how many cells it sent. */
static void print_grids(const struct shelf *shelf)
{
    unsigned long n = shelf->set->ports;
    int width = column_width(shelf);

    if (2 * (NAME + n * (unsigned)width) <= SCREEN) {
        print_side_by_side(shelf, width);
    } else {
        print_grid("  favoured", shelf->turns, n, width);
        print_grid("  cells sent", shelf->sent, n, width);
    }
}

/* What the ledger has of a pair and the cells that it sent, added to the sums so far. */
static void add_figures(const struct shelf *shelf, unsigned i, unsigned t, struct sums *sums)
{
    uint32_t figures[BELLACUSH_FIGURES_LEN];
    unsigned k;

    expect("bellacush_figures",
           bellacush_figures(shelf->ledger, BELLACUSH_LEDGER_LEN, i, t, figures,
                             BELLACUSH_FIGURES_LEN),
           BELLACUSH_DONE);
    for (k = 0; k < BELLACUSH_FIGURES_LEN; k++)
        sums->figures[k] += figures[k];
    sums->sent += shelf->sent[i][t];
}

static void print_sums(const struct sums *sums)
{
    const unsigned long *f = sums->figures;

    printf("%12lu%15lu%12lu%12lu%7lu%8lu\n", f[BELLACUSH_ASKED], f[BELLACUSH_FRESH],
           f[BELLACUSH_CONNECTED], f[BELLACUSH_WITHDRAWN], f[BELLACUSH_OPEN], sums->sent);
}

/* What the old chart drew beside what the ledger draws, and the cells that were sent. */
static void print_charts(const struct shelf *shelf)
{
    unsigned busy = busy_host(shelf->set);
    struct sums all, crowded;
    unsigned i, t;

    memset(&all, 0, sizeof all);
    memset(&crowded, 0, sizeof crowded);
    for (i = 0; i < shelf->set->ports; i++)
        for (t = 0; t < shelf->set->ports; t++)
            add_figures(shelf, i, t, &all);
    add_figures(shelf, busy, POPULAR_TARGET, &crowded);
    printf("  charts        old: asked  ledger: fresh = connected + withdrawn + open    sent\n");
    printf("  all pairs   ");
    print_sums(&all);
    printf("  host %u to t%u", busy, POPULAR_TARGET);
    print_sums(&crowded);
}

static unsigned long pairs_without(const struct shelf *shelf, const unsigned long (*counts)[MOST])
{
    unsigned long without = 0;
    unsigned i, t;

    for (i = 0; i < shelf->set->ports; i++)
        for (t = 0; t < shelf->set->ports; t++)
            without += counts[i][t] == 0;
    return without;
}

static void print_moral(const struct shelf *built, const struct shelf *faulty)
{
    unsigned long pairs = built->set->ports * built->set->ports;

    printf("Pairs that were never favoured: %lu of %lu as built, %lu of %lu the faulty way.\n",
           pairs_without(built, built->turns), pairs, pairs_without(faulty, faulty->turns), pairs);
}

/* Playing */

static void start(struct shelf *shelf, const struct settings *set)
{
    uint8_t operators[MOST];
    unsigned p;

    for (p = 0; p < MOST; p++)
        operators[p] = (uint8_t)operator_of(set, p);
    memset(shelf, 0, sizeof *shelf);
    shelf->set = set;
    expect("bellacush_fresh",
           bellacush_fresh((uint32_t)set->ports, 0, operators, sizeof operators, shelf->state,
                           sizeof shelf->state),
           BELLACUSH_DONE);
    shelf->random = (uint32_t)set->seed * 2654435769u | 1u; /* the generator would stay at 0 */
}

/* As built; the first table is printed, or all of them, each behind its slot's number. */
static void play_built(struct shelf *shelf, const struct settings *set)
{
    static struct recorder recorder;
    struct slot slot;
    unsigned long k;

    memset(&slot, 0, sizeof slot);
    start(shelf, set);
    if (set->trace != NULL)
        start_trace(&recorder, set);
    for (k = 0; k < set->slots; k++) {
        uint8_t before[BELLACUSH_STATE_LEN];
        memcpy(before, shelf->state, sizeof before);
        play_slot(shelf, &slot, 0);
        if (set->tables)
            printf("%lu", (unsigned long)due(before));
        if (set->tables || k == 0)
            print_table(set->ports, slot.table);
        if (set->trace != NULL)
            record(&recorder, set, before, &slot);
    }
    if (set->trace != NULL)
        end_trace(&recorder, set);
}

static void play_faulty(struct shelf *shelf, const struct settings *set)
{
    struct slot slot;
    unsigned long k;

    memset(&slot, 0, sizeof slot);
    start(shelf, set);
    for (k = 0; k < set->slots; k++)
        play_slot(shelf, &slot, 1);
}

static void print_shelf(const struct settings *set)
{
    printf("A shelf of %lu ports, load %lu %%, ", set->ports, set->load);
    if (set->mode == BELLACUSH_CENTRAL)
        printf("central");
    else if (set->mode == BELLACUSH_DIAGONAL)
        printf("diagonal first");
    else
        printf("distributed with %lu rounds at most", set->mode);
    printf(", %lu slots, seed %lu.\n", set->slots, set->seed);
    if (set->second > 0)
        printf("The last %lu are a second operator's, whose hosts send to target %u.\n",
               set->second, popular(set, 1));
    printf("Host %u sends to all targets, the others to target %u; every block comes twice.\nSlot 0:",
           busy_host(set), POPULAR_TARGET);
}

/* The arguments; false if they ask for help. */
static int settle(struct settings *set, int argc, char **argv)
{
    int k;

    for (k = 1; k < argc; k++) {
        if (strcmp(argv[k], "help") == 0 || strcmp(argv[k], "--help") == 0)
            return 0;
        take(set, argv[k]);
    }
    if (set->second >= set->ports)
        refuse("second", "the first operator is left no port");
    if (set->trace != NULL && set->second > 0)
        refuse(set->trace, "a trace stands for a shelf of one operator");
    if (set->slots == 0)
        set->slots = 10 * set->ports * set->ports;
    if (set->trace != NULL && set->slots > MOST_TRACED)
        refuse(set->trace, "a trace does not hold so many slots");
    return 1;
}

/* The whole story: as built, and the faulty way. */
static void tell(const struct settings *set)
{
    static struct shelf built, faulty;

    print_shelf(set);
    play_built(&built, set);
    printf("\nAs built: %lu slots served, %lu copies refused with number %d.\n", built.served,
           built.refused, BELLACUSH_SLOT_STALE);
    print_grids(&built);
    print_charts(&built);
    play_faulty(&faulty, set);
    printf("\nThe faulty way: %lu slots served, half of them copies, too late to be of use.\n",
           faulty.served);
    print_grids(&faulty);
    print_charts(&faulty);
    print_moral(&built, &faulty);
}

int main(int argc, char **argv)
{
    struct settings set = {4, 90, BELLACUSH_CENTRAL, 0, 1, 0, NULL, 0};
    static struct shelf shelf;

    if (!settle(&set, argc, argv))
        fputs(usage, stdout);
    else if (set.tables)
        play_built(&shelf, &set);
    else
        tell(&set);
    return 0;
}
