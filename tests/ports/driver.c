/* Runs the library's calls on one machine and writes all that they give to a stream, which is to be the same on every machine: the
 * known telegrams of document 01, each answer number, parameter error and rule of a table, the edges of pages, limits, lengths,
 * tables, buffers, lines, figures, lists and views, and random calls of each function of uss.h. It needs no C library. calls.h, which
 * follows from uss.h, lends, calls and writes.
 *
 * The stream is made of records: what it is (0 a check, else the call's place in uss.h), its length in four bytes, low first, and
 * its contents: of a check 0 or 1 and its name; of a call the fields of its answer, then for each slice that cannot be written
 * whether it was kept, and for each other one its length, its bytes and whether nothing around it was touched. */
#include "uss.h"

#include "machine.h"

#define SEEDS 12
#define DRAWS_PER_SEED 10000
#define MOST_RECORDS 514
#define MOST_VALUES 4500

static unsigned calls;
static int failed;

#include "stream.h"

/* ---- what random calls are given */

struct bytes {
    uint8_t *at;
    size_t count;
};

struct numbers {
    uint32_t *at;
    size_t count;
};

struct items {
    uint16_t *at;
    size_t count;
};

static struct {
    uss_setup setup;
    uss_words control, status, process;
    uint8_t task, index;
    uint16_t parameter, selector, mask1, mask2;
    uint32_t value, reference;
    uss_receiver receiver;
    uss_view view;
    struct bytes table, received, net, bytes, reply, out, page;
    struct numbers values;
    struct items items, places;
    uint64_t any[ARENAS][40];
} drawn;

static uint32_t state = 1;

static uint32_t draw_word(void)
{
    state ^= state << 13;
    state ^= state >> 17;
    state ^= state << 5;
    return state;
}

/* Below a number that is at most 65536. Where an expression draws twice, the order is the kit's clang's, by which all drivers are
 * compiled. */
static uint32_t draw(uint32_t below)
{
    return (draw_word() >> 16) * below >> 16;
}

/* An end of a range, a number beside one, or any. */
static uint32_t draw_bits(void)
{
    static const uint32_t ends[] = {0, 1, 2, 0x80, 0x100, 0x8000, 0x10000, 0x80000000u};
    return draw(3) == 0 ? draw_word() : draw(2) ? draw(300) : ends[draw(8)] - draw(2);
}

__attribute__((unused)) static size_t draw_any(unsigned which, size_t width)
{
    size_t i;
    for (i = 0; i < 40; i++)
        drawn.any[which][i] = (uint64_t)draw_word() << 32 | draw_bits();
    return draw((uint32_t)(sizeof drawn.any[which] / width) + 1);
}

static void draw_call(int with_table, int with_task, int with_receiver);

#include "calls.h"

#include "telegrams.h"

#include "drawing.h"

#include "known.h"

#include "edges.h"

/* ---- all */

int driver(void)
{
    uint32_t seed, i;
    known_telegrams();
    known_numbers();
    known_broadcasts();
    known_values();
    known_indexes();
    known_rules();
    known_lines();
    known_figures();
    known_lists();
    known_views();
    answer_numbers();
    parameter_errors();
    edges_of_setups();
    edges_of_frames();
    edges_of_buffers();
    edges_of_tasks();
    edges_of_pages();
    edges_of_limits();
    edges_of_tables();
    edges_of_broadcasts();
    edges_of_requests();
    edges_of_replies();
    edges_of_states();
    edges_of_lines();
    edges_of_figures();
    edges_of_lists();
    edges_of_views();
    for (seed = 1; seed <= SEEDS; seed++) {
        state = seed * 0x9E3779B9u;
        for (i = 0; i < DRAWS_PER_SEED; i++)
            turns[draw(sizeof turns / sizeof turns[0])]();
    }
#ifdef STACK
    for (i = 0; i < sizeof deepest / sizeof deepest[0]; i++)
        put32(deepest[i]);
#endif
    flush();
    return failed;
}
