/* Every single bit of all three tables of some small maps, turned one at a time: a lookup, a delete of a known handle and
 * an insert answer and leave what the plain search says; so does a window, asked wherever the map is still sound and
 * after every fourth bit. Most flips damage the map; those of a label, of a generation or of an end that still fits do
 * not, and then the calls must do what the flipped map says. With FIRST=1 it ends at the first map that fails. */
#include "harness.h"

#include <stdio.h>

enum { SLOTS = 3, SPARE = 3 };

/* A small map: its lines, the generations that its slots had before, and a slot emptied again, if any. */
struct small {
    const char *name;
    size_t count;
    uint16_t line[SLOTS][6];
    uint16_t generation[SLOTS];
    int emptied;
};

static const struct small maps[] = {
    { "a fork, and a slot emptied", 3,
      { { 2000, 2000, 14000, 5000, 11, 12 }, { 2000, 2000, 9000, 15000, 13, 14 },
        { 12000, 12000, 15000, 15000, 15, 16 } },
      { 0, 0, 6 }, 2 },
    { "a triangle", 3,
      { { 100, 100, 16000, 300, 21, 22 }, { 16000, 300, 8000, 16000, 21, 23 },
        { 8000, 16000, 100, 100, 21, 24 } },
      { 0, 65534, 7 }, -1 },
    { "an upright line, a level one, a slot retired", 3,
      { { 5000, 0, 5000, 16383, 0, 65535 }, { 0, 8192, 1, 8192, 31, 32 },
        { 7000, 7000, 16383, 7000, 33, 34 } },
      { 65533, 65534, 65534 }, 1 },
    { "the map's own diagonal", 1, { { 0, 0, 16383, 16383, 41, 42 } }, { 0, 0, 0 }, -1 },
    { "two shortest lines, deep in the tree", 2,
      { { 0, 0, 0, 1, 51, 52 }, { 8191, 8192, 8192, 8191, 53, 54 } }, { 0, 0, 0 }, -1 },
};

static const struct small *small;
static uint32_t handle;
static unsigned long turned, still_sound;

static void make_large(void)
{
    size_t i;

    begin(SLOTS, PLAIN_ROOM, PLAIN_ROOM);
    for (i = 0; i < SLOTS; i++)
        poke(LINES, 8 * i + 1, small->generation[i]);
    for (i = 0; i < small->count; i++) {
        const uint16_t *l = small->line[i];
        uint64_t result = insert(l[0], l[1], l[2], l[3], l[4], l[5]);

        if (result >> 32 != 0)
            fail("the small map could not be made");
        if (i == 0)
            handle = (uint32_t)result;
        if ((int)i == small->emptied)
            delete_handle((uint32_t)result);
    }
}

/* The same map in tables that hold its tree and little more: the emptied line may have needed more on its way. */
static void make_small(void)
{
    uint16_t lines[8 * SLOTS];
    size_t nodes, listings, i;

    make_large();
    used(&nodes, &listings);
    for (i = 0; i < 8 * SLOTS; i++)
        lines[i] = peek(LINES, i);
    begin(SLOTS, nodes + SPARE, listings + SPARE);
    for (i = 0; i < 8 * SLOTS; i++)
        poke(LINES, i, lines[i]);
    if (!rebuild() || !is_sound())
        fail("the small map is not sound");
}

/* Points above, on and below the first line, one a step from its middle, and one off the grid. */
static void ask_points(void)
{
    const uint16_t *l = small->line[0];
    uint16_t points[10] = { 0, 0, 0, 0, 0, 0, 0, 0, 16384, 0 };

    points[0] = (uint16_t)((l[0] + l[2]) / 2);
    points[1] = 16383;
    points[2] = l[0];
    points[3] = l[1];
    points[4] = (uint16_t)((l[0] + l[2]) / 2 + 1);
    points[5] = (uint16_t)((l[1] + l[3]) / 2 + 1);
    points[6] = (uint16_t)((l[0] + l[2]) / 2);
    locate(points, 5);
}

/* From the first line's middle to the map's north-east corner: an end moved by a flip may leave it, or come into it. */
static void ask_window(void)
{
    const uint16_t *l = small->line[0];

    window((uint16_t)((l[0] + l[2]) / 2), (uint16_t)((l[1] + l[3]) / 2), 16383, 16383, SLOTS);
}

static void ask_flipped(void)
{
    ask_points();
    if (is_sound() || turned % 4 == 0)
        ask_window();
    turned++;
    still_sound += (unsigned long)is_sound();
    if (delete_handle(handle) == 0) {
        ask_points();
        put_back();
    }
}

static void flip(int table, size_t at, unsigned bit)
{
    uint16_t flipped = (uint16_t)(peek(table, at) ^ (1u << bit));

    poke(table, at, flipped);
    ask_flipped();
    poke(table, at, flipped);
    insert(16383, 16382, 16382, 16383, 1, 2);
    put_back();
}

static void flip_all(void)
{
    size_t at;
    unsigned bit;
    int table;

    make_small();
    keep();
    for (table = LINES; table < TABLES; table++)
        for (at = 0; at < said(table); at++)
            for (bit = 0; bit < 16; bit++)
                flip(table, at, bit);
}

int main(void)
{
    size_t i;
    int passed = 0, failed = 0;

    for (i = 0; i < sizeof maps / sizeof *maps && !(failed > 0 && setting("FIRST", 0) != 0); i++) {
        small = &maps[i];
        if (run_part(small->name, 0, flip_all))
            passed++;
        else
            failed++;
    }
    printf("flips: %lu bits turned, %lu of them left a sound map, %llu calls compared\n", turned, still_sound,
           (unsigned long long)met.calls);
    printf("flips: %d passed, %d failed\n", passed, failed);
    return failed != 0;
}
