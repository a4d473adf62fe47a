/* Document 01's numbers, P1 to P11 (P10's third as document 02 has it) and the case that is only run, pairs of lines of each kind
 * of conflict, points with lines above them and below, windows, and the corners of the grid, over the C boundary. Each is written
 * out here by hand and asked twice: of the library, and of the plain search that the other tests rest on. With FIRST=1 it ends at
 * the first that fails. */
#include "library.h"
#include "plain.h"

#include <stdio.h>
#include <stdlib.h>
#include <string.h>

/* Both sides, one behind the other's signatures */

struct calls {
    const char *name;
    uint64_t (*start)(uint16_t *, size_t, uint16_t *, size_t, uint16_t *, size_t);
    uint64_t (*insert)(uint16_t *, size_t, uint16_t *, size_t, uint16_t *, size_t, uint16_t, uint16_t,
                       uint16_t, uint16_t, uint16_t, uint16_t);
    uint64_t (*remove)(uint16_t *, size_t, uint16_t *, size_t, uint16_t *, size_t, uint32_t);
    uint64_t (*locate)(const uint16_t *, size_t, const uint16_t *, size_t, const uint16_t *, size_t,
                       const uint16_t *, size_t, uint32_t *, size_t);
    uint64_t (*window)(const uint16_t *, size_t, const uint16_t *, size_t, const uint16_t *, size_t, uint16_t,
                       uint16_t, uint16_t, uint16_t, uint16_t *, size_t);
};

static struct plain oracle;

static uint64_t start_plainly(uint16_t *l, size_t ln, uint16_t *n, size_t nn, uint16_t *s, size_t sn)
{
    plain_take(&oracle, l, ln, n, nn, s, sn);
    return plain_start(&oracle);
}

static uint64_t insert_plainly(uint16_t *l, size_t ln, uint16_t *n, size_t nn, uint16_t *s, size_t sn,
                               uint16_t x1, uint16_t y1, uint16_t x2, uint16_t y2, uint16_t left,
                               uint16_t right)
{
    plain_take(&oracle, l, ln, n, nn, s, sn);
    return plain_insert(&oracle, x1, y1, x2, y2, left, right);
}

static uint64_t delete_plainly(uint16_t *l, size_t ln, uint16_t *n, size_t nn, uint16_t *s, size_t sn,
                               uint32_t handle)
{
    plain_take(&oracle, l, ln, n, nn, s, sn);
    return plain_delete(&oracle, handle);
}

/* The plain search writes no table when it only reads; it keeps them as tables that it may write. */
static void take_copies(const uint16_t *l, size_t ln, const uint16_t *n, size_t nn, const uint16_t *s, size_t sn)
{
    static uint16_t lines[8 * PLAIN_SLOTS], nodes[PLAIN_ROOM], listings[PLAIN_ROOM];

    memcpy(lines, l, ln * sizeof *l);
    memcpy(nodes, n, nn * sizeof *n);
    memcpy(listings, s, sn * sizeof *s);
    plain_take(&oracle, lines, ln, nodes, nn, listings, sn);
}

static uint64_t locate_plainly(const uint16_t *l, size_t ln, const uint16_t *n, size_t nn, const uint16_t *s,
                               size_t sn, const uint16_t *points, size_t points_len, uint32_t *answers,
                               size_t answers_len)
{
    take_copies(l, ln, n, nn, s, sn);
    return plain_locate(&oracle, points, points_len, answers, answers_len);
}

static uint64_t window_plainly(const uint16_t *l, size_t ln, const uint16_t *n, size_t nn, const uint16_t *s,
                               size_t sn, uint16_t west, uint16_t south, uint16_t east, uint16_t north,
                               uint16_t *to, size_t to_len)
{
    take_copies(l, ln, n, nn, s, sn);
    return plain_window(&oracle, west, south, east, north, to, to_len);
}

static const struct calls sides[2] = {
    { "library", boundary_map_start, boundary_map_insert, boundary_map_delete, boundary_map_locate,
      boundary_map_window },
    { "plain search", start_plainly, insert_plainly, delete_plainly, locate_plainly, window_plainly },
};

/* One map at a time, and shorthands for its calls */

static const struct calls *side;
static const char *doing;
static int wrong;

static uint16_t lines[8 * PLAIN_SLOTS], nodes[PLAIN_ROOM], listings[PLAIN_ROOM];
static size_t slots, node_room, listing_room;

static void expect(int holds, const char *what)
{
    if (holds)
        return;
    printf("%s, %s: not so: %s\n", side->name, doing, what);
    wrong = 1;
}

#define EXPECT(condition) expect((condition), #condition)

static uint64_t refused(uint64_t number, uint64_t detail)
{
    return (number << 32) + detail;
}

/* A fresh map in tables that held something else before. */
static void fresh(size_t with_slots, size_t with_nodes, size_t with_listings)
{
    slots = with_slots;
    node_room = with_nodes;
    listing_room = with_listings;
    memset(lines, 0x5a, sizeof lines);
    memset(nodes, 0x5a, sizeof nodes);
    memset(listings, 0x5a, sizeof listings);
    EXPECT(side->start(lines, 8 * slots, nodes, node_room, listings, listing_room) == 0);
}

static void fresh_large(void)
{
    fresh(4, PLAIN_ROOM, PLAIN_ROOM);
}

static uint64_t insert_labelled(uint16_t x1, uint16_t y1, uint16_t x2, uint16_t y2, uint16_t left,
                                uint16_t right)
{
    return side->insert(lines, 8 * slots, nodes, node_room, listings, listing_room, x1, y1, x2, y2, left,
                        right);
}

static uint64_t insert(uint16_t x1, uint16_t y1, uint16_t x2, uint16_t y2)
{
    return insert_labelled(x1, y1, x2, y2, 0, 0);
}

static uint64_t delete_handle(uint32_t handle)
{
    return side->remove(lines, 8 * slots, nodes, node_room, listings, listing_room, handle);
}

/* The answer for one point; no answer that there is if the call is refused. */
static uint32_t locate(uint16_t x, uint16_t y)
{
    const uint16_t point[2] = { x, y };
    uint32_t found = 0xdeadbeef;
    uint64_t result = side->locate(lines, 8 * slots, nodes, node_room, listings, listing_room, point, 2,
                                   &found, 1);

    return result == 0 ? found : 0xdeadbeef;
}

/* Whether a table begins so and is 0 from there on. */
static int reads(const uint16_t *table, size_t length, const uint16_t *begin, size_t count)
{
    size_t i;

    if (count > 0 && memcmp(table, begin, count * sizeof *begin) != 0)
        return 0;
    for (i = count; i < length; i++)
        if (table[i] != 0)
            return 0;
    return 1;
}

/* The cases */

static void p1(void)
{
    fresh(4, 1, PLAIN_ROOM);
    EXPECT(nodes[0] == 0);
    EXPECT(locate(0, 0) == 0);
    EXPECT(reads(lines, 32, NULL, 0));
    EXPECT(reads(listings, listing_room, NULL, 0));
}

static void p2(void)
{
    const uint16_t tree[] = { 65535, 1, 1, 1, 1 }, listed[] = { 0, 0, 0, 0 };

    fresh_large();
    EXPECT(insert(0, 0, 16383, 16383) == 1);
    EXPECT(reads(nodes, node_room, tree, 5));
    EXPECT(reads(listings, listing_room, listed, 4));
}

static void p3(void)
{
    const uint16_t tree[] = { 65535, 0, 0, 1, 1 }, listed[] = { 0, 0 };

    fresh_large();
    EXPECT(insert(0, 0, 16383, 0) == 1);
    EXPECT(reads(nodes, node_room, tree, 5));
    EXPECT(reads(listings, listing_room, listed, 2));
}

static void p4(void)
{
    fresh(4, 57, 2);
    EXPECT(insert(0, 0, 0, 1) == 1);
    EXPECT(locate(0, 1) == 65536);
}

static void refused_for_room(size_t with_nodes, size_t with_listings)
{
    fresh(4, with_nodes, with_listings);
    EXPECT(insert(0, 0, 0, 1) == refused(7, 0));
    EXPECT(reads(lines, 32, NULL, 0));
    EXPECT(reads(nodes, node_room, NULL, 0));
    EXPECT(reads(listings, listing_room, NULL, 0));
}

static void p5(void)
{
    refused_for_room(56, 2);
    refused_for_room(57, 1);
    refused_for_room(56, PLAIN_ROOM);
    refused_for_room(PLAIN_ROOM, 1);
}

static void p6(void)
{
    fresh_large();
    EXPECT(insert(0, 0, 10, 0) == 1);
    EXPECT(insert(5, 0, 5, 5) == refused(5, 131072));
    EXPECT(insert(10, 0, 0, 0) == refused(5, 262144));
}

static void p7(void)
{
    fresh_large();
    EXPECT(insert(0, 0, 10, 0) == 1);
    EXPECT(insert(10, 0, 10, 5) == 65536 + 1);
    EXPECT(insert(10, 0, 20, 0) == 2 * 65536 + 1);
    fresh_large();
    EXPECT(insert(0, 0, 10, 0) == 1);
    EXPECT(insert(10, 0, 20, 0) == 65536 + 1);
}

static void p8(void)
{
    fresh(1, PLAIN_ROOM, PLAIN_ROOM);
    EXPECT(insert(0, 0, 10, 0) == 1);
    EXPECT(delete_handle(1) == 0);
    EXPECT(insert(0, 0, 10, 0) == 2);
    EXPECT(delete_handle(1) == refused(8, 0));
}

static void p9(void)
{
    const uint16_t retired[] = { 0, 65535 };

    fresh(1, PLAIN_ROOM, PLAIN_ROOM);
    lines[1] = 65534;
    EXPECT(insert(0, 0, 10, 0) == 65535);
    EXPECT(delete_handle(65535) == 0);
    EXPECT(reads(lines, 8, retired, 2));
    EXPECT(insert(0, 0, 10, 0) == refused(6, 0));
    EXPECT(reads(lines, 8, retired, 2));
}

static void p10(void)
{
    fresh_large();
    EXPECT(insert_labelled(0, 8000, 16383, 8000, 7, 9) == 1);
    EXPECT(locate(5, 9000) == 7);
    EXPECT(locate(5, 8000) == 65536);
    EXPECT(locate(5, 7999) == 9);
    EXPECT(locate(16384, 0) == UINT32_C(4294967295));
    EXPECT(locate(16383, 9000) == 0);
}

static void p11(void)
{
    fresh_large();
    EXPECT(insert_labelled(0, 0, 10, 0, 1, 0) == 1);
    EXPECT(insert_labelled(0, 0, 10, 10, 2, 0) == 65536 + 1);
    EXPECT(locate(0, 5) == 2);
}

/* A line in the map, one given, and the detail of refusal 5; where it is 0 the given line is taken. */
static const struct {
    const char *how;
    uint16_t live[4], given[4];
    uint64_t detail;
} pairs[] = {
    { "crossing on the grid", { 0, 0, 10, 10 }, { 0, 10, 10, 0 }, 65536 },
    { "crossing between grid points", { 0, 0, 16383, 16383 }, { 0, 16383, 16383, 0 }, 65536 },
    { "crossing, upright and level", { 5, 0, 5, 10 }, { 0, 3, 10, 3 }, 65536 },
    { "crossing half a step from an end", { 5, 0, 5, 10 }, { 4, 0, 6, 1 }, 65536 },
    { "touching with an end of the given", { 0, 0, 10, 0 }, { 3, 0, 7, 9 }, 131072 },
    { "touching with an end of the live line", { 3, 0, 7, 9 }, { 10, 0, 0, 0 }, 131072 },
    { "touching an upright line", { 0, 0, 0, 10 }, { 0, 5, 8, 5 }, 131072 },
    { "touching with an upright line", { 0, 5, 8, 5 }, { 0, 10, 0, 0 }, 131072 },
    { "touching in the middle of the map", { 0, 0, 16382, 16382 }, { 16383, 0, 8191, 8191 }, 131072 },
    { "overlap from a shared end, shorter", { 0, 0, 10, 0 }, { 0, 0, 5, 0 }, 196608 },
    { "overlap from a shared end, longer", { 0, 0, 5, 0 }, { 10, 0, 0, 0 }, 196608 },
    { "overlap with a part", { 0, 0, 10, 0 }, { 3, 0, 7, 0 }, 196608 },
    { "overlap with the whole, upright", { 0, 3, 0, 7 }, { 0, 10, 0, 0 }, 196608 },
    { "overlap beyond an end, slanted", { 0, 0, 6, 6 }, { 4, 4, 9, 9 }, 196608 },
    { "same", { 0, 0, 10, 0 }, { 0, 0, 10, 0 }, 262144 },
    { "same, reversed", { 0, 0, 3, 7 }, { 3, 7, 0, 0 }, 262144 },
    { "same, from corner to corner", { 0, 16383, 16383, 0 }, { 16383, 0, 0, 16383 }, 262144 },
    { "no conflict straight on", { 0, 0, 10, 0 }, { 10, 0, 20, 0 }, 0 },
    { "no conflict at an angle", { 0, 0, 10, 0 }, { 7, 3, 10, 0 }, 0 },
    { "no conflict a step beside", { 0, 0, 10, 0 }, { 5, 1, 5, 9 }, 0 },
    { "no conflict a step on", { 0, 0, 10, 0 }, { 11, 0, 20, 0 }, 0 },
};

static void kinds(void)
{
    size_t i;

    for (i = 0; i < sizeof pairs / sizeof *pairs; i++) {
        const uint16_t *l = pairs[i].live, *g = pairs[i].given;
        uint64_t wanted = pairs[i].detail == 0 ? 65536 + 1 : refused(5, pairs[i].detail);

        fresh_large();
        EXPECT(insert(l[0], l[1], l[2], l[3]) == 1);
        expect(insert(g[0], g[1], g[2], g[3]) == wanted, pairs[i].how);
    }
}

/* A line over three others: whichever stands in the lowest slot, its kind is told. */
static void lowest_slot_kind(void)
{
    fresh_large();
    EXPECT(insert(4, 5, 4, 0) == 1);
    EXPECT(insert(2, 5, 2, 9) == 65536 + 1);
    EXPECT(insert(6, 5, 8, 5) == 2 * 65536 + 1);
    EXPECT(insert(0, 5, 10, 5) == refused(5, 131072));
    EXPECT(delete_handle(1) == 0);
    EXPECT(insert(4, 8, 4, 0) == 2);
    EXPECT(insert(0, 5, 10, 5) == refused(5, 65536));
    EXPECT(delete_handle(2) == 0);
    EXPECT(insert(0, 5, 10, 5) == refused(5, 131072 + 1));
    EXPECT(delete_handle(65536 + 1) == 0);
    EXPECT(insert(0, 5, 10, 5) == refused(5, 196608 + 2));
    EXPECT(insert(8, 5, 6, 5) == refused(5, 262144 + 2));
}

/* The corners of the grid, and the grid points a step beside them: here the numbers that geometry works with are
 * greatest and least. The turn of three points is (bx-ax)(cy-ay) - (by-ay)(cx-ax), in half-steps. Of three grid points it
 * is at most 32,766 x 32,766 = GREATEST, and if it is not 0 at least 4. With a corner of the whole map as the third point,
 * at half-step 0 or 32,768, it comes to 32,766 x 32,767 for a side of the grid, and for a diagonal to 32,766 x 32,768. */

/* The last grid number and the one before it; the turn of a point a step beside a line as long as the map. */
enum { L = 16383, B = 16382, STEP = 65532, GREATEST = 1073610756 };

static int64_t turn_of(const uint16_t l[4], uint16_t x, uint16_t y)
{
    return 4 * ((int64_t)(l[2] - l[0]) * (y - l[1]) - (int64_t)(l[3] - l[1]) * (x - l[0]));
}

/* A kind of conflict; or none, and then the tree may be too large, as it is of lines a step apart all across the map. */
enum told { TAKEN, CROSSING, TOUCHING, OVERLAP, SAME, NO_ROOM };

static uint64_t second_insert(enum told told)
{
    return told == TAKEN ? 65536 + 1 : told == NO_ROOM ? refused(7, 0) : refused(5, (uint64_t)told * 65536);
}

/* Two lines, the turns that the first makes with the ends of the other, and what the second of them is told. */
static const struct {
    const char *how;
    uint16_t one[4], other[4];
    int32_t turns[2];
    enum told told;
} far_pairs[] = {
    { "the diagonals", { 0, 0, L, L }, { 0, L, L, 0 }, { GREATEST, -GREATEST }, CROSSING },
    { "from a corner to a step below the diagonal's end", { 0, 0, L, L }, { 0, L, L, B }, { GREATEST, -STEP }, CROSSING },
    { "from a corner to a step above its other end", { 0, 0, L, L }, { L, 0, 0, 1 }, { -GREATEST, STEP }, CROSSING },
    { "parallel, a step above the diagonal", { 0, 0, L, L }, { 0, 1, B, L }, { STEP, STEP }, NO_ROOM },
    { "parallel, a step below the diagonal", { 0, 0, L, L }, { 1, 0, L, B }, { -STEP, -STEP }, NO_ROOM },
    { "parallel, a step below the falling diagonal", { 0, L, L, 0 }, { 0, B, B, 0 }, { -STEP, -STEP }, NO_ROOM },
    { "parallel, a step above the falling diagonal", { 0, L, L, 0 }, { 1, L, L, 1 }, { STEP, STEP }, NO_ROOM },
    { "from the diagonal's second point down to a corner", { 0, 0, L, L }, { 1, 1, L, 0 }, { 0, -GREATEST }, TOUCHING },
    { "from a corner to the diagonal's last point but one", { 0, 0, L, L }, { 0, L, B, B }, { GREATEST, 0 }, TOUCHING },
    { "from the falling diagonal's second point", { 0, L, L, 0 }, { 1, B, 0, 0 }, { 0, -GREATEST }, TOUCHING },
    { "the same, the other way", { 0, L, L, 0 }, { 1, B, L, L }, { 0, GREATEST }, TOUCHING },
    { "the diagonal without its ends", { 0, 0, L, L }, { 1, 1, B, B }, { 0, 0 }, OVERLAP },
    { "the diagonal without one end", { 0, 0, L, L }, { 0, 0, B, B }, { 0, 0 }, OVERLAP },
    { "the diagonal's first step", { 0, 0, L, L }, { 0, 0, 1, 1 }, { 0, 0 }, OVERLAP },
    { "the diagonal moved along itself by a step", { 0, 0, B, B }, { 1, 1, L, L }, { 0, 0 }, OVERLAP },
    { "the diagonal twice", { 0, 0, L, L }, { 0, 0, L, L }, { 0, 0 }, SAME },
    { "in line from corner to corner, and apart", { 0, 0, 1, 1 }, { B, B, L, L }, { 0, 0 }, TAKEN },
    { "straight on", { 0, 0, 1, 1 }, { 1, 1, L, L }, { 0, 0 }, TAKEN },
    { "across the diagonal next to its first end", { 0, 0, L, L }, { 0, 1, 1, 0 }, { STEP, -STEP }, CROSSING },
    { "across the diagonal next to its last end", { 0, 0, L, L }, { B, L, L, B }, { STEP, -STEP }, CROSSING },
    { "from a step above the diagonal to a step below", { 0, 0, L, L }, { 0, 1, L, B }, { STEP, -STEP }, CROSSING },
    { "a step apart at the far end", { 0, 0, L, L }, { 0, 0, L, B }, { 0, -STEP }, NO_ROOM },
    { "a side and the diagonal", { 0, 0, L, L }, { 0, 0, L, 0 }, { 0, -GREATEST }, TAKEN },
    { "the diagonal and the north side", { 0, 0, L, L }, { 0, L, L, L }, { GREATEST, 0 }, TAKEN },
    { "crossing, left of an end by the least", { 0, 0, L, B }, { 1, 1, 1, 0 }, { 4, -65528 }, CROSSING },
    { "crossing far off, left of an end by the least", { 0, 0, L, B }, { 1, 1, L, 0 }, { 4, -1073545224 }, CROSSING },
    { "apart, to the left by the least", { 0, 0, L, B }, { 1, 1, 0, 1 }, { 4, STEP }, TAKEN },
    { "apart, to the left by the least and by the greatest", { 0, 0, L, B }, { 1, 1, 0, L }, { 4, GREATEST }, TAKEN },
    { "one end shared, to the left by the least", { 0, 0, L, B }, { 1, 1, 0, 0 }, { 4, 0 }, TAKEN },
    { "crossing, right of an end by the least", { 0, 0, B, L }, { 1, 1, 0, 1 }, { -4, 65528 }, CROSSING },
    { "crossing far off, right of an end by the least", { 0, 0, B, L }, { 1, 1, 0, L }, { -4, 1073545224 }, CROSSING },
    { "apart, to the right by the least", { 0, 0, B, L }, { 1, 1, 1, 0 }, { -4, -STEP }, TAKEN },
    { "apart, to the right by the least and by the greatest", { 0, 0, B, L }, { 1, 1, L, 0 }, { -4, -GREATEST }, TAKEN },
    { "one end shared, to the right by the least", { 0, 0, B, L }, { 1, 1, 0, 0 }, { -4, 0 }, TAKEN },
    { "crossing at the far corner by the least", { 0, 1, L, L }, { B, B, B, L }, { -4, 65528 }, CROSSING },
    { "apart at the far corner by the least", { 0, 1, L, L }, { B, B, L, B }, { -4, -STEP }, TAKEN },
    { "crossing at the far corner, on the other side", { 1, 0, L, L }, { B, B, L, B }, { 4, -65528 }, CROSSING },
    { "apart at the far corner, on the other side", { 1, 0, L, L }, { B, B, B, L }, { 4, STEP }, TAKEN },
    { "the south and the north side", { 0, 0, L, 0 }, { 0, L, L, L }, { GREATEST, GREATEST }, TAKEN },
    { "the north and the south side", { 0, L, L, L }, { 0, 0, L, 0 }, { -GREATEST, -GREATEST }, TAKEN },
    { "the west and the east side", { 0, 0, 0, L }, { L, 0, L, L }, { -GREATEST, -GREATEST }, TAKEN },
    { "the south and the west side", { 0, 0, L, 0 }, { 0, 0, 0, L }, { 0, GREATEST }, TAKEN },
    { "touching the south side a step from its end", { 0, 0, L, 0 }, { 1, 0, L, L }, { 0, GREATEST }, TOUCHING },
    { "touching it a step from its other end", { 0, 0, L, 0 }, { 0, L, B, 0 }, { GREATEST, 0 }, TOUCHING },
    { "touching the west side a step from its end", { 0, 0, 0, L }, { 0, 1, L, 0 }, { 0, -GREATEST }, TOUCHING },
    { "a part of the south side", { 0, 0, L, 0 }, { 1, 0, B, 0 }, { 0, 0 }, OVERLAP },
    { "a part of the west side", { 0, 0, 0, L }, { 0, 1, 0, L }, { 0, 0 }, OVERLAP },
    { "both ends of the south side", { 0, 0, 1, 0 }, { B, 0, L, 0 }, { 0, 0 }, TAKEN },
    { "both ends of the west side", { 0, 0, 0, 1 }, { 0, B, 0, L }, { 0, 0 }, TAKEN },
    { "a step beside the south side", { 0, 0, L, 0 }, { 0, 1, L, 1 }, { STEP, STEP }, NO_ROOM },
    { "a step beside the west side", { 0, 0, 0, L }, { 1, 0, 1, L }, { -STEP, -STEP }, NO_ROOM },
    { "changing over along the south side", { 0, 1, L, 0 }, { 0, 0, L, 1 }, { -STEP, STEP }, CROSSING },
    { "nearly level and nearly upright", { 0, 1, L, 1 }, { 0, 0, 1, L }, { -STEP, 1073545224 }, CROSSING },
};

/* The line, or its ends changed over. */
static uint64_t insert_either_way(const uint16_t l[4], int over)
{
    if (over)
        return insert_labelled(l[2], l[3], l[0], l[1], 9, 7);
    return insert_labelled(l[0], l[1], l[2], l[3], 7, 9);
}

/* Either line first, and one or both turned over: it is always told the same. Three of the eight ways; all eight are asked of
 * other pairs by the differential test. */
static void put_far_pair(size_t i)
{
    const uint16_t *const lines_of[2] = { far_pairs[i].one, far_pairs[i].other };
    int way;

    for (way = 0; way < 8; way += 3) {
        fresh_large();
        EXPECT(insert_either_way(lines_of[way & 1], way & 2) == 1);
        expect(insert_either_way(lines_of[1 - (way & 1)], way & 4) == second_insert(far_pairs[i].told), far_pairs[i].how);
    }
}

static void far_kinds(void)
{
    size_t i;

    for (i = 0; i < sizeof far_pairs / sizeof *far_pairs; i++) {
        const uint16_t *one = far_pairs[i].one, *other = far_pairs[i].other;

        EXPECT(turn_of(one, other[0], other[1]) == far_pairs[i].turns[0]);
        EXPECT(turn_of(one, other[2], other[3]) == far_pairs[i].turns[1]);
        put_far_pair(i);
    }
}

/* One line with label 7 above it and 9 below, a point, its turn, and what it is answered. */
enum { UPPER = 7, LOWER = 9, ON_IT = 65536 };

static const struct {
    const char *how;
    uint16_t line[4], point[2];
    int32_t turn;
    uint32_t answer;
} far_points[] = {
    { "the diagonal's first end", { 0, 0, L, L }, { 0, 0 }, 0, ON_IT },
    { "the diagonal's second point", { 0, 0, L, L }, { 1, 1 }, 0, ON_IT },
    { "the diagonal's last point but one", { 0, 0, L, L }, { B, B }, 0, ON_IT },
    { "the diagonal's last end", { 0, 0, L, L }, { L, L }, 0, ON_IT },
    { "a step above its first end", { 0, 0, L, L }, { 0, 1 }, STEP, UPPER },
    { "a step below its second point", { 0, 0, L, L }, { 1, 0 }, -STEP, LOWER },
    { "a step above its last point but one", { 0, 0, L, L }, { B, L }, STEP, UPPER },
    { "a step below its last point but one", { 0, 0, L, L }, { B, B - 1 }, -STEP, LOWER },
    { "a step below its last point, under its east end", { 0, 0, L, L }, { L, B }, -STEP, 0 },
    { "the corner above the diagonal", { 0, 0, L, L }, { 0, L }, GREATEST, UPPER },
    { "the corner below the diagonal, under its east end", { 0, 0, L, L }, { L, 0 }, -GREATEST, 0 },
    { "a step west of that corner", { 0, 0, L, L }, { B, 0 }, -1073545224, LOWER },
    { "the corner below the falling diagonal", { 0, L, L, 0 }, { 0, 0 }, -GREATEST, LOWER },
    { "the corner above it, over its east end", { 0, L, L, 0 }, { L, L }, GREATEST, 0 },
    { "a step west of that", { 0, L, L, 0 }, { B, L }, 1073545224, UPPER },
    { "the falling diagonal's second point", { 0, L, L, 0 }, { 1, B }, 0, ON_IT },
    { "the falling diagonal's last point but one", { 0, L, L, 0 }, { B, 1 }, 0, ON_IT },
    { "a step below it", { 0, L, L, 0 }, { B, 0 }, -STEP, LOWER },
    { "a step above its second point", { 0, L, L, 0 }, { 1, L }, STEP, UPPER },
    { "above by the least", { 0, 0, L, B }, { 1, 1 }, 4, UPPER },
    { "below by the least", { 0, 0, B, L }, { 1, 1 }, -4, LOWER },
    { "above by the least, at the far corner", { 1, 0, L, L }, { B, B }, 4, UPPER },
    { "below by the least, at the far corner", { 0, 1, L, L }, { B, B }, -4, LOWER },
    { "over the east end by little", { 0, 0, L, B }, { L, L }, STEP, 0 },
    { "far above the south side", { 0, 0, L, 0 }, { 0, L }, GREATEST, UPPER },
    { "far above the south side's last point but one", { 0, 0, L, 0 }, { B, L }, GREATEST, UPPER },
    { "far above the south side's east end", { 0, 0, L, 0 }, { L, L }, GREATEST, 0 },
    { "a step above the south side", { 0, 0, L, 0 }, { 1, 1 }, STEP, UPPER },
    { "on the south side", { 0, 0, L, 0 }, { B, 0 }, 0, ON_IT },
    { "far below the north side", { 0, L, L, L }, { 0, 0 }, -GREATEST, LOWER },
    { "far below the north side's last point but one", { 0, L, L, L }, { B, 0 }, -GREATEST, LOWER },
    { "far below the north side's east end", { 0, L, L, L }, { L, 0 }, -GREATEST, 0 },
    { "a step below the north side", { 0, L, L, L }, { 1, B }, -STEP, LOWER },
    { "on the north side", { 0, L, L, L }, { 1, L }, 0, ON_IT },
    { "on the west side", { 0, 0, 0, L }, { 0, B }, 0, ON_IT },
    { "far east of the west side", { 0, 0, 0, L }, { L, L }, -GREATEST, 0 },
    { "far west of the east side", { L, 0, L, L }, { 0, L }, GREATEST, 0 },
    { "in line with an upright line, far above it", { 0, 0, 0, 1 }, { 0, L }, 0, 0 },
    { "in line with an upright line, far below it", { 0, B, 0, L }, { 0, 0 }, 0, 0 },
    { "in line with a slanted line, far beyond it", { 0, 0, 1, 1 }, { B, B }, 0, 0 },
    { "in line with a level line, far beyond it", { 0, 0, 1, 0 }, { L, 0 }, 0, 0 },
};

static void points_told(void)
{
    size_t i;

    for (i = 0; i < 2 * (sizeof far_points / sizeof *far_points); i++) {
        const uint16_t *l = far_points[i / 2].line, *p = far_points[i / 2].point;

        fresh_large();
        EXPECT(turn_of(l, p[0], p[1]) == far_points[i / 2].turn);
        EXPECT(insert_either_way(l, i % 2 == 1) == 1);
        expect(locate(p[0], p[1]) == far_points[i / 2].answer, far_points[i / 2].how);
    }
}

/* Lines with their labels, a point, and what it is answered. Each is asked with the lines in every order of slots, by turns drawn
 * as they stand here and turned over. A point is told the label of the nearest line that counts: below it, or, if there
 * is none, above. Labels are odd above a line and even below it, so a label tells its line and its side. */

enum { IN_VIEW = 3, FIRST_LINE = 65536 };

static const struct view {
    const char *how;
    uint16_t point[2];
    uint32_t answer;                     /* a label, or the line that is written first */
    uint16_t line[IN_VIEW][6];
} views[] = {
    /* One line, and where its x range begins and ends */
    { "under a line", { 50, 40 }, 2, { { 20, 100, 80, 100, 1, 2 } } },
    { "over it", { 50, 140 }, 1, { { 20, 100, 80, 100, 1, 2 } } },
    { "under its west end", { 20, 40 }, 2, { { 20, 100, 80, 100, 1, 2 } } },
    { "a step under its west end", { 20, 99 }, 2, { { 20, 100, 80, 100, 1, 2 } } },
    { "a step west of its west end", { 19, 40 }, 0, { { 20, 100, 80, 100, 1, 2 } } },
    { "a step west of its east end", { 79, 40 }, 2, { { 20, 100, 80, 100, 1, 2 } } },
    { "under its east end", { 80, 40 }, 0, { { 20, 100, 80, 100, 1, 2 } } },
    { "a step under its east end", { 80, 99 }, 0, { { 20, 100, 80, 100, 1, 2 } } },
    { "a step east of its east end", { 81, 40 }, 0, { { 20, 100, 80, 100, 1, 2 } } },
    { "drawn westward, its left is below", { 50, 40 }, 2, { { 80, 100, 20, 100, 2, 1 } } },
    { "under a rising line's west end", { 20, 40 }, 2, { { 20, 60, 80, 100, 1, 2 } } },
    { "under a rising line's east end", { 80, 40 }, 0, { { 20, 60, 80, 100, 1, 2 } } },
    { "under a falling line's west end", { 20, 40 }, 2, { { 20, 100, 80, 60, 1, 2 } } },
    { "under a falling line's east end", { 80, 40 }, 0, { { 20, 100, 80, 60, 1, 2 } } },
    { "on it, inside", { 50, 100 }, FIRST_LINE, { { 20, 100, 80, 100, 1, 2 } } },
    { "on its east end", { 80, 100 }, FIRST_LINE, { { 20, 100, 80, 100, 1, 2 } } },

    /* P11 seen from below: at a common west end the one that rises less steeply is the lower just east of it. */
    { "level and rising", { 10, 40 }, 2, { { 10, 100, 50, 100, 1, 2 }, { 10, 100, 50, 140, 3, 4 } } },
    { "falling and level", { 10, 40 }, 2, { { 10, 100, 50, 60, 1, 2 }, { 10, 100, 50, 100, 3, 4 } } },
    { "falling by 40 in 40 and by 20 in 40", { 10, 40 }, 2, { { 10, 100, 50, 60, 1, 2 }, { 10, 100, 50, 80, 3, 4 } } },
    { "falling steeply, rising a little", { 10, 20 }, 2, { { 10, 100, 50, 30, 1, 2 }, { 10, 100, 90, 101, 3, 4 } } },
    { "rising by 30 in 80 and by 5 in 10", { 10, 40 }, 2, { { 10, 100, 90, 130, 1, 2 }, { 10, 100, 20, 105, 3, 4 } } },
    { "falling by 5 in 10 and by 30 in 80", { 10, 40 }, 2, { { 10, 100, 20, 95, 1, 2 }, { 10, 100, 90, 70, 3, 4 } } },
    { "rising by 40 in 40 and by 40 in 39", { 10, 40 }, 2, { { 10, 100, 50, 140, 1, 2 }, { 10, 100, 49, 140, 3, 4 } } },
    { "falling, level and rising", { 10, 40 }, 2,
      { { 10, 100, 50, 80, 1, 2 }, { 10, 100, 50, 100, 3, 4 }, { 10, 100, 50, 120, 5, 6 } } },
    { "a step east of the common end", { 11, 40 }, 2, { { 10, 100, 50, 99, 1, 2 }, { 10, 100, 50, 140, 3, 4 } } },
    { "the upright one from there is none of them", { 10, 40 }, 2,
      { { 10, 100, 50, 120, 1, 2 }, { 10, 100, 10, 60, 3, 4 }, { 10, 100, 50, 140, 5, 6 } } },
    { "at a common east end neither counts", { 50, 40 }, 0, { { 10, 100, 50, 120, 1, 2 }, { 10, 140, 50, 120, 3, 4 } } },
    { "an east end and a west end: the line that begins", { 50, 40 }, 2, { { 50, 100, 90, 100, 1, 2 }, { 10, 100, 50, 100, 3, 4 } } },
    { "an east end and a west end, falling to it", { 50, 40 }, 2, { { 50, 60, 90, 100, 1, 2 }, { 10, 100, 50, 60, 3, 4 } } },
    { "the same end over the point", { 50, 140 }, 1, { { 50, 60, 90, 100, 1, 2 }, { 10, 100, 50, 60, 3, 4 } } },

    /* The lowest of several */
    { "three above", { 50, 40 }, 2, { { 0, 60, 100, 60, 1, 2 }, { 0, 80, 100, 80, 3, 4 }, { 0, 100, 100, 100, 5, 6 } } },
    { "three above, under their west ends", { 0, 40 }, 2,
      { { 0, 60, 100, 70, 1, 2 }, { 0, 80, 100, 90, 3, 4 }, { 0, 100, 100, 110, 5, 6 } } },
    { "the lowest there begins highest", { 80, 20 }, 2, { { 0, 150, 100, 50, 1, 2 }, { 70, 85, 100, 85, 3, 4 } } },
    { "the lowest there goes highest", { 10, 20 }, 2, { { 0, 50, 100, 150, 1, 2 }, { 0, 90, 20, 90, 3, 4 } } },
    { "less than a step apart", { 51, 20 }, 2, { { 50, 99, 53, 100, 1, 2 }, { 49, 100, 52, 100, 3, 4 } } },
    { "under the east end of the lowest: the next", { 60, 20 }, 2, { { 20, 90, 99, 90, 1, 2 }, { 20, 60, 60, 60, 3, 4 } } },
    { "under the west end of the lowest", { 60, 20 }, 2, { { 60, 60, 99, 60, 1, 2 }, { 20, 90, 99, 90, 3, 4 } } },
    { "west of the lowest's west end: the next", { 59, 20 }, 2, { { 20, 90, 99, 90, 1, 2 }, { 60, 60, 99, 60, 3, 4 } } },
    { "the lowest's label is 0: the next is not asked", { 50, 40 }, 0, { { 0, 60, 99, 60, 1, 0 }, { 0, 90, 99, 90, 3, 4 } } },

    /* A line below answers before any above */
    { "between two lines", { 50, 50 }, 1, { { 0, 20, 99, 20, 1, 2 }, { 0, 80, 99, 80, 3, 4 } } },
    { "between two lines, next to the upper", { 50, 79 }, 1, { { 0, 20, 99, 20, 1, 2 }, { 0, 80, 99, 80, 3, 4 } } },
    { "between two lines, the label below is 0", { 50, 50 }, 0, { { 0, 20, 99, 20, 0, 2 }, { 0, 80, 99, 80, 3, 4 } } },
    { "the same, a step over the lower", { 50, 21 }, 0, { { 0, 20, 99, 20, 0, 2 }, { 0, 80, 99, 80, 3, 4 } } },
    { "the same, under both", { 50, 10 }, 2, { { 0, 20, 99, 20, 0, 2 }, { 0, 80, 99, 80, 3, 4 } } },
    { "the lower of two below has a label, the higher 0", { 50, 50 }, 0,
      { { 0, 40, 99, 40, 0, 2 }, { 0, 20, 99, 20, 3, 4 }, { 0, 80, 99, 80, 5, 6 } } },
    { "over the east end of the lower: the upper answers", { 60, 50 }, 4, { { 20, 20, 60, 20, 1, 2 }, { 0, 80, 99, 80, 3, 4 } } },
    { "over the west end of the lower", { 20, 50 }, 1, { { 20, 20, 60, 20, 1, 2 }, { 0, 80, 99, 80, 3, 4 } } },
    { "on the first, between two", { 50, 50 }, FIRST_LINE,
      { { 0, 50, 99, 50, 1, 2 }, { 0, 20, 99, 20, 3, 4 }, { 0, 80, 99, 80, 5, 6 } } },
    { "on the first's east end, under another", { 60, 50 }, FIRST_LINE, { { 20, 50, 60, 50, 1, 2 }, { 0, 80, 99, 80, 3, 4 } } },
    { "on the first, and it is upright", { 50, 50 }, FIRST_LINE, { { 50, 40, 50, 60, 1, 2 }, { 0, 80, 99, 80, 3, 4 } } },

    /* Upright lines */
    { "under an upright line", { 50, 20 }, 0, { { 50, 60, 50, 90, 1, 2 } } },
    { "over an upright line", { 50, 99 }, 0, { { 50, 60, 50, 90, 1, 2 } } },
    { "beside an upright line", { 49, 70 }, 0, { { 50, 60, 50, 90, 1, 2 } } },
    { "an upright line above, a line above that", { 50, 20 }, 4, { { 50, 60, 50, 90, 1, 2 }, { 0, 95, 99, 95, 3, 4 } } },
    { "an upright line below, a line above", { 50, 40 }, 4, { { 50, 10, 50, 30, 1, 2 }, { 0, 95, 99, 95, 3, 4 } } },
    { "an upright line that hangs from a line's west end", { 50, 20 }, 4, { { 50, 60, 50, 90, 1, 2 }, { 50, 90, 99, 90, 3, 4 } } },
    { "an upright line that hangs from a line's east end", { 50, 20 }, 0, { { 50, 60, 50, 90, 1, 2 }, { 10, 90, 50, 90, 3, 4 } } },

    /* Nothing either way */
    { "between the ranges of two lines", { 50, 40 }, 0, { { 0, 90, 40, 90, 1, 2 }, { 60, 90, 99, 90, 3, 4 } } },
    { "over one east end and under another", { 50, 40 }, 0, { { 0, 20, 50, 20, 1, 2 }, { 0, 90, 50, 90, 3, 4 } } },
};

static size_t lines_in(const struct view *v)
{
    size_t count = 0;

    while (count < IN_VIEW && (v->line[count][0] != v->line[count][2] || v->line[count][1] != v->line[count][3]))
        count++;
    return count;
}

/* The orders of one line, of two and of three: which line is in which slot. */
static const struct {
    size_t many, slot[6][IN_VIEW];
} orders[IN_VIEW] = {
    { 1, { { 0, 1, 2 } } },
    { 2, { { 0, 1, 2 }, { 1, 0, 2 } } },
    { 6, { { 0, 1, 2 }, { 0, 2, 1 }, { 1, 0, 2 }, { 1, 2, 0 }, { 2, 0, 1 }, { 2, 1, 0 } } },
};

/* Answers the slot that the first line is in. */
static size_t put_view(const struct view *v, size_t count, const size_t order[IN_VIEW], int over)
{
    size_t slot, first = 0;

    fresh(IN_VIEW, 1000, 1000);
    for (slot = 0; slot < count; slot++) {
        const uint16_t *l = v->line[order[slot]];

        first = order[slot] == 0 ? slot : first;
        EXPECT((over ? insert_labelled(l[2], l[3], l[0], l[1], l[5], l[4])
                     : insert_labelled(l[0], l[1], l[2], l[3], l[4], l[5])) == slot * 65536 + 1);
    }
    return first;
}

static void views_told(void)
{
    size_t i, k;

    for (i = 0; i < sizeof views / sizeof *views; i++) {
        const struct view *v = &views[i];
        size_t count = lines_in(v), many = orders[count - 1].many;

        for (k = 0; k < many || k < 2; k++) {
            size_t first = put_view(v, count, orders[count - 1].slot[k % many], k % 2 == 1);
            uint32_t wanted = v->answer + (v->answer == FIRST_LINE ? (uint32_t)first : 0);

            expect(locate(v->point[0], v->point[1]) == wanted, v->how);
        }
    }
}

/* Two upright lines a step apart make a column of smallest leaves, and the roof is far north of them. No line is below, so
 * all points up to the roof have its label, whether they stand under the column, beside it or over it. A floor then takes
 * over those above it, with label 0. */
static void under_many_leaves(void)
{
    const uint16_t heights[] = { 0, 499, 601, 700, 12999 };
    size_t i;

    fresh_large();
    EXPECT(insert_labelled(1000, 500, 1000, 600, 1, 2) == 1);
    EXPECT(insert_labelled(1001, 600, 1001, 500, 3, 4) == 65536 + 1);
    EXPECT(insert_labelled(16383, 13000, 0, 13000, 6, 5) == 2 * 65536 + 1);
    for (i = 0; i < sizeof heights / sizeof *heights; i++) {
        EXPECT(locate(1000, heights[i]) == 6);
        EXPECT(locate(1001, heights[i]) == 6);
        EXPECT(locate(999, heights[i]) == 6);
        EXPECT(locate(16382, heights[i]) == 6);
        EXPECT(locate(16383, heights[i]) == 0);
    }
    EXPECT(locate(1000, 550) == 65536);
    EXPECT(locate(1001, 550) == 65536 + 1);
    EXPECT(locate(1002, 550) == 6);
    EXPECT(locate(1000, 13001) == 5);
    EXPECT(insert_labelled(900, 400, 1001, 400, 0, 8) == 3 * 65536 + 1);
    EXPECT(locate(1000, 399) == 8);
    EXPECT(locate(1000, 499) == 0);
    EXPECT(locate(1000, 700) == 0);
    EXPECT(locate(1001, 499) == 6);
    EXPECT(locate(899, 499) == 6);
}

/* Five fences in a row under a ditch that crosses the sheet. Each answers for the points under it and over it, from its west
 * end on up to its east end; where none does, the ditch answers. */
static void under_fences(void)
{
    uint16_t i;

    fresh(6, 1000, 1000);
    for (i = 0; i < 5; i++)
        EXPECT(insert_labelled((uint16_t)(3000 * i + 300), 2000, (uint16_t)(3000 * i + 2700), (uint16_t)(2000 + 7 * i),
                               (uint16_t)(2 * i + 1), (uint16_t)(2 * i + 2)) == i * (uint64_t)65536 + 1);
    EXPECT(insert_labelled(0, 9000, 16383, 8000, 51, 52) == 5 * 65536 + 1);
    for (i = 0; i < 5; i++) {
        EXPECT(locate((uint16_t)(3000 * i + 1500), 5) == 2 * (uint32_t)i + 2);
        EXPECT(locate((uint16_t)(3000 * i + 1500), 2100) == 2 * (uint32_t)i + 1);
        EXPECT(locate((uint16_t)(3000 * i + 300), 1999) == 2 * (uint32_t)i + 2);
        EXPECT(locate((uint16_t)(3000 * i + 2700), 1999) == 52);
        EXPECT(locate((uint16_t)(3000 * i + 2850), 2100) == 52);
        EXPECT(locate((uint16_t)(3000 * i + 299), 0) == 52);
    }
    EXPECT(locate(16382, 0) == 52);
    EXPECT(locate(16383, 0) == 0);
}

/* The corners of the grid, with lines along its sides. At x = 16,383 no line ever counts: what has that x has its east end there. */
static void corners_told(void)
{
    fresh_large();
    EXPECT(insert_labelled(0, L, L, L, 1, 2) == 1);
    EXPECT(locate(0, 0) == 2);
    EXPECT(locate(L, 0) == 0);
    EXPECT(locate(0, B) == 2);
    EXPECT(locate(L, B) == 0);
    EXPECT(locate(0, L) == 65536);
    EXPECT(locate(L, L) == 65536);
    EXPECT(insert_labelled(L, 0, 0, 0, 4, 3) == 65536 + 1);
    EXPECT(locate(0, 1) == 3);
    EXPECT(locate(0, B) == 3);
    EXPECT(locate(B, B) == 3);
    EXPECT(locate(L, 1) == 0);
    EXPECT(locate(0, 0) == 65536 + 1);
    EXPECT(locate(L, 0) == 65536 + 1);
    EXPECT(delete_handle(1) == 0);
    EXPECT(locate(0, L) == 3);
    EXPECT(locate(B, L) == 3);
    EXPECT(locate(L, L) == 0);
    EXPECT(delete_handle(65536 + 1) == 0);
    EXPECT(insert_labelled(0, 0, 0, L, 5, 6) == 2);
    EXPECT(insert_labelled(L, L, L, 0, 7, 8) == 65536 + 2);
    EXPECT(locate(0, 0) == 65536);
    EXPECT(locate(0, L) == 65536);
    EXPECT(locate(L, 0) == 65536 + 1);
    EXPECT(locate(L, L) == 65536 + 1);
    EXPECT(locate(1, 0) == 0);
    EXPECT(locate(B, L) == 0);
    EXPECT(insert_labelled(0, L, 1, L, 9, 10) == 2 * 65536 + 1);
    EXPECT(insert_labelled(B, L, L, L, 11, 12) == 3 * 65536 + 1);
    EXPECT(locate(0, 0) == 65536);
    EXPECT(locate(1, 0) == 0);
    EXPECT(locate(B, 0) == 12);
    EXPECT(delete_handle(2) == 0);
    EXPECT(locate(0, 0) == 10);
}

/* The tree of one line: how many lines each son of the whole map lists, NW, NE, SW, SE. Through the middle it meets all
 * four; a step aside at one end it misses one. Of the map's corners the two off a diagonal have the turns 1,073,676,288
 * and -1,073,676,288, the two behind its ends have 0. */
static const struct {
    uint16_t line[4], sons[4];
} far_trees[] = {
    { { 0, 0, L, L }, { 1, 1, 1, 1 } }, { { 0, L, L, 0 }, { 1, 1, 1, 1 } },
    { { 0, 0, L, B }, { 0, 1, 1, 1 } }, { { 0, 0, B, L }, { 1, 1, 1, 0 } },
    { { 0, 1, L, L }, { 1, 1, 1, 0 } }, { { 1, 0, L, L }, { 0, 1, 1, 1 } },
    { { 0, L, L, 1 }, { 1, 1, 0, 1 } }, { { 0, L, B, 0 }, { 1, 0, 1, 1 } },
    { { 0, B, L, 0 }, { 1, 0, 1, 1 } }, { { 1, L, L, 0 }, { 1, 1, 0, 1 } },
    { { 0, 0, L, 0 }, { 0, 0, 1, 1 } }, { { 0, L, L, L }, { 1, 1, 0, 0 } },
    { { 0, 0, 0, L }, { 1, 0, 1, 0 } }, { { L, 0, L, L }, { 0, 1, 0, 1 } },
    { { 0, 1, L, 0 }, { 0, 0, 1, 1 } }, { { 1, 0, 0, L }, { 1, 0, 1, 0 } },
};

static void far_trees_built(void)
{
    const uint16_t no_slot_but_0[4] = { 0, 0, 0, 0 };
    size_t i, listed;

    for (i = 0; i < 2 * (sizeof far_trees / sizeof *far_trees); i++) {
        const uint16_t *sons = far_trees[i / 2].sons;
        const uint16_t tree[5] = { 65535, sons[0], sons[1], sons[2], sons[3] };

        listed = (size_t)sons[0] + sons[1] + sons[2] + sons[3];
        fresh_large();
        EXPECT(insert_either_way(far_trees[i / 2].line, i % 2 == 1) == 1);
        EXPECT(reads(nodes, node_room, tree, 5));
        EXPECT(reads(listings, listing_room, no_slot_but_0, listed));
    }
}

/* Windows. The list holds noise before each call, and one more entry than any of them is lent. */

enum { LIST = 6 };

static const uint16_t noise[LIST] = { 60001, 60002, 60003, 60004, 60005, 60006 };

static uint16_t list[LIST];

static uint64_t window(uint16_t west, uint16_t south, uint16_t east, uint16_t north, size_t list_len)
{
    memcpy(list, noise, sizeof list);
    return side->window(lines, 8 * slots, nodes, node_room, listings, listing_room, west, south, east, north, list,
                        list_len);
}

/* Whether the list begins so and is noise from there on. */
static int tells(const uint16_t *begin, size_t count)
{
    if (count > 0 && memcmp(list, begin, count * sizeof *begin) != 0)
        return 0;
    return memcmp(list + count, noise + count, (LIST - count) * sizeof *noise) == 0;
}

/* Of the line in slot 0 and a rectangle: whether they meet. */
static const struct {
    const char *how;
    uint16_t line[4], rectangle[4];
    int meet;
} rectangles[] = {
    { "a line inside", { 4, 5, 6, 7 }, { 0, 0, 10, 10 }, 1 },
    { "a line right across, both ends outside", { 0, 3, 20, 9 }, { 5, 2, 10, 8 }, 1 },
    { "the box of the line meets, the line does not", { 0, 0, 20, 20 }, { 12, 2, 18, 8 }, 0 },
    { "an end on the west side, from outside", { 0, 5, 5, 6 }, { 5, 0, 10, 10 }, 1 },
    { "an end a step short of the west side", { 0, 5, 4, 6 }, { 5, 0, 10, 10 }, 0 },
    { "an end on the south side", { 7, 5, 8, 0 }, { 5, 5, 10, 10 }, 1 },
    { "an end a step short of the south side", { 7, 4, 8, 0 }, { 5, 5, 10, 10 }, 0 },
    { "an end on the east side", { 20, 9, 10, 8 }, { 5, 5, 10, 10 }, 1 },
    { "an end a step short of the east side", { 20, 9, 11, 8 }, { 5, 5, 10, 10 }, 0 },
    { "an end on the north side", { 6, 10, 9, 12 }, { 5, 5, 10, 10 }, 1 },
    { "an end a step short of the north side", { 6, 11, 9, 12 }, { 5, 5, 10, 10 }, 0 },
    { "the middle touches the north-west corner", { 0, 5, 10, 15 }, { 5, 0, 12, 10 }, 1 },
    { "a step past the north-west corner", { 0, 6, 10, 16 }, { 5, 0, 12, 10 }, 0 },
    { "the middle touches the south-east corner", { 5, 0, 15, 10 }, { 2, 5, 10, 12 }, 1 },
    { "the middle touches the south-west corner", { 2, 8, 8, 2 }, { 5, 5, 12, 12 }, 1 },
    { "a step short of the south-west corner", { 2, 7, 7, 2 }, { 5, 5, 12, 12 }, 0 },
    { "the middle touches the north-east corner", { 9, 16, 15, 8 }, { 3, 2, 12, 12 }, 1 },
    { "past the north-east corner by less than a step", { 9, 16, 15, 9 }, { 3, 2, 12, 12 }, 0 },
    { "an end on a corner", { 10, 10, 14, 18 }, { 5, 5, 10, 10 }, 1 },
    { "an end a step beside a corner", { 11, 10, 14, 18 }, { 5, 5, 10, 10 }, 0 },
    { "along the west side and beyond", { 5, 0, 5, 20 }, { 5, 5, 10, 10 }, 1 },
    { "along the north side's straight line, and apart", { 11, 10, 20, 10 }, { 5, 5, 10, 10 }, 0 },
    { "one point, on the middle of a line", { 0, 0, 9, 6 }, { 3, 2, 3, 2 }, 1 },
    { "one point, a step above the line", { 0, 0, 9, 6 }, { 3, 3, 3, 3 }, 0 },
    { "one point, an end of the line", { 0, 0, 9, 6 }, { 9, 6, 9, 6 }, 1 },
    { "one point, in line with it and beyond its end", { 0, 0, 9, 6 }, { 12, 8, 12, 8 }, 0 },
    { "one point, on the middle of an upright line", { 4, 9, 4, 0 }, { 4, 5, 4, 5 }, 1 },
    { "one point, a step beside an upright line", { 4, 9, 4, 0 }, { 5, 5, 5, 5 }, 0 },
    { "an upright segment that crosses it between grid points", { 0, 0, 9, 6 }, { 4, 2, 4, 3 }, 1 },
    { "an upright segment that ends below it", { 0, 0, 9, 6 }, { 4, 0, 4, 2 }, 0 },
    { "a level segment along a part of it", { 0, 4, 9, 4 }, { 3, 4, 5, 4 }, 1 },
    { "a level segment that touches its end", { 0, 4, 9, 4 }, { 9, 4, 12, 4 }, 1 },
    { "a level segment a step on", { 0, 4, 9, 4 }, { 10, 4, 12, 4 }, 0 },
    { "from corner to corner of the map, its middle point alone", { 0, 0, 16382, 16382 }, { 8191, 8191, 8191, 8191 }, 1 },
    { "the last grid point", { 16383, 16383, 0, 16382 }, { 16383, 16383, 16383, 16383 }, 1 },
    { "the whole map", { 16383, 0, 16382, 0 }, { 0, 0, 16383, 16383 }, 1 },
    { "below a corner by the least part of a step", { 0, 0, 16383, 16382 }, { 0, 1, 1, 5 }, 0 },
    { "the same, a step wider", { 0, 0, 16383, 16382 }, { 0, 1, 2, 5 }, 1 },
    { "above a corner by the least part of a step", { 0, 0, 16383, 16382 }, { 16382, 0, 16383, 16381 }, 0 },
    { "the same, a step higher", { 0, 0, 16383, 16382 }, { 16382, 0, 16383, 16382 }, 1 },
};

static void windows_meet(void)
{
    const uint16_t slot_0[1] = { 0 };
    size_t i;

    for (i = 0; i < sizeof rectangles / sizeof *rectangles; i++) {
        const uint16_t *l = rectangles[i].line, *r = rectangles[i].rectangle;
        size_t told = rectangles[i].meet ? 1 : 0;

        fresh_large();
        EXPECT(insert(l[0], l[1], l[2], l[3]) == 1);
        expect(window(r[0], r[1], r[2], r[3], 5) == told, rectangles[i].how);
        expect(tells(slot_0, told), rectangles[i].how);
    }
}

/* The same at the corners of the grid, of lines from corner to corner. */
static const struct {
    const char *how;
    uint16_t line[4], rectangle[4];
    int meet;
} far_rectangles[] = {
    { "the diagonal, the whole map", { 0, 0, L, L }, { 0, 0, L, L }, 1 },
    { "the diagonal, the corner at its first end", { 0, 0, L, L }, { 0, 0, 0, 0 }, 1 },
    { "the diagonal, the corner at its last end", { 0, 0, L, L }, { L, L, L, L }, 1 },
    { "the diagonal, the corner to its left, by the greatest turn", { 0, 0, L, L }, { 0, L, 0, L }, 0 },
    { "the diagonal, the corner to its right, by the greatest turn", { 0, 0, L, L }, { L, 0, L, 0 }, 0 },
    { "the diagonal's second point", { 0, 0, L, L }, { 1, 1, 1, 1 }, 1 },
    { "a step above the diagonal's first end", { 0, 0, L, L }, { 0, 1, 0, 1 }, 0 },
    { "a step below the diagonal's last end", { 0, 0, L, L }, { L, B, L, B }, 0 },
    { "the diagonal, the north-west with but a corner on it", { 0, 0, L, L }, { 0, 1, 1, L }, 1 },
    { "the diagonal, the north-west a step narrower", { 0, 0, L, L }, { 0, 1, 0, L }, 0 },
    { "the diagonal, the north-west up to its last point but one", { 0, 0, L, L }, { 0, B, B, L }, 1 },
    { "the diagonal, the north side short of its end", { 0, 0, L, L }, { 0, L, B, L }, 0 },
    { "the diagonal, the south-east with but a corner on it", { 0, 0, L, L }, { B, 0, L, B }, 1 },
    { "the diagonal, the south-east a step narrower", { 0, 0, L, L }, { L, 0, L, B }, 0 },
    { "a strip all along the diagonal's ground, south", { 0, 0, L, L }, { 0, 0, L, 1 }, 1 },
    { "a strip all along the diagonal's ground, a step off", { 0, 0, L, L }, { 1, 0, L, 0 }, 0 },
    { "the falling diagonal, the corner below it", { 0, L, L, 0 }, { 0, 0, 1, 1 }, 0 },
    { "the falling diagonal, the corner above it", { 0, L, L, 0 }, { B, B, L, L }, 0 },
    { "the falling diagonal, from below with but a corner on it", { 0, L, L, 0 }, { 0, 0, B, 1 }, 1 },
    { "the falling diagonal, from below a step lower", { 0, L, L, 0 }, { 0, 0, B, 0 }, 0 },
    { "the falling diagonal, from above with but a corner on it", { 0, L, L, 0 }, { 1, B, L, L }, 1 },
    { "the falling diagonal, from above a step higher", { 0, L, L, 0 }, { 1, L, L, L }, 0 },
    { "above by the least turn", { 0, 0, L, B }, { 0, 1, 1, L }, 0 },
    { "above by the least turn, and across", { 0, 0, L, B }, { 0, 1, B, L }, 1 },
    { "below by the least turn", { 0, 0, B, L }, { 1, 0, L, 1 }, 0 },
    { "below by the least turn, and across", { 0, 0, B, L }, { 0, 1, 1, L }, 1 },
    { "below by the least turn, at the far corner", { 0, 1, L, L }, { B, 0, L, B }, 0 },
    { "above by the least turn, at the far corner", { 1, 0, L, L }, { 0, B, B, L }, 0 },
    { "the same to the last end", { 1, 0, L, L }, { 0, B, L, L }, 1 },
    { "the south side, the whole map", { 0, 0, L, 0 }, { 0, 0, L, L }, 1 },
    { "the south side, a step north of it", { 0, 0, L, 0 }, { 0, 1, L, L }, 0 },
    { "the north side, the whole map", { 0, L, L, L }, { 0, 0, L, L }, 1 },
    { "the north side, a step south of it", { 0, L, L, L }, { 0, 0, L, B }, 0 },
    { "the east side, the whole map", { L, 0, L, L }, { 0, 0, L, L }, 1 },
    { "the east side, a step west of it", { L, 0, L, L }, { 0, 0, B, L }, 0 },
    { "nearly level, below its west end", { 0, 1, L, 0 }, { 0, 0, B, 0 }, 0 },
    { "nearly level, above its east end", { 0, 1, L, 0 }, { 1, 1, L, 1 }, 0 },
};

static void far_windows(void)
{
    const uint16_t slot_0[1] = { 0 };
    size_t i;

    for (i = 0; i < 2 * (sizeof far_rectangles / sizeof *far_rectangles); i++) {
        const uint16_t *r = far_rectangles[i / 2].rectangle;
        size_t told = far_rectangles[i / 2].meet ? 1 : 0;

        fresh_large();
        EXPECT(insert_either_way(far_rectangles[i / 2].line, i % 2 == 1) == 1);
        expect(window(r[0], r[1], r[2], r[3], 5) == told, far_rectangles[i / 2].how);
        expect(tells(slot_0, told), far_rectangles[i / 2].how);
    }
}

/* Slots 0 to 3 live and then 1 freed: the lines that meet the rectangle are told rising, whatever their order in the
 * tree, and the entries after the last stay. */
static void windows_list(void)
{
    const uint16_t rising[] = { 0, 2, 3 }, last[] = { 3 };

    fresh_large();
    EXPECT(insert(9, 9, 9, 12) == 1);
    EXPECT(insert(5, 5, 6, 6) == 65536 + 1);
    EXPECT(insert(4, 4, 4, 0) == 2 * 65536 + 1);
    EXPECT(insert(0, 9, 7, 7) == 3 * 65536 + 1);
    EXPECT(delete_handle(65536 + 1) == 0);
    EXPECT(window(4, 4, 9, 9, 5) == 3 && tells(rising, 3));
    EXPECT(window(4, 4, 9, 9, 4) == 3 && tells(rising, 3));
    EXPECT(window(4, 4, 9, 9, 3) == 3 && tells(rising, 3));
    EXPECT(window(4, 4, 9, 9, 2) == refused(10, 0) && tells(NULL, 0));
    EXPECT(window(4, 4, 9, 9, 1) == refused(10, 0) && tells(NULL, 0));
    EXPECT(window(4, 4, 9, 9, 0) == refused(10, 0) && tells(NULL, 0));
    EXPECT(window(0, 0, 16383, 16383, 3) == 3 && tells(rising, 3));
    EXPECT(window(5, 5, 8, 8, 1) == 1 && tells(last, 1));
    EXPECT(window(5, 5, 6, 6, 5) == 0 && tells(NULL, 0));
    EXPECT(window(5, 5, 6, 6, 0) == 0 && tells(NULL, 0));
}

/* A coordinate off the grid, or the rectangle inverted; every refusal before those after it. */
static void windows_refused(void)
{
    fresh_large();
    EXPECT(insert(0, 0, 16383, 16383) == 1);
    EXPECT(window(16384, 0, 16384, 0, 5) == refused(9, 0) && tells(NULL, 0));
    EXPECT(window(0, 0, 16384, 0, 5) == refused(9, 0) && tells(NULL, 0));
    EXPECT(window(0, 0, 0, 16384, 5) == refused(9, 0) && tells(NULL, 0));
    EXPECT(window(0, 16384, 0, 65535, 5) == refused(9, 0) && tells(NULL, 0));
    EXPECT(window(0, 0, 65535, 65535, 5) == refused(9, 0) && tells(NULL, 0));
    EXPECT(window(6, 0, 5, 9, 5) == refused(9, 0) && tells(NULL, 0));
    EXPECT(window(0, 6, 9, 5, 5) == refused(9, 0) && tells(NULL, 0));
    EXPECT(window(9, 9, 0, 0, 0) == refused(9, 0) && tells(NULL, 0));
    EXPECT(window(0, 0, 9, 9, 0) == refused(10, 0) && tells(NULL, 0));
    nodes[5] = 1;
    EXPECT(window(0, 0, 9, 9, 5) == refused(2, 0) && tells(NULL, 0));
    EXPECT(window(9, 9, 0, 0, 0) == refused(2, 0) && tells(NULL, 0));
    node_room = 0;
    EXPECT(window(0, 0, 9, 9, 5) == refused(1, 0) && tells(NULL, 0));
    EXPECT(window(9, 9, 0, 0, 0) == refused(1, 0) && tells(NULL, 0));
}

static size_t skip_block(size_t at, size_t *listed)
{
    size_t left = 1;

    for (; left > 0; at++) {
        left += nodes[at] == 65535 ? 3 : 0;
        left -= nodes[at] == 65535 ? 0 : 1;
        *listed += nodes[at] == 65535 ? 0 : nodes[at];
    }
    return at;
}

/* Goes down the south-west sons, this many times; the block's node, and the listings before it. */
static size_t south_west(int times, size_t *listed)
{
    size_t at = 0;

    for (*listed = 0; times > 0; times--) {
        EXPECT(nodes[at] == 65535);
        at = skip_block(at + 1, listed);
        at = skip_block(at, listed);
    }
    return at;
}

static void run_only(void)
{
    size_t at, listed;
    int times;

    fresh_large();
    EXPECT(insert(0, 0, 8, 8) == 1);
    EXPECT(insert(0, 0, 8, 7) == 65536 + 1);
    EXPECT(insert(4, 7, 5, 7) == 2 * 65536 + 1);
    for (times = 0; (32768 >> times) > 16; times++)
        continue;
    at = south_west(times, &listed);
    EXPECT(nodes[at] == 65535);
    EXPECT(delete_handle(2 * 65536 + 1) == 0);
    at = south_west(times, &listed);
    EXPECT(nodes[at] == 2);
    EXPECT(listings[listed] == 0 && listings[listed + 1] == 1);
}

/* The point's own leaf, the south-west quarter of the map, lists the steep line alone, which passes the point's x far north of
 * it: at x = 7000 at height 14012.5. The other passes there at 8668 and a bit, in the quarter to the north. */
static void beyond_own_leaf(void)
{
    size_t at, listed;

    fresh_large();
    EXPECT(insert_labelled(0, 100, 8000, 16000, 1, 2) == 1);
    EXPECT(insert_labelled(6000, 8300, 7900, 9000, 3, 4) == 65536 + 1);
    at = south_west(1, &listed);
    EXPECT(nodes[at] == 1 && listings[listed] == 0);
    EXPECT(locate(7000, 50) == 4);
    EXPECT(locate(7000, 8668) == 4);
    EXPECT(locate(7000, 8669) == 3);
    EXPECT(locate(7900, 50) == 2);
    EXPECT(locate(3000, 50) == 2);
    EXPECT(locate(5999, 8500) == 2);
    EXPECT(locate(6000, 8299) == 4);
    EXPECT(locate(6000, 12100) == 1);
}

static const struct {
    const char *name;
    void (*run)(void);
} cases[] = {
    { "P1", p1 }, { "P2", p2 }, { "P3", p3 }, { "P4", p4 },    { "P5", p5 },   { "P6", p6 },
    { "P7", p7 }, { "P8", p8 }, { "P9", p9 }, { "P10", p10 },  { "P11", p11 }, { "the run case", run_only },
    { "the kinds", kinds }, { "the lowest slot's kind", lowest_slot_kind },
    { "points under and over lines", views_told }, { "a line beyond the point's own leaf", beyond_own_leaf },
    { "a roof over many leaves", under_many_leaves }, { "a ditch over fences", under_fences },
    { "corners of the grid, lines along its sides", corners_told },
    { "lines at the corners", far_kinds }, { "points at the corners", points_told },
    { "trees of lines at the corners", far_trees_built }, { "windows at the corners", far_windows },
    { "windows", windows_meet }, { "the list of a window", windows_list }, { "windows refused", windows_refused },
};

int main(void)
{
    enum { CASES = sizeof cases / sizeof *cases };
    const char *first = getenv("FIRST");
    int passed = 0, failed = 0, most = first != NULL && *first == '1' ? 1 : 2 * CASES;
    size_t i;

    for (i = 0; i < 2 * CASES && failed < most; i++) {
        side = &sides[i / CASES];
        doing = cases[i % CASES].name;
        wrong = 0;
        cases[i % CASES].run();
        passed += !wrong;
        failed += wrong;
    }
    printf("cases: %d passed, %d failed\n", passed, failed);
    return failed != 0;
}
