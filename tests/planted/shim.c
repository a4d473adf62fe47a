/* Stands between the tests and the library and spoils one thing, so that the tests show that they can fail. The
 * linker's --wrap sends the calls here (see tests/run). PLANT=N chooses the error; 0 spoils nothing, and a number
 * past the last ends the program with status 77. Errors are kept small: most show in rare maps only. */
#include "../library.h"

#include <stdio.h>
#include <stdlib.h>
#include <string.h>

enum { LAST_GRID = 16383, DIVIDED = 65535, MOST_LINES = 8200, MOST_ROOM = 16385 };
enum { LIVE, GENERATION, X1, Y1, X2, Y2, LEFT, RIGHT };

struct tables {
    uint16_t *lines, *nodes, *listings;
    size_t lines_len, nodes_len, listings_len;
};

struct lists {
    const uint16_t *points;
    uint32_t *answers;
    size_t points_len, answers_len;
};

/* A rectangle, and the list to be filled. */
struct window {
    uint16_t west, south, east, north;
    uint16_t *slots;
    size_t slots_len;
};

/* The true calls */

uint64_t __real_boundary_map_start(uint16_t *, size_t, uint16_t *, size_t, uint16_t *, size_t);
uint64_t __real_boundary_map_insert(uint16_t *, size_t, uint16_t *, size_t, uint16_t *, size_t, uint16_t,
                                    uint16_t, uint16_t, uint16_t, uint16_t, uint16_t);
uint64_t __real_boundary_map_delete(uint16_t *, size_t, uint16_t *, size_t, uint16_t *, size_t, uint32_t);
uint64_t __real_boundary_map_locate(const uint16_t *, size_t, const uint16_t *, size_t, const uint16_t *,
                                    size_t, const uint16_t *, size_t, uint32_t *, size_t);
uint64_t __real_boundary_map_window(const uint16_t *, size_t, const uint16_t *, size_t, const uint16_t *, size_t,
                                    uint16_t, uint16_t, uint16_t, uint16_t, uint16_t *, size_t);
uint32_t __real_boundary_map_version(void);

static uint64_t start(struct tables t)
{
    return __real_boundary_map_start(t.lines, t.lines_len, t.nodes, t.nodes_len, t.listings, t.listings_len);
}

static uint64_t insert(struct tables t, const uint16_t *l)
{
    return __real_boundary_map_insert(t.lines, t.lines_len, t.nodes, t.nodes_len, t.listings, t.listings_len,
                                      l[0], l[1], l[2], l[3], l[4], l[5]);
}

static uint64_t delete_handle(struct tables t, uint32_t handle)
{
    return __real_boundary_map_delete(t.lines, t.lines_len, t.nodes, t.nodes_len, t.listings, t.listings_len,
                                      handle);
}

static uint64_t locate(struct tables t, struct lists s)
{
    return __real_boundary_map_locate(t.lines, t.lines_len, t.nodes, t.nodes_len, t.listings, t.listings_len,
                                      s.points, s.points_len, s.answers, s.answers_len);
}

static uint64_t window(struct tables t, struct window w)
{
    return __real_boundary_map_window(t.lines, t.lines_len, t.nodes, t.nodes_len, t.listings, t.listings_len,
                                      w.west, w.south, w.east, w.north, w.slots, w.slots_len);
}

static uint64_t refusal(uint64_t result)
{
    return result >> 32;
}

static uint64_t refuse(uint64_t number)
{
    return number << 32;
}

/* A copy of the tables, to ask what the map does not say */

static uint16_t copied_lines[MOST_LINES], copied_nodes[MOST_ROOM], copied_listings[MOST_ROOM];

static struct tables copy_of(struct tables t)
{
    struct tables c = t;

    c.lines = copied_lines;
    c.nodes = copied_nodes;
    c.listings = copied_listings;
    memcpy(c.lines, t.lines, t.lines_len * sizeof *t.lines);
    memcpy(c.nodes, t.nodes, t.nodes_len * sizeof *t.nodes);
    memcpy(c.listings, t.listings, t.listings_len * sizeof *t.listings);
    return c;
}

static void put_tree_back(struct tables t, struct tables from)
{
    memcpy(t.nodes, from.nodes, t.nodes_len * sizeof *t.nodes);
    memcpy(t.listings, from.listings, t.listings_len * sizeof *t.listings);
}

static size_t slots(struct tables t)
{
    return t.lines_len / 8;
}

static uint16_t *slot_at(struct tables t, size_t slot)
{
    return t.lines + 8 * slot;
}

static size_t slot_of(uint64_t handle)
{
    return (size_t)(handle & 0xffffffff) / 65536;
}

/* Where a tree ends, from any of its blocks on; a table that holds no tree ends it too. */
static size_t past_block(struct tables t, size_t at, size_t *listed)
{
    size_t left = 1;

    for (; left > 0 && at < t.nodes_len; at++) {
        if (t.nodes[at] == DIVIDED) {
            left += 3;
        } else {
            *listed += t.nodes[at];
            left--;
        }
    }
    return at;
}

static int is_label(uint32_t found)
{
    return found < 65536;
}

static long long turn(const uint16_t *l, long long x, long long y)
{
    return ((long long)l[X2] - l[X1]) * (y - l[Y1]) - ((long long)l[Y2] - l[Y1]) * (x - l[X1]);
}

/* A turn in half-steps as too narrow a product would leave it: of more than this size it comes out with the other sign. No turn
 * of three grid points is past 2^30; the greatest is 32,766 x 32,766. */
enum { IN_30_BITS = 536870911, ALL_BUT_GREATEST = 1073610755 };

static long long narrow_turn(const uint16_t *l, const uint16_t *point, long long most)
{
    long long t = 4 * turn(l, point[0], point[1]);

    return t > most || t < -most ? -t : t;
}

/* Insert */

static uint32_t conflict_slot(uint64_t result)
{
    return (uint32_t)result % 65536;
}

static uint32_t conflict_kind(uint64_t result)
{
    return (uint32_t)result / 65536;
}

static uint64_t conflict(uint32_t kind, uint32_t slot)
{
    return refuse(5) + kind * 65536 + slot;
}

/* What refusal 5 tells of the last line in the way, from what it told of the first. */
static uint64_t highest_conflict(struct tables t, const uint16_t *l, uint64_t result)
{
    uint64_t again = result;
    struct tables c;

    for (c = copy_of(t); refusal(again) == 5; again = insert(c, l)) {
        uint32_t slot = conflict_slot(again);

        result = again;
        delete_handle(c, slot * 65536 + slot_at(c, slot)[GENERATION]);
    }
    return result;
}

static uint64_t names_highest_conflict(struct tables t, const uint16_t *l)
{
    uint64_t result = insert(t, l);

    return refusal(result) == 5 ? highest_conflict(t, l, result) : result;
}

static uint64_t kind_of_highest_conflict(struct tables t, const uint16_t *l)
{
    uint64_t result = insert(t, l);

    if (refusal(result) != 5)
        return result;
    return conflict(conflict_kind(highest_conflict(t, l, result)), conflict_slot(result));
}

/* Each kind, from 0 for none to 4, told as another. */
static uint64_t insert_with_kinds(struct tables t, const uint16_t *l, const uint32_t told_as[5])
{
    uint64_t result = insert(t, l);

    if (refusal(result) != 5)
        return result;
    return conflict(told_as[conflict_kind(result)], conflict_slot(result));
}

static uint64_t overlap_and_same_swapped(struct tables t, const uint16_t *l)
{
    return insert_with_kinds(t, l, (const uint32_t[]){ 0, 1, 2, 4, 3 });
}

static uint64_t touching_is_crossing(struct tables t, const uint16_t *l)
{
    return insert_with_kinds(t, l, (const uint32_t[]){ 0, 1, 1, 3, 4 });
}

static uint64_t kind_left_out(struct tables t, const uint16_t *l)
{
    return insert_with_kinds(t, l, (const uint32_t[]){ 0, 0, 0, 0, 0 });
}

static uint64_t reversed_is_overlap(struct tables t, const uint16_t *l)
{
    uint64_t result = insert(t, l);

    if (refusal(result) != 5 || conflict_kind(result) != 4 || memcmp(slot_at(t, conflict_slot(result)) + X1, l, 8) == 0)
        return result;
    return conflict(3, conflict_slot(result));
}

static int parts_ends(const uint16_t *l, const uint16_t *m, long long most)
{
    long long a = narrow_turn(l, m + X1, most), b = narrow_turn(l, m + X2, most);

    return (a > 0 && b < 0) || (a < 0 && b > 0);
}

/* Of a crossing told: whether narrow turns see no such thing. */
static int crossing_unseen(struct tables t, const uint16_t *l, uint64_t result, long long most)
{
    const uint16_t given[8] = { 1, 1, l[0], l[1], l[2], l[3], l[4], l[5] }, *s;

    if (refusal(result) != 5 || conflict_kind(result) != 1)
        return 0;
    s = slot_at(t, conflict_slot(result));
    return !parts_ends(s, given, most) || !parts_ends(given, s, most);
}

static uint64_t narrow_turns_tell_kind(struct tables t, const uint16_t *l)
{
    uint64_t result = insert(t, l);

    return crossing_unseen(t, l, result, ALL_BUT_GREATEST) ? conflict(2, conflict_slot(result)) : result;
}

static uint64_t changes_last_leaf(struct tables t, const uint16_t *l)
{
    uint64_t result = insert(t, l);
    size_t listed = 0, end;

    if (refusal(result) != 0 || slot_of(result) < 3)
        return result;
    end = past_block(t, 0, &listed);
    t.nodes[end - 1] ^= 1;
    return result;
}

static uint64_t lists_falling(struct tables t, const uint16_t *l)
{
    uint64_t result = insert(t, l);
    size_t at, listed = 0, end, sum = 0;
    uint16_t first;

    if (refusal(result) != 0)
        return result;
    end = past_block(t, 0, &sum);
    for (at = 0; at < end; at++) {
        if (t.nodes[at] == 3) {
            first = t.listings[listed];
            t.listings[listed] = t.listings[listed + 1];
            t.listings[listed + 1] = first;
            break;
        }
        listed += t.nodes[at] == DIVIDED ? 0 : t.nodes[at];
    }
    return result;
}

static uint64_t gives_handle_again(struct tables t, const uint16_t *l)
{
    uint64_t result = insert(t, l);
    uint16_t *s;

    if (refusal(result) != 0)
        return result;
    s = slot_at(t, slot_of(result));
    if (s[GENERATION] < 2)
        return result;
    s[GENERATION]--;
    return result - 1;
}

static size_t free_slot(struct tables t)
{
    size_t i;

    for (i = 0; i < slots(t); i++)
        if (slot_at(t, i)[LIVE] == 0 && slot_at(t, i)[GENERATION] < 65535)
            break;
    return i;
}

static uint64_t no_room_raises_generation(struct tables t, const uint16_t *l)
{
    uint64_t result = insert(t, l);

    if (refusal(result) == 7)
        slot_at(t, free_slot(t))[GENERATION]++;
    return result;
}

/* Whether a line at 45 degrees has but one corner of a block, the one that half-open blocks leave off. */
static int touches_corner(const uint16_t *s, long west, long south, long side)
{
    long dx = (long)s[X2] - s[X1], dy = (long)s[Y2] - s[Y1];
    long x = 2 * (long)s[X1] + 1, y = 2 * (long)s[Y1] + 1;

    return dx == dy && (y - x == south + side - west || y - x == south - west - side);
}

struct walk {
    struct tables t;
    size_t node, listed, kept;
};

/* Goes through the tree and drops such listings from it, the rest moving up. */
static void drop_corners(struct walk *w, long west, long south, long side)
{
    size_t at = w->node++, count = w->t.nodes[at], i;
    long half = side / 2;

    if (count == DIVIDED) {
        drop_corners(w, west, south + half, half);
        drop_corners(w, west + half, south + half, half);
        drop_corners(w, west, south, half);
        drop_corners(w, west + half, south, half);
        return;
    }
    for (i = 0; i < count; i++) {
        uint16_t slot = w->t.listings[w->listed++];

        if (touches_corner(slot_at(w->t, slot), west, south, side))
            w->t.nodes[at]--;
        else
            w->t.listings[w->kept++] = slot;
    }
}

static uint64_t half_open_blocks(struct tables t, const uint16_t *l)
{
    uint64_t result = insert(t, l);
    struct walk w = { t, 0, 0, 0 };

    if (refusal(result) != 0)
        return result;
    drop_corners(&w, 0, 0, 32768);
    for (; w.kept < w.listed; w.kept++)
        t.listings[w.kept] = 0;
    return result;
}

static int off_grid(const uint16_t *l)
{
    return l[0] > LAST_GRID || l[1] > LAST_GRID || l[2] > LAST_GRID || l[3] > LAST_GRID;
}

static uint64_t off_grid_before_damage(struct tables t, const uint16_t *l)
{
    uint64_t result = insert(t, l);

    return refusal(result) == 2 && off_grid(l) ? refuse(3) : result;
}

static uint64_t no_length_before_off_grid(struct tables t, const uint16_t *l)
{
    uint64_t result = insert(t, l);

    return refusal(result) == 3 && l[0] == l[2] && l[1] == l[3] ? refuse(4) : result;
}

static uint64_t no_slot_before_conflict(struct tables t, const uint16_t *l)
{
    uint64_t result = insert(t, l);

    return refusal(result) == 5 && free_slot(t) == slots(t) ? refuse(6) : result;
}

/* Asks a copy with one slot more, had the map none left. */
static uint64_t no_room_before_no_slot(struct tables t, const uint16_t *l)
{
    uint64_t result = insert(t, l);
    struct tables c;

    if (refusal(result) != 6 || slots(t) == 1024)
        return result;
    c = copy_of(t);
    memset(c.lines + c.lines_len, 0, 8 * sizeof *c.lines);
    c.lines_len += 8;
    return refusal(insert(c, l)) == 7 ? refuse(7) : result;
}

static uint64_t takes_retired_slot(struct tables t, const uint16_t *l)
{
    uint64_t result = insert(t, l);
    size_t i;

    if (refusal(result) != 6)
        return result;
    for (i = 0; i < slots(t); i++)
        if (slot_at(t, i)[LIVE] == 0) {
            slot_at(t, i)[GENERATION] = 0;
            return insert(t, l);
        }
    return result;
}

static uint64_t writes_past_nodes(struct tables t, const uint16_t *l)
{
    uint64_t result = insert(t, l);

    if (refusal(result) == 0)
        t.nodes[t.nodes_len] = 0;
    return result;
}

/* One listing fewer is lent than was said. */
static uint64_t keeps_one_listing_back(struct tables t, const uint16_t *l)
{
    uint64_t result = insert(t, l);
    size_t listed = 0;

    if (refusal(result) != 0)
        return result;
    past_block(t, 0, &listed);
    if (listed < t.listings_len)
        return result;
    delete_handle(t, (uint32_t)result);
    slot_at(t, slot_of(result))[GENERATION]--;
    return refuse(7);
}

/* The handle of a line that is taken against the rule; tables are left alone. */
static uint64_t next_handle(struct tables t)
{
    return free_slot(t) * 65536 + slot_at(t, free_slot(t))[GENERATION] + 1;
}

static uint64_t narrow_turns_miss_crossing(struct tables t, const uint16_t *l)
{
    uint64_t result = insert(t, l);

    return free_slot(t) < slots(t) && crossing_unseen(t, l, result, IN_30_BITS) ? next_handle(t) : result;
}

/* A line from the middle of another is taken, as if only crossing were conflict. */
static uint64_t touching_is_no_conflict(struct tables t, const uint16_t *l)
{
    uint64_t result = insert(t, l);
    const uint16_t *s;

    if (refusal(result) != 5 || free_slot(t) == slots(t))
        return result;
    s = slot_at(t, conflict_slot(result));
    if (s[Y1] != s[Y2] || l[1] != s[Y1] || l[3] == s[Y1])
        return result;
    return next_handle(t);
}

/* Delete */

static uint64_t leaves_right_label(struct tables t, uint32_t handle)
{
    struct tables c = copy_of(t);
    uint64_t result = delete_handle(t, handle);

    if (refusal(result) == 0)
        slot_at(t, slot_of(handle))[RIGHT] = slot_at(c, slot_of(handle))[RIGHT];
    return result;
}

/* The old tree stays divided and lists no more: only where the line stood alone in every leaf is it the same. */
static uint64_t leaves_old_tree(struct tables t, uint32_t handle)
{
    struct tables c = copy_of(t);
    uint64_t result = delete_handle(t, handle);
    size_t before = 0, after = 0;

    if (refusal(result) == 0 && past_block(c, 0, &before) != past_block(t, 0, &after))
        put_tree_back(t, c);
    return result;
}

static uint64_t last_generation_wraps(struct tables t, uint32_t handle)
{
    uint64_t result = delete_handle(t, handle);

    if (refusal(result) == 0 && handle % 65536 == 65535)
        slot_at(t, slot_of(handle))[GENERATION] = 0;
    return result;
}

static uint64_t leaves_old_listings(struct tables t, uint32_t handle)
{
    struct tables c = copy_of(t);
    uint64_t result = delete_handle(t, handle);
    size_t listed = 0;

    if (refusal(result) != 0)
        return result;
    past_block(t, 0, &listed);
    memcpy(t.listings + listed, c.listings + listed, (t.listings_len - listed) * sizeof *t.listings);
    return result;
}

static uint64_t takes_any_generation(struct tables t, uint32_t handle)
{
    uint64_t result = delete_handle(t, handle);
    size_t slot = slot_of(handle);

    if (refusal(result) != 8 || slot >= slots(t) || slot_at(t, slot)[LIVE] == 0)
        return result;
    return delete_handle(t, (uint32_t)slot * 65536 + slot_at(t, slot)[GENERATION]);
}

static uint64_t takes_slot_past_last(struct tables t, uint32_t handle)
{
    uint64_t result = delete_handle(t, handle);

    if (refusal(result) != 8 || slot_of(handle) != slots(t))
        return result;
    return delete_handle(t, (uint32_t)(slots(t) - 1) * 65536 + handle % 65536);
}

static uint64_t unknown_before_damage(struct tables t, uint32_t handle)
{
    uint64_t result = delete_handle(t, handle);

    return refusal(result) == 2 && slot_of(handle) >= slots(t) ? refuse(8) : result;
}

/* Locate */

static uint64_t reversed_gives_lower_label(struct tables t, struct lists s)
{
    struct tables c = copy_of(t);
    size_t i;

    for (i = 0; i < slots(c); i++) {
        uint16_t *l = slot_at(c, i), was = l[LEFT];

        if (l[LIVE] != 1 || l[X1] <= l[X2])
            continue;
        l[LEFT] = l[RIGHT];
        l[RIGHT] = was;
    }
    return locate(c, s);
}

static uint32_t upper_label(const uint16_t *l)
{
    return l[X1] < l[X2] ? l[LEFT] : l[RIGHT];
}

static uint32_t lower_label(const uint16_t *l)
{
    return l[X1] < l[X2] ? l[RIGHT] : l[LEFT];
}

static const uint16_t *east_end(const uint16_t *l)
{
    return l[X1] < l[X2] ? l + X2 : l + X1;
}

static const uint16_t *west_end(const uint16_t *l)
{
    return l[X1] < l[X2] ? l + X1 : l + X2;
}

/* Where no line passes below, one that ends straight below does. */
static void count_east_end(struct tables t, const uint16_t *point, uint32_t *found)
{
    size_t i;

    for (i = 0; i < slots(t) && *found == 0; i++) {
        const uint16_t *l = slot_at(t, i);

        if (l[LIVE] == 1 && l[X1] != l[X2] && east_end(l)[0] == point[0] && east_end(l)[1] < point[1])
            *found = upper_label(l);
    }
}

/* Of two lines with one west end straight below, the one that rises less. */
static void take_flatter(struct tables t, const uint16_t *point, uint32_t *found)
{
    size_t i, k;

    for (i = 0; i < slots(t) && is_label(*found); i++)
        for (k = 0; k < slots(t); k++) {
            const uint16_t *a = slot_at(t, i), *b = slot_at(t, k);
            const uint16_t *from = west_end(a), *to = east_end(a), *other = east_end(b);

            if (a[LIVE] != 1 || b[LIVE] != 1 || a[X1] == a[X2] || b[X1] == b[X2] || upper_label(b) != *found)
                continue;
            if (from[0] != point[0] || memcmp(from, west_end(b), 4) != 0 || from[1] >= point[1])
                continue;
            if (to[1] <= from[1] && other[1] > from[1]) {
                *found = upper_label(a);
                return;
            }
        }
}

static void take_highest_slot(struct tables t, const uint16_t *point, uint32_t *found)
{
    size_t i;

    if (is_label(*found) || *found == UINT32_MAX)
        return;
    for (i = 0; i < slots(t); i++) {
        const uint16_t *l = slot_at(t, i);

        if (l[LIVE] == 1 && (memcmp(l + X1, point, 4) == 0 || memcmp(l + X2, point, 4) == 0))
            *found = 65536 + (uint32_t)i;
    }
}

/* A line below by a turn that comes out with the other sign is not seen. */
static void narrow_turns_miss_line(struct tables t, const uint16_t *point, uint32_t *found)
{
    size_t i;

    for (i = 0; i < slots(t) && is_label(*found); i++) {
        const uint16_t *l = slot_at(t, i), *from = west_end(l), *to = east_end(l);
        const uint16_t line[8] = { 1, 1, from[0], from[1], to[0], to[1], 0, 0 };

        if (l[LIVE] == 1 && from[0] <= point[0] && point[0] < to[0] && upper_label(l) == *found
            && turn(line, point[0], point[1]) > 0 && narrow_turn(line, point, ALL_BUT_GREATEST) < 0)
            *found = 0;
    }
}

/* The node of the leaf that holds the point, and how many are listed before it. */
static size_t own_leaf(struct tables t, const uint16_t *point, size_t *listed)
{
    long x = 2 * (long)point[0] + 1, y = 2 * (long)point[1] + 1, west = 0, south = 0, half = 16384;
    size_t at = 0;
    int sons;

    for (*listed = 0; t.nodes[at] == DIVIDED; half /= 2) {
        int is_east = x > west + half, is_north = y > south + half;

        at++;
        for (sons = (is_north ? 0 : 2) + (is_east ? 1 : 0); sons > 0; sons--)
            at = past_block(t, at, listed);
        west += is_east ? half : 0;
        south += is_north ? half : 0;
    }
    return at;
}

/* A label is given only where the point's own leaf lists some line. */
static void look_in_own_leaf(struct tables t, const uint16_t *point, uint32_t *found)
{
    size_t listed;

    if (is_label(*found) && t.nodes[own_leaf(t, point, &listed)] == 0)
        *found = 0;
}

/* The side of the point on which a line counts: 1 below, -1 above, 0 neither. */
static int side_of(const uint16_t *l, const uint16_t *point)
{
    const uint16_t *from = west_end(l), *to = east_end(l);
    const uint16_t line[8] = { 1, 1, from[0], from[1], to[0], to[1], 0, 0 };
    long long t = turn(line, point[0], point[1]);

    if (l[LIVE] != 1 || point[0] < from[0] || point[0] >= to[0])
        return 0;
    return (t > 0) - (t < 0);
}

static int some_below(struct tables t, const uint16_t *point)
{
    size_t i;

    for (i = 0; i < slots(t); i++)
        if (side_of(slot_at(t, i), point) > 0)
            return 1;
    return 0;
}

static long long run_of(const uint16_t *l)
{
    return east_end(l)[0] - west_end(l)[0];
}

static long long rise_of(const uint16_t *l)
{
    return east_end(l)[1] - west_end(l)[1];
}

/* How much higher a is than b at x, times both runs. */
static long long higher_by(const uint16_t *a, const uint16_t *b, long long x)
{
    return ((long long)west_end(a)[1] * run_of(a) + (x - west_end(a)[0]) * rise_of(a)) * run_of(b)
        - ((long long)west_end(b)[1] * run_of(b) + (x - west_end(b)[0]) * rise_of(b)) * run_of(a);
}

static long long steeper_by(const uint16_t *a, const uint16_t *b)
{
    return rise_of(a) * run_of(b) - rise_of(b) * run_of(a);
}

static int lower_there(const uint16_t *a, const uint16_t *b, long long x)
{
    return higher_by(a, b, x) < 0 || (higher_by(a, b, x) == 0 && steeper_by(a, b) < 0);
}

static int lower_or_steeper(const uint16_t *a, const uint16_t *b, long long x)
{
    return higher_by(a, b, x) < 0 || (higher_by(a, b, x) == 0 && steeper_by(a, b) > 0);
}

static int begins_lower(const uint16_t *a, const uint16_t *b, long long x)
{
    return west_end(a)[1] < west_end(b)[1] || (west_end(a)[1] == west_end(b)[1] && lower_there(a, b, x));
}

/* Of the lines above the point the first by this order; NULL if there is none. */
static const uint16_t *first_above(struct tables t, const uint16_t *point,
                                   int (*before)(const uint16_t *, const uint16_t *, long long))
{
    const uint16_t *first = NULL;
    size_t i;

    for (i = 0; i < slots(t); i++) {
        const uint16_t *l = slot_at(t, i);

        if (side_of(l, point) < 0 && (first == NULL || before(l, first, point[0])))
            first = l;
    }
    return first;
}

/* The line above that answers, by this order; NULL if the point is on a line or off the grid, or some line counts below. */
static const uint16_t *answers_from_above(struct tables t, const uint16_t *point, uint32_t found,
                                          int (*before)(const uint16_t *, const uint16_t *, long long))
{
    return is_label(found) && !some_below(t, point) ? first_above(t, point, before) : NULL;
}

/* Of a line above that is drawn westward the upper label is told. */
static void upper_of_westward(struct tables t, const uint16_t *point, uint32_t *found)
{
    const uint16_t *l = answers_from_above(t, point, *found, lower_there);

    if (l != NULL && l[X1] > l[X2])
        *found = upper_label(l);
}

/* Of the lines above the one whose west end is lowest, wherever they pass the point's x. */
static void take_lowest_west_end(struct tables t, const uint16_t *point, uint32_t *found)
{
    const uint16_t *l = answers_from_above(t, point, *found, begins_lower);

    if (l != NULL)
        *found = lower_label(l);
}

/* Of two lines with one west end straight above, the one that rises more. */
static void take_steeper_above(struct tables t, const uint16_t *point, uint32_t *found)
{
    const uint16_t *l = answers_from_above(t, point, *found, lower_or_steeper);

    if (l != NULL)
        *found = lower_label(l);
}

/* Where no line counts, one that ends straight above does. */
static void count_east_end_above(struct tables t, const uint16_t *point, uint32_t *found)
{
    size_t i;

    if (!is_label(*found) || some_below(t, point) || first_above(t, point, lower_there) != NULL)
        return;
    for (i = 0; i < slots(t); i++) {
        const uint16_t *l = slot_at(t, i);

        if (l[LIVE] == 1 && l[X1] != l[X2] && east_end(l)[0] == point[0] && east_end(l)[1] > point[1])
            *found = lower_label(l);
    }
}

/* Where the label below is 0, the line above is asked. */
static void ask_above_0(struct tables t, const uint16_t *point, uint32_t *found)
{
    const uint16_t *l = first_above(t, point, lower_there);

    if (*found == 0 && l != NULL && some_below(t, point))
        *found = lower_label(l);
}

/* A line above that the point's own leaf lists answers, though it passes the point's x north of the leaf and another passes lower. */
static void take_own_leaf_above(struct tables t, const uint16_t *point, uint32_t *found)
{
    const uint16_t *first = NULL;
    size_t listed, i, at;

    if (answers_from_above(t, point, *found, lower_there) == NULL)
        return;
    at = own_leaf(t, point, &listed);
    for (i = 0; i < t.nodes[at]; i++) {
        const uint16_t *l = slot_at(t, t.listings[listed + i]);

        if (side_of(l, point) < 0 && (first == NULL || lower_there(l, first, point[0])))
            first = l;
    }
    if (first != NULL)
        *found = lower_label(first);
}

static void off_grid_is_outside(struct tables t, const uint16_t *point, uint32_t *found)
{
    (void)t;
    (void)point;
    if (*found == UINT32_MAX)
        *found = 0;
}

static uint64_t locate_with(struct tables t, struct lists s,
                            void (*spoil)(struct tables, const uint16_t *, uint32_t *))
{
    uint64_t result = locate(t, s);
    size_t i;

    for (i = 0; result == 0 && i < s.answers_len; i++)
        spoil(t, s.points + 2 * i, s.answers + i);
    return result;
}

static uint64_t east_end_counts(struct tables t, struct lists s)
{
    return locate_with(t, s, count_east_end);
}

static uint64_t flatter_line_taken(struct tables t, struct lists s)
{
    return locate_with(t, s, take_flatter);
}

static uint64_t highest_slot_on_line(struct tables t, struct lists s)
{
    return locate_with(t, s, take_highest_slot);
}

static uint64_t own_leaf_only(struct tables t, struct lists s)
{
    return locate_with(t, s, look_in_own_leaf);
}

static uint64_t westward_gives_upper_label(struct tables t, struct lists s)
{
    return locate_with(t, s, upper_of_westward);
}

static uint64_t lowest_west_end_taken(struct tables t, struct lists s)
{
    return locate_with(t, s, take_lowest_west_end);
}

static uint64_t steeper_line_taken(struct tables t, struct lists s)
{
    return locate_with(t, s, take_steeper_above);
}

static uint64_t east_end_counts_above(struct tables t, struct lists s)
{
    return locate_with(t, s, count_east_end_above);
}

static uint64_t above_asked_where_0(struct tables t, struct lists s)
{
    return locate_with(t, s, ask_above_0);
}

static uint64_t own_leaf_first(struct tables t, struct lists s)
{
    return locate_with(t, s, take_own_leaf_above);
}

static uint64_t narrow_turns_locate(struct tables t, struct lists s)
{
    return locate_with(t, s, narrow_turns_miss_line);
}

static uint64_t off_grid_answers_0(struct tables t, struct lists s)
{
    return locate_with(t, s, off_grid_is_outside);
}

static uint64_t answers_when_refused(struct tables t, struct lists s)
{
    uint64_t result = locate(t, s);

    if (refusal(result) == 2 && s.answers_len > 0)
        s.answers[s.answers_len - 1] = 0;
    return result;
}

static uint64_t rest_of_listings_unread(struct tables t, struct lists s)
{
    struct tables c = copy_of(t);
    size_t listed = 0;

    if (t.nodes_len == 0)
        return locate(t, s);
    past_block(c, 0, &listed);
    for (; listed < c.listings_len; listed++)
        c.listings[listed] = 0;
    return locate(c, s);
}

static uint64_t live_generation_unread(struct tables t, struct lists s)
{
    struct tables c = copy_of(t);
    size_t i;

    for (i = 0; i < slots(c); i++)
        if (slot_at(c, i)[LIVE] == 1 && slot_at(c, i)[GENERATION] == 0)
            slot_at(c, i)[GENERATION] = 1;
    return locate(c, s);
}

static uint64_t empty_slots_unread(struct tables t, struct lists s)
{
    struct tables c = copy_of(t);
    size_t i;

    for (i = 0; i < slots(c); i++)
        if (slot_at(c, i)[LIVE] == 0)
            memset(slot_at(c, i), 0, 8 * sizeof *c.lines);
    return locate(c, s);
}

static uint64_t one_node_too_many_taken(struct tables t, struct lists s)
{
    if (t.nodes_len == MOST_ROOM)
        t.nodes_len--;
    return locate(t, s);
}

static uint64_t odd_list_rounded(struct tables t, struct lists s)
{
    s.points_len -= s.points_len % 2;
    return locate(t, s);
}

static uint64_t damage_before_list_length(struct tables t, struct lists s)
{
    struct lists none = { s.points, s.answers, 0, 0 };

    return refusal(locate(t, none)) == 2 ? refuse(2) : locate(t, s);
}

/* Window */

enum { MOST_SLOTS = 1024 };

/* The slots of a window, of which some are to be left out or put in before they are told: the answer to a list long
 * enough, and what is told of it. */
static struct {
    uint64_t result;
    uint16_t slots[MOST_SLOTS + 1];
    size_t count;
} found;

static void find(struct tables t, struct window w)
{
    w.slots = found.slots;
    w.slots_len = MOST_SLOTS;
    found.result = window(t, w);
    found.count = refusal(found.result) == 0 ? (size_t)found.result : 0;
}

/* What was found, told as a call does. */
static uint64_t tell(struct window w)
{
    if (refusal(found.result) != 0)
        return found.result;
    if (found.count > w.slots_len)
        return refuse(10);
    memcpy(w.slots, found.slots, found.count * sizeof *w.slots);
    return found.count;
}

/* Leaves out the lines of which this holds. */
static uint64_t window_without(struct tables t, struct window w,
                               int (*left_out)(const uint16_t *, const struct window *))
{
    size_t i, kept = 0;

    find(t, w);
    for (i = 0; i < found.count; i++)
        if (!left_out(slot_at(t, found.slots[i]), &w))
            found.slots[kept++] = found.slots[i];
    found.count = kept;
    return tell(w);
}

static int is_east_of_inside(const uint16_t *l, const struct window *w)
{
    return w->west < w->east && l[X1] >= w->east && l[X2] >= w->east;
}

static uint64_t east_side_left_off(struct tables t, struct window w)
{
    return window_without(t, w, is_east_of_inside);
}

/* Three corners on one side of the line's straight line, and the fourth on it. */
static int has_one_corner(const uint16_t *l, const struct window *w)
{
    const long long turns[4] = { turn(l, w->west, w->south), turn(l, w->east, w->south), turn(l, w->west, w->north),
                                 turn(l, w->east, w->north) };
    int left = 0, right = 0, i;

    for (i = 0; i < 4; i++) {
        left += turns[i] > 0;
        right += turns[i] < 0;
    }
    return (left == 3 && right == 0) || (left == 0 && right == 3);
}

static uint64_t corner_left_off(struct tables t, struct window w)
{
    return window_without(t, w, has_one_corner);
}

static int has_no_end_inside(const uint16_t *l, const struct window *w)
{
    return !(w->west <= l[X1] && l[X1] <= w->east && w->south <= l[Y1] && l[Y1] <= w->north)
        && !(w->west <= l[X2] && l[X2] <= w->east && w->south <= l[Y2] && l[Y2] <= w->north);
}

static uint64_t lines_right_across_left_out(struct tables t, struct window w)
{
    return window_without(t, w, has_no_end_inside);
}

/* Tells the live lines of which this holds. */
static uint64_t window_with(struct tables t, struct window w, int (*taken)(const uint16_t *, const struct window *))
{
    size_t i;

    find(t, w);
    found.count = 0;
    for (i = 0; refusal(found.result) == 0 && i < slots(t); i++)
        if (slot_at(t, i)[LIVE] == 1 && taken(slot_at(t, i), &w))
            found.slots[found.count++] = (uint16_t)i;
    return tell(w);
}

static int box_meets(const uint16_t *l, const struct window *w)
{
    return (l[X1] >= w->west || l[X2] >= w->west) && (l[X1] <= w->east || l[X2] <= w->east)
        && (l[Y1] >= w->south || l[Y2] >= w->south) && (l[Y1] <= w->north || l[Y2] <= w->north);
}

static uint64_t boxes_alone(struct tables t, struct window w)
{
    return window_with(t, w, box_meets);
}

/* The line stands at half-steps 2g + 1, the rectangle at 2g. */
static int meets_half_a_step_off(const uint16_t *l, const struct window *w)
{
    const uint16_t line[8] = { 1, 1, (uint16_t)(2 * l[X1] + 1), (uint16_t)(2 * l[Y1] + 1), (uint16_t)(2 * l[X2] + 1),
                               (uint16_t)(2 * l[Y2] + 1), 0, 0 };
    const struct window r = { (uint16_t)(2 * w->west), (uint16_t)(2 * w->south), (uint16_t)(2 * w->east),
                              (uint16_t)(2 * w->north), NULL, 0 };
    const long long sw = turn(line, r.west, r.south), se = turn(line, r.east, r.south),
                    nw = turn(line, r.west, r.north), ne = turn(line, r.east, r.north);

    return box_meets(line, &r) && !(sw > 0 && se > 0 && nw > 0 && ne > 0) && !(sw < 0 && se < 0 && nw < 0 && ne < 0);
}

static uint64_t half_a_step_off(struct tables t, struct window w)
{
    return window_with(t, w, meets_half_a_step_off);
}

static int meets_by_narrow_turns(const uint16_t *l, const struct window *w)
{
    const uint16_t corners[4][2] = { { w->west, w->south }, { w->east, w->south }, { w->west, w->north },
                                     { w->east, w->north } };
    int left = 0, right = 0, i;

    for (i = 0; i < 4; i++) {
        left += narrow_turn(l, corners[i], ALL_BUT_GREATEST) > 0;
        right += narrow_turn(l, corners[i], ALL_BUT_GREATEST) < 0;
    }
    return box_meets(l, w) && left < 4 && right < 4;
}

static uint64_t narrow_turns_in_window(struct tables t, struct window w)
{
    return window_with(t, w, meets_by_narrow_turns);
}

static uint64_t one_step_too_far_north(struct tables t, struct window w)
{
    if (w.south <= w.north && w.north < LAST_GRID)
        w.north++;
    return window(t, w);
}

static uint64_t written_as_far_as_it_goes(struct tables t, struct window w)
{
    uint64_t result = window(t, w);

    if (refusal(result) != 10)
        return result;
    find(t, w);
    memcpy(w.slots, found.slots, w.slots_len * sizeof *w.slots);
    return result;
}

static uint64_t entry_after_last_cleared(struct tables t, struct window w)
{
    uint64_t result = window(t, w);

    if (refusal(result) == 0 && (size_t)result < w.slots_len)
        w.slots[result] = 0;
    return result;
}

static uint64_t inverted_turned_round(struct tables t, struct window w)
{
    uint16_t was = w.west;

    if (w.west <= w.east)
        return window(t, w);
    w.west = w.east;
    w.east = was;
    return window(t, w);
}

static uint64_t off_grid_cut_to_grid(struct tables t, struct window w)
{
    if (w.east == LAST_GRID + 1)
        w.east = LAST_GRID;
    return window(t, w);
}

static uint64_t told_falling(struct tables t, struct window w)
{
    uint64_t result = window(t, w);
    uint16_t was;

    if (refusal(result) != 0 || result < 3)
        return result;
    was = w.slots[result - 1];
    w.slots[result - 1] = w.slots[result - 2];
    w.slots[result - 2] = was;
    return result;
}

static uint64_t last_told_twice(struct tables t, struct window w)
{
    find(t, w);
    if (found.count > 2 && found.count < MOST_SLOTS) {
        found.slots[found.count] = found.slots[found.count - 1];
        found.count++;
    }
    return tell(w);
}

static uint64_t exact_list_is_short(struct tables t, struct window w)
{
    find(t, w);
    if (refusal(found.result) == 0 && found.count > 0 && found.count == w.slots_len)
        return refuse(10);
    return tell(w);
}

static uint64_t number_told_when_short(struct tables t, struct window w)
{
    uint64_t result = window(t, w);

    if (refusal(result) != 10)
        return result;
    find(t, w);
    return result + found.count;
}

static uint64_t bad_window_before_damage(struct tables t, struct window w)
{
    uint64_t result = window(t, w);

    return refusal(result) == 2 && (w.west > w.east || w.south > w.north) ? refuse(9) : result;
}

static uint64_t short_before_bad_window(struct tables t, struct window w)
{
    uint64_t result = window(t, w);

    return refusal(result) == 9 && w.slots_len == 0 ? refuse(10) : result;
}

static uint64_t rest_of_nodes_unread(struct tables t, struct window w)
{
    struct tables c = copy_of(t);
    size_t listed = 0, at;

    if (t.nodes_len == 0)
        return window(t, w);
    for (at = past_block(c, 0, &listed); at < c.nodes_len; at++)
        c.nodes[at] = 0;
    return window(c, w);
}

/* Start */

static uint64_t leaves_generations(struct tables t)
{
    struct tables c = copy_of(t);
    uint64_t result = start(t);
    size_t i;

    for (i = 0; refusal(result) == 0 && i < slots(t); i++)
        slot_at(t, i)[GENERATION] = slot_at(c, i)[GENERATION];
    return result;
}

static uint64_t leaves_last_node(struct tables t)
{
    uint16_t last = t.nodes_len > 0 ? t.nodes[t.nodes_len - 1] : 0;
    uint64_t result = start(t);

    if (refusal(result) == 0 && t.nodes_len > 1)
        t.nodes[t.nodes_len - 1] = last;
    return result;
}

/* The version: of the next patch, as if the archive were another than the header's */

static uint32_t another_version(void)
{
    return __real_boundary_map_version() + 1;
}

/* The list of them */

struct planted {
    const char *name;
    uint32_t (*version)(void);
    uint64_t (*start)(struct tables);
    uint64_t (*insert)(struct tables, const uint16_t *);
    uint64_t (*remove)(struct tables, uint32_t);
    uint64_t (*locate)(struct tables, struct lists);
    uint64_t (*window)(struct tables, struct window);
};

#define ON_START(f) __real_boundary_map_version, f, insert, delete_handle, locate, window
#define ON_INSERT(f) __real_boundary_map_version, start, f, delete_handle, locate, window
#define ON_DELETE(f) __real_boundary_map_version, start, insert, f, locate, window
#define ON_LOCATE(f) __real_boundary_map_version, start, insert, delete_handle, f, window
#define ON_WINDOW(f) __real_boundary_map_version, start, insert, delete_handle, locate, f
#define ON_VERSION(f) f, start, insert, delete_handle, locate, window

static const struct planted plants[] = {
    { "nothing", ON_VERSION(__real_boundary_map_version) },
    { "refusal 5 names the highest slot", ON_INSERT(names_highest_conflict) },
    { "refusal 5 tells the highest slot's kind with the lowest slot", ON_INSERT(kind_of_highest_conflict) },
    { "overlap and same changed over", ON_INSERT(overlap_and_same_swapped) },
    { "touching told as crossing", ON_INSERT(touching_is_crossing) },
    { "the kind left out", ON_INSERT(kind_left_out) },
    { "the same line reversed told as overlap", ON_INSERT(reversed_is_overlap) },
    { "the last leaf's count changed after insert", ON_INSERT(changes_last_leaf) },
    { "two slots of a leaf listed falling", ON_INSERT(lists_falling) },
    { "a handle given again", ON_INSERT(gives_handle_again) },
    { "refusal 7 leaves a generation raised", ON_INSERT(no_room_raises_generation) },
    { "half-open blocks", ON_INSERT(half_open_blocks) },
    { "3 before 2", ON_INSERT(off_grid_before_damage) },
    { "4 before 3", ON_INSERT(no_length_before_off_grid) },
    { "6 before 5", ON_INSERT(no_slot_before_conflict) },
    { "7 before 6", ON_INSERT(no_room_before_no_slot) },
    { "a retired slot taken again", ON_INSERT(takes_retired_slot) },
    { "a word written behind the node table", ON_INSERT(writes_past_nodes) },
    { "7 with one listing left", ON_INSERT(keeps_one_listing_back) },
    { "a line from the middle of another is taken", ON_INSERT(touching_is_no_conflict) },
    { "a crossing not seen where a turn passes 2^29", ON_INSERT(narrow_turns_miss_crossing) },
    { "a crossing told as touching where a turn is the greatest", ON_INSERT(narrow_turns_tell_kind) },
    { "delete leaves the right label", ON_DELETE(leaves_right_label) },
    { "delete leaves the old tree", ON_DELETE(leaves_old_tree) },
    { "the last generation wraps at delete", ON_DELETE(last_generation_wraps) },
    { "delete leaves old listings behind the last", ON_DELETE(leaves_old_listings) },
    { "delete takes any generation", ON_DELETE(takes_any_generation) },
    { "delete takes the slot past the last", ON_DELETE(takes_slot_past_last) },
    { "8 before 2", ON_DELETE(unknown_before_damage) },
    { "the label of the other side for lines drawn westward", ON_LOCATE(reversed_gives_lower_label) },
    { "the east end counted", ON_LOCATE(east_end_counts) },
    { "the flatter of two lines from one west end", ON_LOCATE(flatter_line_taken) },
    { "not the lowest slot where lines share an end", ON_LOCATE(highest_slot_on_line) },
    { "labels looked for in the point's own leaf only", ON_LOCATE(own_leaf_only) },
    { "the upper label of a line above that is drawn westward", ON_LOCATE(westward_gives_upper_label) },
    { "of the lines above the one that begins lowest", ON_LOCATE(lowest_west_end_taken) },
    { "the steeper of two lines from one west end above", ON_LOCATE(steeper_line_taken) },
    { "the east end counted above", ON_LOCATE(east_end_counts_above) },
    { "a line above asked where the label below is 0", ON_LOCATE(above_asked_where_0) },
    { "a line above in the point's own leaf, though another is lower", ON_LOCATE(own_leaf_first) },
    { "a line below not seen where its turn is the greatest", ON_LOCATE(narrow_turns_locate) },
    { "0 for a point off the grid", ON_LOCATE(off_grid_answers_0) },
    { "an answer written on refusal", ON_LOCATE(answers_when_refused) },
    { "garbage behind the last listing not seen", ON_LOCATE(rest_of_listings_unread) },
    { "a live slot of generation 0 held sound", ON_LOCATE(live_generation_unread) },
    { "an empty slot's leftovers not seen", ON_LOCATE(empty_slots_unread) },
    { "16,385 nodes taken", ON_LOCATE(one_node_too_many_taken) },
    { "an odd point list taken", ON_LOCATE(odd_list_rounded) },
    { "2 before 1 where a list's length is wrong", ON_LOCATE(damage_before_list_length) },
    { "a line that ends on the east side left out", ON_WINDOW(east_side_left_off) },
    { "a line that touches a corner left out", ON_WINDOW(corner_left_off) },
    { "a line right across the window left out", ON_WINDOW(lines_right_across_left_out) },
    { "a line told whose box alone meets the window", ON_WINDOW(boxes_alone) },
    { "the window one step too far north", ON_WINDOW(one_step_too_far_north) },
    { "the window half a step too far south-west", ON_WINDOW(half_a_step_off) },
    { "a window's corner on the other side where its turn is the greatest", ON_WINDOW(narrow_turns_in_window) },
    { "a list that is short filled all the same", ON_WINDOW(written_as_far_as_it_goes) },
    { "the entry after the last slot cleared", ON_WINDOW(entry_after_last_cleared) },
    { "an inverted window turned round", ON_WINDOW(inverted_turned_round) },
    { "a window to 16,384 taken", ON_WINDOW(off_grid_cut_to_grid) },
    { "two slots of a window told falling", ON_WINDOW(told_falling) },
    { "a slot of a window told twice", ON_WINDOW(last_told_twice) },
    { "a list just long enough refused", ON_WINDOW(exact_list_is_short) },
    { "the number told with refusal 10", ON_WINDOW(number_told_when_short) },
    { "9 before 2", ON_WINDOW(bad_window_before_damage) },
    { "10 before 9", ON_WINDOW(short_before_bad_window) },
    { "garbage behind the last node not seen by a window", ON_WINDOW(rest_of_nodes_unread) },
    { "start leaves the generations", ON_START(leaves_generations) },
    { "start leaves the last node", ON_START(leaves_last_node) },
    { "the version of another header", ON_VERSION(another_version) },
};

static const struct planted *planted(void)
{
    static const struct planted *chosen;
    const char *text = getenv("PLANT");
    unsigned long number = text == NULL ? 0 : strtoul(text, NULL, 10);

    if (chosen != NULL)
        return chosen;
    if (number >= sizeof plants / sizeof *plants)
        exit(77);
    chosen = &plants[number];
    printf("planted: %s\n", chosen->name);
    return chosen;
}

/* What the tests call */

uint64_t __wrap_boundary_map_start(uint16_t *lines, size_t lines_len, uint16_t *nodes, size_t nodes_len,
                                   uint16_t *listings, size_t listings_len)
{
    struct tables t = { lines, nodes, listings, lines_len, nodes_len, listings_len };

    return planted()->start(t);
}

uint64_t __wrap_boundary_map_insert(uint16_t *lines, size_t lines_len, uint16_t *nodes, size_t nodes_len,
                                    uint16_t *listings, size_t listings_len, uint16_t x1, uint16_t y1,
                                    uint16_t x2, uint16_t y2, uint16_t left, uint16_t right)
{
    struct tables t = { lines, nodes, listings, lines_len, nodes_len, listings_len };
    const uint16_t line[6] = { x1, y1, x2, y2, left, right };

    return planted()->insert(t, line);
}

uint64_t __wrap_boundary_map_delete(uint16_t *lines, size_t lines_len, uint16_t *nodes, size_t nodes_len,
                                    uint16_t *listings, size_t listings_len, uint32_t handle)
{
    struct tables t = { lines, nodes, listings, lines_len, nodes_len, listings_len };

    return planted()->remove(t, handle);
}

/* The tables come as ones not to be written; only errors that write a copy are planted here. */
uint64_t __wrap_boundary_map_locate(const uint16_t *lines, size_t lines_len, const uint16_t *nodes,
                                    size_t nodes_len, const uint16_t *listings, size_t listings_len,
                                    const uint16_t *points, size_t points_len, uint32_t *answers,
                                    size_t answers_len)
{
    struct tables t = { (uint16_t *)(uintptr_t)lines, (uint16_t *)(uintptr_t)nodes,
                        (uint16_t *)(uintptr_t)listings, lines_len, nodes_len, listings_len };
    struct lists s = { points, answers, points_len, answers_len };

    return planted()->locate(t, s);
}

uint64_t __wrap_boundary_map_window(const uint16_t *lines, size_t lines_len, const uint16_t *nodes,
                                    size_t nodes_len, const uint16_t *listings, size_t listings_len,
                                    uint16_t west, uint16_t south, uint16_t east, uint16_t north,
                                    uint16_t *to, size_t to_len)
{
    struct tables t = { (uint16_t *)(uintptr_t)lines, (uint16_t *)(uintptr_t)nodes,
                        (uint16_t *)(uintptr_t)listings, lines_len, nodes_len, listings_len };
    struct window w = { west, south, east, north, to, to_len };

    return planted()->window(t, w);
}

uint32_t __wrap_boundary_map_version(void)
{
    return planted()->version();
}
