/* See plain.h. Written from documents 01 and 02 alone; shares no code with the library. */
#include "plain.h"

#include <string.h>

enum {
    ENTRIES = 8,            /* of a slot */
    LAST_GRID = 16383,
    WHOLE_SIDE = 32768,     /* half-steps */
    LEAST_SIDE = 2,
    DIVIDED = 65535,
    LAST_GENERATION = 65535
};

enum { LIVE, GENERATION, X1, Y1, X2, Y2, LEFT, RIGHT };

enum {
    DONE = 0,
    LENGTHS = 1,
    DAMAGED = 2,
    OFF_GRID = 3,
    NO_LENGTH = 4,
    CONFLICT = 5,
    NO_SLOT = 6,
    NO_ROOM = 7,
    UNKNOWN_HANDLE = 8,
    BAD_WINDOW = 9,
    LIST_SHORT = 10
};

static uint64_t answer(uint64_t refusal, uint64_t detail)
{
    return refusal * UINT64_C(4294967296) + detail;
}

/* Fractions: below a bar that is above 0. Places lie under 2^18 half-steps even for garbage off the grid, so
 * that a number above the bar stays under 2^38 and a cross product under 2^57. */

struct fraction {
    int64_t above, below;
};

static int order(int64_t a, int64_t b)
{
    return (a > b) - (a < b);
}

static int compare(struct fraction a, struct fraction b)
{
    return order(a.above * b.below, b.above * a.below);
}

static int compare_whole(struct fraction a, int64_t whole)
{
    return order(a.above, whole * a.below);
}

static int64_t least(int64_t a, int64_t b)
{
    return a < b ? a : b;
}

static int64_t most(int64_t a, int64_t b)
{
    return a > b ? a : b;
}

/* Lines */

static int same_place(struct plain_place a, struct plain_place b)
{
    return a.x == b.x && a.y == b.y;
}

static int upright(const struct plain_line *l)
{
    return l->west.x == l->east.x;
}

static int has_end(const struct plain_line *l, struct plain_place at)
{
    return same_place(l->west, at) || same_place(l->east, at);
}

/* Of a line that is not upright, at any x of its range. */
static struct fraction height(const struct plain_line *l, int64_t x)
{
    struct fraction h;

    h.below = l->east.x - l->west.x;
    h.above = l->west.y * h.below + (x - l->west.x) * (l->east.y - l->west.y);
    return h;
}

static struct plain_place on_half_steps(uint16_t x, uint16_t y)
{
    struct plain_place at;

    at.x = 2 * (int64_t)x + 1;
    at.y = 2 * (int64_t)y + 1;
    return at;
}

static struct plain_line make_line(size_t slot, uint16_t x1, uint16_t y1, uint16_t x2, uint16_t y2,
                                   uint16_t left, uint16_t right)
{
    struct plain_line l;
    struct plain_place one = on_half_steps(x1, y1), two = on_half_steps(x2, y2);
    int eastward = x1 < x2 || (x1 == x2 && y1 < y2);

    l.slot = (uint16_t)slot;
    l.west = eastward ? one : two;
    l.east = eastward ? two : one;
    l.upper = x1 < x2 ? left : right;
    l.lower = x1 < x2 ? right : left;
    return l;
}

/* The points that two lines share: none, one, or more than one; of one, how many of the two lines end there */

enum shared { NO_POINT, INSIDE_BOTH, END_OF_ONE, END_OF_BOTH, MORE_POINTS };

static int end_at(const struct plain_line *l, int64_t x, struct fraction y)
{
    return (l->west.x == x && compare_whole(y, l->west.y) == 0)
        || (l->east.x == x && compare_whole(y, l->east.y) == 0);
}

static enum shared one_point(const struct plain_line *a, const struct plain_line *b, int64_t x, struct fraction y)
{
    static const enum shared by_ends[] = { INSIDE_BOTH, END_OF_ONE, END_OF_BOTH };

    return by_ends[end_at(a, x, y) + end_at(b, x, y)];
}

static enum shared uprights_share(const struct plain_line *a, const struct plain_line *b)
{
    struct fraction touch;
    int64_t south = most(a->west.y, b->west.y);
    int64_t north = least(a->east.y, b->east.y);

    if (a->west.x != b->west.x || south > north)
        return NO_POINT;
    touch.above = south;
    touch.below = 1;
    return south < north ? MORE_POINTS : one_point(a, b, a->west.x, touch);
}

static enum shared upright_shares(const struct plain_line *pole, const struct plain_line *l)
{
    struct fraction h;
    int64_t x = pole->west.x;

    if (x < l->west.x || x > l->east.x)
        return NO_POINT;
    h = height(l, x);
    if (compare_whole(h, pole->west.y) < 0 || compare_whole(h, pole->east.y) > 0)
        return NO_POINT;
    return one_point(pole, l, x, h);
}

/* Over the x that both have, the one is above the other, or they change sides, or they meet at one border. Where
 * they change sides is between the borders, so that no line ends there. */
static enum shared slopes_share(const struct plain_line *a, const struct plain_line *b)
{
    int64_t from = most(a->west.x, b->west.x);
    int64_t to = least(a->east.x, b->east.x);
    int first, last;

    if (from > to)
        return NO_POINT;
    first = compare(height(a, from), height(b, from));
    last = compare(height(a, to), height(b, to));
    if (first != 0 && last != 0)
        return first != last ? INSIDE_BOTH : NO_POINT;
    if (first == 0 && last == 0 && from < to)
        return MORE_POINTS;
    from = first == 0 ? from : to;
    return one_point(a, b, from, height(a, from));
}

static enum shared points_shared(const struct plain_line *a, const struct plain_line *b)
{
    if (upright(a) && upright(b))
        return uprights_share(a, b);
    if (upright(a))
        return upright_shares(a, b);
    if (upright(b))
        return upright_shares(b, a);
    return slopes_share(a, b);
}

/* Conflict: a common point that is not an end of both. The kind says how; APART is no conflict. */

enum kind { APART = 0, CROSSING = 1, TOUCHING = 2, OVERLAP = 3, SAME = 4 };

static enum kind kind_of(const struct plain_line *a, const struct plain_line *b)
{
    switch (points_shared(a, b)) {
    case INSIDE_BOTH:
        return CROSSING;
    case END_OF_ONE:
        return TOUCHING;
    case MORE_POINTS:
        return same_place(a->west, b->west) && same_place(a->east, b->east) ? SAME : OVERLAP;
    default:
        return APART;
    }
}

/* Rectangles and blocks, with their sides and corners */

struct rectangle {
    int64_t west, south, east, north;
};

struct block {
    int64_t west, south, side;
};

static struct rectangle ground_of(struct block b)
{
    struct rectangle r;

    r.west = b.west;
    r.south = b.south;
    r.east = b.west + b.side;
    r.north = b.south + b.side;
    return r;
}

static int holds(struct block b, struct plain_place at)
{
    return b.west <= at.x && at.x <= b.west + b.side && b.south <= at.y && at.y <= b.south + b.side;
}

/* The line is cut to the x that it shares with the rectangle: over them its heights run without a gap from the one
 * border's to the other's, and some height is not below the south side nor above the north one. */
static int enters(const struct plain_line *l, struct rectangle r)
{
    int64_t from = most(l->west.x, r.west), to = least(l->east.x, r.east);
    struct fraction first, last;

    if (from > to || least(l->west.y, l->east.y) > r.north || most(l->west.y, l->east.y) < r.south)
        return 0;
    if (upright(l))
        return 1;
    first = height(l, from);
    last = height(l, to);
    return (compare_whole(first, r.south) >= 0 || compare_whole(last, r.south) >= 0)
        && (compare_whole(first, r.north) <= 0 || compare_whole(last, r.north) <= 0);
}

static int meets(const struct plain_line *l, struct block b)
{
    return enters(l, ground_of(b));
}

/* C1: at most one distinct end. It is handed back if there is one. */
static int at_most_one_end(const struct plain_line *list, size_t count, struct block b,
                           const struct plain_place **end)
{
    size_t i, k;

    *end = NULL;
    for (i = 0; i < count; i++)
        for (k = 0; k < 2; k++) {
            const struct plain_place *at = k == 0 ? &list[i].west : &list[i].east;

            if (!holds(b, *at))
                continue;
            if (*end != NULL && !same_place(**end, *at))
                return 0;
            *end = at;
        }
    return 1;
}

static int simple(const struct plain_line *list, size_t count, struct block b)
{
    const struct plain_place *end;
    size_t i, meeting = 0;

    if (!at_most_one_end(list, count, b, &end))
        return 0;
    for (i = 0; i < count; i++) {
        if (!meets(&list[i], b))
            continue;
        if (end != NULL && !has_end(&list[i], *end))
            return 0;                               /* C2' */
        if (end == NULL && ++meeting > 1)
            return 0;                               /* C3 */
    }
    return 1;
}

/* The tree */

struct tree {
    uint16_t nodes[PLAIN_ROOM], listings[PLAIN_ROOM];
    size_t node_count, listing_count, node_room, listing_room;
    int fits;
};

static void add_node(struct tree *t, uint16_t value, size_t *at)
{
    if (t->node_count == t->node_room) {
        t->fits = 0;
        return;
    }
    *at = t->node_count;
    t->nodes[t->node_count++] = value;
}

static void add_leaf(struct tree *t, const struct plain_line *list, size_t count, struct block b)
{
    size_t i, at = 0;
    uint16_t listed = 0;

    add_node(t, 0, &at);
    for (i = 0; i < count && t->fits; i++) {
        if (!meets(&list[i], b))
            continue;
        if (t->listing_count == t->listing_room) {
            t->fits = 0;
            return;
        }
        t->listings[t->listing_count++] = list[i].slot;
        listed++;
    }
    if (t->fits)
        t->nodes[at] = listed;
}

static void add_block(struct tree *t, const struct plain_line *list, size_t count, struct block b)
{
    struct block nw, ne, sw, se;
    size_t at;

    if (!t->fits)
        return;
    if (b.side == LEAST_SIDE || simple(list, count, b)) {
        add_leaf(t, list, count, b);
        return;
    }
    add_node(t, DIVIDED, &at);
    sw.west = b.west;
    sw.south = b.south;
    sw.side = b.side / 2;
    nw = ne = se = sw;
    nw.south += sw.side;
    ne.west += sw.side;
    ne.south += sw.side;
    se.west += sw.side;
    add_block(t, list, count, nw);
    add_block(t, list, count, ne);
    add_block(t, list, count, sw);
    add_block(t, list, count, se);
}

/* 1 if it fits into what was lent; what is not used is 0. */
static int build_tree(struct tree *t, const struct plain *p, const struct plain_line *list, size_t count)
{
    struct block whole = { 0, 0, WHOLE_SIDE };

    memset(t->nodes, 0, sizeof t->nodes);
    memset(t->listings, 0, sizeof t->listings);
    t->node_count = t->listing_count = 0;
    t->node_room = p->nodes_len;
    t->listing_room = p->listings_len;
    t->fits = 1;
    add_block(t, list, count, whole);
    return t->fits;
}

static void write_tree(const struct tree *t, struct plain *p)
{
    memcpy(p->nodes, t->nodes, p->nodes_len * sizeof *p->nodes);
    memcpy(p->listings, t->listings, p->listings_len * sizeof *p->listings);
}

static int tree_is(const struct tree *t, const struct plain *p)
{
    return memcmp(p->nodes, t->nodes, p->nodes_len * sizeof *p->nodes) == 0
        && memcmp(p->listings, t->listings, p->listings_len * sizeof *p->listings) == 0;
}

/* Slots and soundness */

static size_t slots(const struct plain *p)
{
    return p->lines_len / ENTRIES;
}

static uint16_t *slot_at(const struct plain *p, size_t slot)
{
    return p->lines + slot * ENTRIES;
}

static void read_list(struct plain *p)
{
    size_t i;

    p->count = 0;
    for (i = 0; i < slots(p); i++) {
        const uint16_t *s = slot_at(p, i);

        if (s[LIVE] != 0)
            p->list[p->count++] = make_line(i, s[X1], s[Y1], s[X2], s[Y2], s[LEFT], s[RIGHT]);
    }
}

static int off_grid(uint16_t x1, uint16_t y1, uint16_t x2, uint16_t y2)
{
    return x1 > LAST_GRID || y1 > LAST_GRID || x2 > LAST_GRID || y2 > LAST_GRID;
}

static int slot_sound(const uint16_t *s)
{
    if (s[LIVE] == 0)
        return s[X1] == 0 && s[Y1] == 0 && s[X2] == 0 && s[Y2] == 0 && s[LEFT] == 0 && s[RIGHT] == 0;
    return s[LIVE] == 1 && s[GENERATION] >= 1 && !off_grid(s[X1], s[Y1], s[X2], s[Y2])
        && (s[X1] != s[X2] || s[Y1] != s[Y2]);
}

static int slots_sound(const struct plain *p)
{
    size_t i;

    for (i = 0; i < slots(p); i++)
        if (!slot_sound(slot_at(p, i)))
            return 0;
    return 1;
}

static int conflict_free(const struct plain *p)
{
    size_t i, k;

    for (i = 0; i < p->count; i++)
        for (k = i + 1; k < p->count; k++)
            if (kind_of(&p->list[i], &p->list[k]) != APART)
                return 0;
    return 1;
}

static int tables_sound(struct plain *p)
{
    struct tree t;

    if (!slots_sound(p))
        return 0;
    read_list(p);
    return conflict_free(p) && build_tree(&t, p, p->list, p->count) && tree_is(&t, p);
}

int plain_sound(struct plain *p)
{
    if (p->verdict == PLAIN_UNASKED)
        p->verdict = tables_sound(p) ? PLAIN_SOUND : PLAIN_DAMAGED;
    return p->verdict == PLAIN_SOUND;
}

static int lengths_right(const struct plain *p)
{
    return p->lines_len % ENTRIES == 0 && slots(p) >= 1 && slots(p) <= PLAIN_SLOTS && p->nodes_len >= 1
        && p->nodes_len <= PLAIN_ROOM && p->listings_len <= PLAIN_ROOM;
}

void plain_take(struct plain *p, uint16_t *lines, size_t lines_len, uint16_t *nodes, size_t nodes_len,
                uint16_t *listings, size_t listings_len)
{
    p->lines = lines;
    p->nodes = nodes;
    p->listings = listings;
    p->lines_len = lines_len;
    p->nodes_len = nodes_len;
    p->listings_len = listings_len;
    p->count = 0;
    plain_forget(p);
}

void plain_forget(struct plain *p)
{
    p->verdict = PLAIN_UNASKED;
}

int plain_rebuild(struct plain *p)
{
    struct tree t;

    plain_forget(p);
    read_list(p);
    if (!build_tree(&t, p, p->list, p->count))
        return 0;
    write_tree(&t, p);
    return 1;
}

void plain_used(const struct plain *p, size_t *nodes, size_t *listings)
{
    size_t left = 1;

    *nodes = *listings = 0;
    for (; left > 0 && *nodes < p->nodes_len; (*nodes)++) {
        if (p->nodes[*nodes] == DIVIDED) {
            left += 3;
        } else {
            *listings += p->nodes[*nodes];
            left--;
        }
    }
}

/* Start */

uint64_t plain_start(struct plain *p)
{
    if (!lengths_right(p))
        return answer(LENGTHS, 0);
    memset(p->lines, 0, p->lines_len * sizeof *p->lines);
    memset(p->nodes, 0, p->nodes_len * sizeof *p->nodes);
    memset(p->listings, 0, p->listings_len * sizeof *p->listings);
    p->count = 0;
    p->verdict = PLAIN_SOUND;
    return answer(DONE, 0);
}

/* Insert */

/* The kind and slot of the first that conflicts, as refusal 5 tells them; 0, which is no kind, if none does. */
static uint64_t first_conflict(const struct plain *p, const struct plain_line *l)
{
    size_t i;

    for (i = 0; i < p->count; i++) {
        enum kind kind = kind_of(&p->list[i], l);

        if (kind != APART)
            return (uint64_t)kind * 65536 + p->list[i].slot;
    }
    return 0;
}

/* The lowest that is not live and not retired; the number of slots if there is none. */
static size_t free_slot(const struct plain *p)
{
    size_t i;

    for (i = 0; i < slots(p); i++)
        if (slot_at(p, i)[LIVE] == 0 && slot_at(p, i)[GENERATION] < LAST_GENERATION)
            break;
    return i;
}

/* The list with one more line, by rising slot. */
static void list_with(const struct plain *p, const struct plain_line *l, struct plain_line *longer)
{
    size_t i, before = 0;

    while (before < p->count && p->list[before].slot < l->slot)
        before++;
    for (i = 0; i < before; i++)
        longer[i] = p->list[i];
    longer[before] = *l;
    for (i = before; i < p->count; i++)
        longer[i + 1] = p->list[i];
}

static uint64_t write_slot(struct plain *p, size_t slot, const uint16_t line[6])
{
    uint16_t *s = slot_at(p, slot);

    s[LIVE] = 1;
    s[GENERATION] = (uint16_t)(s[GENERATION] + 1);
    memcpy(s + X1, line, 6 * sizeof *line);
    return (uint64_t)slot * 65536 + s[GENERATION];
}

uint64_t plain_insert(struct plain *p, uint16_t x1, uint16_t y1, uint16_t x2, uint16_t y2, uint16_t left,
                      uint16_t right)
{
    const uint16_t line[6] = { x1, y1, x2, y2, left, right };
    struct plain_line fresh, longer[PLAIN_SLOTS];
    struct tree t;
    uint64_t conflict, handle;

    if (!lengths_right(p))
        return answer(LENGTHS, 0);
    if (!plain_sound(p))
        return answer(DAMAGED, 0);
    if (off_grid(x1, y1, x2, y2))
        return answer(OFF_GRID, 0);
    if (x1 == x2 && y1 == y2)
        return answer(NO_LENGTH, 0);
    fresh = make_line(free_slot(p), x1, y1, x2, y2, left, right);
    conflict = first_conflict(p, &fresh);
    if (conflict != 0)
        return answer(CONFLICT, conflict);
    if (fresh.slot == slots(p))
        return answer(NO_SLOT, 0);
    list_with(p, &fresh, longer);
    if (!build_tree(&t, p, longer, p->count + 1))
        return answer(NO_ROOM, 0);
    handle = write_slot(p, fresh.slot, line);
    write_tree(&t, p);
    read_list(p);
    return answer(DONE, handle);
}

/* Delete */

uint64_t plain_delete(struct plain *p, uint32_t handle)
{
    size_t slot = handle / 65536;
    uint16_t generation = (uint16_t)(handle % 65536);
    uint16_t *s;

    if (!lengths_right(p))
        return answer(LENGTHS, 0);
    if (!plain_sound(p))
        return answer(DAMAGED, 0);
    if (slot >= slots(p))
        return answer(UNKNOWN_HANDLE, 0);
    s = slot_at(p, slot);
    if (s[LIVE] == 0 || s[GENERATION] != generation)
        return answer(UNKNOWN_HANDLE, 0);
    memset(s, 0, ENTRIES * sizeof *s);
    s[GENERATION] = generation;
    /* Fewer lines need no more room; were it otherwise the map would be damaged from here on, and seen. */
    if (plain_rebuild(p))
        p->verdict = PLAIN_SOUND;
    return answer(DONE, 0);
}

/* Locate */

static int on_line(const struct plain_line *l, struct plain_place at)
{
    if (at.x < l->west.x || at.x > l->east.x)
        return 0;
    if (upright(l))
        return l->west.y <= at.y && at.y <= l->east.y;
    return compare_whole(height(l, at.x), at.y) == 0;
}

static struct fraction slope(const struct plain_line *l)
{
    struct fraction f;

    f.above = l->east.y - l->west.y;
    f.below = l->east.x - l->west.x;
    return f;
}

/* Where a line passes a point: as its height there compares with the point's. */
enum side { BELOW = -1, ABOVE = 1 };

static int passes(const struct plain_line *l, struct plain_place at, enum side side)
{
    return !upright(l) && l->west.x <= at.x && at.x < l->east.x
        && compare_whole(height(l, at.x), at.y) == (int)side;
}

/* How two lines compare at this x: by their heights, and where these are equal by what comes next to the east. Lines without a
 * conflict are of equal height at a common west end alone, as no line counts at its east end. */
static int compare_lines(const struct plain_line *a, const struct plain_line *b, int64_t x)
{
    int by_height = compare(height(a, x), height(b, x));

    return by_height != 0 ? by_height : compare(slope(a), slope(b));
}

/* Of the lines that pass the point on one side the nearest: the highest of those below, the lowest of those above. */
static const struct plain_line *nearest(const struct plain *p, struct plain_place at, enum side side)
{
    const struct plain_line *best = NULL;
    size_t i;

    for (i = 0; i < p->count; i++)
        if (passes(&p->list[i], at, side) && (best == NULL || compare_lines(best, &p->list[i], at.x) == (int)side))
            best = &p->list[i];
    return best;
}

static uint32_t locate_one(const struct plain *p, uint16_t x, uint16_t y)
{
    struct plain_place at = on_half_steps(x, y);
    const struct plain_line *below, *above;
    size_t i;

    if (off_grid(x, y, 0, 0))
        return UINT32_C(4294967295);
    for (i = 0; i < p->count; i++)
        if (on_line(&p->list[i], at))
            return 65536 + (uint32_t)p->list[i].slot;
    below = nearest(p, at, BELOW);
    if (below != NULL)
        return below->upper;
    above = nearest(p, at, ABOVE);
    return above != NULL ? above->lower : 0;
}

uint64_t plain_locate(struct plain *p, const uint16_t *points, size_t points_len, uint32_t *answers,
                      size_t answers_len)
{
    size_t i;

    if (!lengths_right(p) || points_len % 2 != 0 || answers_len != points_len / 2)
        return answer(LENGTHS, 0);
    if (!plain_sound(p))
        return answer(DAMAGED, 0);
    for (i = 0; i < answers_len; i++)
        answers[i] = locate_one(p, points[2 * i], points[2 * i + 1]);
    return answer(DONE, 0);
}

/* Window */

static struct rectangle on_ground(uint16_t west, uint16_t south, uint16_t east, uint16_t north)
{
    struct plain_place low = on_half_steps(west, south), high = on_half_steps(east, north);
    struct rectangle r;

    r.west = low.x;
    r.south = low.y;
    r.east = high.x;
    r.north = high.y;
    return r;
}

/* The slots of the lines that enter it, as the list has them: rising. */
static size_t slots_within(const struct plain *p, struct rectangle r, uint16_t *found)
{
    size_t i, count = 0;

    for (i = 0; i < p->count; i++)
        if (enters(&p->list[i], r))
            found[count++] = p->list[i].slot;
    return count;
}

uint64_t plain_window(struct plain *p, uint16_t west, uint16_t south, uint16_t east, uint16_t north,
                      uint16_t *to, size_t to_len)
{
    uint16_t found[PLAIN_SLOTS];
    size_t count;

    if (!lengths_right(p))
        return answer(LENGTHS, 0);
    if (!plain_sound(p))
        return answer(DAMAGED, 0);
    if (off_grid(west, south, east, north) || west > east || south > north)
        return answer(BAD_WINDOW, 0);
    count = slots_within(p, on_ground(west, south, east, north), found);
    if (count > to_len)
        return answer(LIST_SHORT, 0);
    if (count > 0)
        memcpy(to, found, count * sizeof *to);
    return answer(DONE, count);
}
