/* The ends of the range: coordinates 0, 1, 16,382 and 16,383 and no other, where turns are greatest and least. See parts.h. */
#include "parts.h"

#include <stdio.h>

enum { LAST = 16383, DIVIDED = 65535, SMALLEST = 14, NO_LENGTH = 4, CONFLICT = 5 };

/* Of three grid points in half-steps, (bx-ax)(cy-ay) - (by-ay)(cx-ax) is 32,766 x 32,766 at most, and 4 at least or 0. */
enum { GREATEST = 1073610756, LEAST = 4 };

/* A live line and a third point: an end of a line given, a point asked, a corner of a window. */
enum { OF_LINES, OF_POINTS, OF_WINDOWS, THIRDS };
/* To the left or the right of it by the greatest turn; by none, on it or beyond its ends; of a line all across the map, by the
 * least. */
enum { FAR_LEFT, FAR_RIGHT, ON_IT, BEYOND, NEAR_LEFT, NEAR_RIGHT, TURNED };

static struct {
    uint64_t turned[THIRDS][TURNED];
    uint64_t smallest;                   /* trees down to the smallest blocks */
} seen;

/* What was seen, by arithmetic of its own */

static int64_t turn(const struct stroke *s, uint16_t x, uint16_t y)
{
    return 4 * ((int64_t)(s->x2 - s->x1) * (y - s->y1) - (int64_t)(s->y2 - s->y1) * (x - s->x1));
}

static int is_short(const struct stroke *s)
{
    return (s->x1 < LAST / 2) == (s->x2 < LAST / 2) && (s->y1 < LAST / 2) == (s->y2 < LAST / 2);
}

static void note(uint64_t turned[TURNED], const struct stroke *live, uint16_t x, uint16_t y)
{
    int64_t t = turn(live, x, y);

    turned[FAR_LEFT] += t == GREATEST;
    turned[FAR_RIGHT] += t == -GREATEST;
    turned[ON_IT] += t == 0 && lies_on(x, y, live);
    turned[BEYOND] += t == 0 && !lies_on(x, y, live);
    turned[NEAR_LEFT] += t == LEAST && !is_short(live);
    turned[NEAR_RIGHT] += t == -LEAST && !is_short(live);
}

/* An insert looks at the live lines up to the first in its way, and its own slot was free before. */
static void note_insert(const struct stroke *given, uint64_t result)
{
    size_t at, end = result >> 32 == CONFLICT ? 8 * ((size_t)result % 65536 + 1) : said(LINES);
    size_t own = result >> 32 == 0 ? 8 * ((size_t)result / 65536) : said(LINES);

    for (at = 0; at < end; at += 8) {
        struct stroke live = stroke_at(at);

        if (peek(LINES, at) != 1 || at == own || result >> 32 == NO_LENGTH)
            continue;
        note(seen.turned[OF_LINES], &live, given->x1, given->y1);
        note(seen.turned[OF_LINES], &live, given->x2, given->y2);
    }
}

static int holds(uint16_t a, uint16_t n, uint16_t b)
{
    return (a <= n && n <= b) || (b <= n && n <= a);
}

/* A line is asked for its turn where its x range holds the point. */
static void note_point(uint16_t x, uint16_t y)
{
    size_t at;

    for (at = 0; at < said(LINES); at += 8) {
        struct stroke live = stroke_at(at);

        if (peek(LINES, at) == 1 && holds(live.x1, x, live.x2))
            note(seen.turned[OF_POINTS], &live, x, y);
    }
}

static int overlap(uint16_t a, uint16_t b, uint16_t low, uint16_t high)
{
    return (a >= low || b >= low) && (a <= high || b <= high);
}

/* And for those of a window's corners where its box meets the window. */
static void note_window(uint16_t west, uint16_t south, uint16_t east, uint16_t north)
{
    size_t at;

    for (at = 0; at < said(LINES); at += 8) {
        struct stroke live = stroke_at(at);

        if (peek(LINES, at) != 1 || !overlap(live.x1, live.x2, west, east) || !overlap(live.y1, live.y2, south, north))
            continue;
        note(seen.turned[OF_WINDOWS], &live, west, south);
        note(seen.turned[OF_WINDOWS], &live, east, south);
        note(seen.turned[OF_WINDOWS], &live, west, north);
        note(seen.turned[OF_WINDOWS], &live, east, north);
    }
}

/* The tree goes down to the smallest blocks if some block is the 14th son of a son. */
static void note_tree(void)
{
    uint32_t left[SMALLEST + 1] = { 1 };
    size_t at = 0, level = 0;

    while (level < SMALLEST && (level > 0 || left[0] > 0)) {
        if (left[level] == 0) {
            level--;
            continue;
        }
        left[level]--;
        if (peek(NODES, at++) == DIVIDED)
            left[++level] = 4;
    }
    seen.smallest += level == SMALLEST;
}

/* Drawing */

static uint16_t bound(void)
{
    static const uint16_t places[] = { 0, 1, LAST - 1, LAST };

    return places[under(4)];
}

static uint16_t nearest_end(uint16_t v)
{
    return v < LAST / 2 ? 0 : LAST;
}

/* A side of the grid or a diagonal. */
static void draw_from_corners(struct stroke *s)
{
    s->x1 = nearest_end(s->x1);
    s->y1 = nearest_end(s->y1);
    s->x2 = nearest_end(s->x2);
    s->y2 = nearest_end(s->y2);
}

/* From a corner to a step beside the opposite one: the next point that is a step from the corner both ways lies off the line
 * by the least. */
static void draw_slant(struct stroke *s)
{
    draw_from_corners(s);
    s->x2 = (uint16_t)(LAST - s->x1);
    s->y2 = (uint16_t)(LAST - s->y1);
    if (one_in(2))
        s->x2 ^= 1;
    else
        s->y2 ^= 1;
}

/* An end a step both ways from an end of a live line. */
static void draw_beside(struct stroke *s)
{
    long at = some_line();
    size_t end = one_in(2) ? 2 : 4;

    if (at < 0)
        return;
    s->x1 = peek(LINES, (size_t)at + end) ^ 1;
    s->y1 = peek(LINES, (size_t)at + end + 1) ^ 1;
}

/* Both ends at one corner. */
static void draw_short(struct stroke *s)
{
    s->x2 = (uint16_t)(s->x1 ^ under(2));
    s->y2 = (uint16_t)(s->y1 ^ under(2));
}

static void draw_bound(struct stroke *s)
{
    uint32_t how = under(8);

    s->x1 = bound();
    s->y1 = bound();
    s->x2 = bound();
    s->y2 = bound();
    if (how == 0)
        draw_from_corners(s);
    else if (how == 1)
        draw_slant(s);
    else if (how < 4)
        draw_beside(s);
    else if (how < 6)
        draw_short(s);
    s->left = any_label();
    s->right = any_label();
    if (one_in(2))
        turn_over(s);
}

/* Asking */

static void insert_bound(void)
{
    struct stroke s;
    uint64_t result;

    draw_bound(&s);
    result = insert_stroke(&s);
    note_insert(&s, result);
    if (result >> 32 == 0)
        note_tree();
}

/* Points and corners of windows are drawn as a line's ends are. */
static void ask_points_at_bounds(void)
{
    enum { PAIRS = 10 };
    uint16_t points[4 * PAIRS];
    struct stroke s;
    size_t i;

    for (i = 0; i < 4 * PAIRS; i += 4) {
        draw_bound(&s);
        points[i] = s.x1;
        points[i + 1] = s.y1;
        points[i + 2] = s.x2;
        points[i + 3] = s.y2;
        note_point(s.x1, s.y1);
        note_point(s.x2, s.y2);
    }
    locate(points, 2 * PAIRS);
}

static void ask_window_at_bounds(void)
{
    struct stroke s;
    uint16_t west, south, east, north;

    draw_bound(&s);
    west = s.x1 < s.x2 ? s.x1 : s.x2;
    south = s.y1 < s.y2 ? s.y1 : s.y2;
    east = (uint16_t)(s.x1 + s.x2 - west);
    north = (uint16_t)(s.y1 + s.y2 - south);
    note_window(west, south, east, north);
    window(west, south, east, north, one_in(4) ? under(4) : said(LINES) / 8);
}

static void ask_all(int calls)
{
    for (; calls > 0; calls--) {
        uint32_t what = under(8);

        if (what < 4)
            insert_bound();
        else if (what < 5)
            ask_points_at_bounds();
        else if (what < 7)
            ask_window_at_bounds();
        else
            delete_handle(live_handle());
    }
}

/* Bounds: the coordinates at both ends of the range, on maps of a line or two and on ones with as many as fit */
void part_bounds(void)
{
    int maps;

    for (maps = 0; maps < 20; maps++) {
        begin(under(2) + 1, any_room(), any_room());
        insert_bound();
        ask_all(8);
    }
    begin(under(60) + 4, PLAIN_ROOM, PLAIN_ROOM);
    ask_all(100);
}

/* Report */

int report_bounds(void)
{
    static const char *const names[THIRDS] = { "ends of a line given", "points", "corners of a window" };
    int i, none = seen.smallest == 0;

    for (i = 0; i < THIRDS; i++) {
        const uint64_t *t = seen.turned[i];

        printf("differential: bounds: %s to a live line: left by the greatest turn %llu, right %llu; by none, on it %llu, "
               "beyond it %llu; by the least, left %llu, right %llu\n",
               names[i], (unsigned long long)t[FAR_LEFT], (unsigned long long)t[FAR_RIGHT], (unsigned long long)t[ON_IT],
               (unsigned long long)t[BEYOND], (unsigned long long)t[NEAR_LEFT], (unsigned long long)t[NEAR_RIGHT]);
        none += none_of(t, TURNED);
    }
    printf("differential: bounds: trees down to the smallest blocks %llu\n", (unsigned long long)seen.smallest);
    return none;
}
