/* Windows: drawn at the lines of any map, so that sides and corners touch them or miss them by a step, with lists of
 * every length. See parts.h. */
#include "parts.h"

#include <stdio.h>

enum { LAST = 16383, BAD_WINDOW = 9, LIST_SHORT = 10 };

struct view {
    uint16_t west, south, east, north;
};

static struct {
    uint64_t answers[REFUSALS];          /* of windows alone, by refusal */
    uint64_t exact, longer, none;        /* done with a list of just so many lines, with a longer one, with no line */
    uint64_t on_point, beside_point;     /* one point: a line through it; none, though one passes a step beside it */
    uint64_t on_segment;                 /* of no width or no height: a line through it */
    uint64_t corners[4];                 /* a line's middle has but this corner: south-west, -east, north-west, -east */
    uint64_t sides[4];                   /* a line has but an end of it on this side: west, south, east, north */
} seen;

/* Drawing */

static uint16_t lower(uint16_t a, uint16_t b)
{
    return a < b ? a : b;
}

static uint16_t upper(uint16_t a, uint16_t b)
{
    return a > b ? a : b;
}

struct stroke stroke_at(size_t at)
{
    struct stroke s;

    s.x1 = peek(LINES, at + 2);
    s.y1 = peek(LINES, at + 3);
    s.x2 = peek(LINES, at + 4);
    s.y2 = peek(LINES, at + 5);
    s.left = peek(LINES, at + 6);
    s.right = peek(LINES, at + 7);
    return s;
}

/* The ground between two places, whichever is the more western and southern. */
static void span(struct view *v, uint16_t x, uint16_t y, uint16_t to_x, uint16_t to_y)
{
    v->west = lower(x, to_x);
    v->east = upper(x, to_x);
    v->south = lower(y, to_y);
    v->north = upper(y, to_y);
}

static void draw_whole(struct view *v)
{
    span(v, 0, 0, LAST, LAST);
}

static void draw_box(struct view *v)
{
    struct stroke s;

    draw_anyhow(&s);
    span(v, s.x1, s.y1, s.x2, s.y2);
}

/* An end of the line, or a grid point of its middle if it has one. */
static void point_of_line(size_t at, uint16_t *x, uint16_t *y)
{
    size_t end = one_in(2) ? 2 : 4;

    *x = peek(LINES, at + end);
    *y = peek(LINES, at + end + 1);
    if (one_in(2))
        along_line(at, 0, x, y);
}

/* How far a side is from a point: none, a step or two, or anything. */
static int32_t some_way(void)
{
    return one_in(5) ? 0 : between(0, one_in(2) ? 3 : one_in(2) ? 60 : LAST);
}

static int32_t either_way(void)
{
    int32_t way = some_way();

    return one_in(2) ? way : -way;
}

static void draw_point(struct view *v, size_t at)
{
    uint16_t x, y;

    point_of_line(at, &x, &y);
    span(v, x, y, x, y);
}

/* One corner at a point of the line, the rectangle on any side of it; of no width or height, it may be a segment. */
static void draw_corner(struct view *v, size_t at)
{
    uint16_t x, y;

    point_of_line(at, &x, &y);
    span(v, x, y, on_grid(x + either_way()), on_grid(y + either_way()));
}

static int is_end(uint16_t x, uint16_t y, const struct stroke *s)
{
    return (x == s->x1 && y == s->y1) || (x == s->x2 && y == s->y2);
}

/* Above 0 for a line that rises to the east, below 0 for one that falls. */
static int32_t slope_of(const struct stroke *s)
{
    return (s->x2 - s->x1) * (s->y2 - s->y1);
}

/* One corner at a point of the line's middle, the rectangle all on one side of it: chance makes too few of these. */
static void draw_touching(struct view *v, size_t at)
{
    struct stroke s = stroke_at(at);
    uint16_t x = s.x1, y = s.y1;
    int32_t tries, across = 1 + some_way(), up = 1 + some_way();

    for (tries = 0; tries < 6 && is_end(x, y, &s); tries++)
        along_line(at, 0, &x, &y);
    up = slope_of(&s) > 0 ? -up : up;
    if (one_in(2))
        span(v, x, y, on_grid(x + across), on_grid(y + up));
    else
        span(v, x, y, on_grid(x - across), on_grid(y - up));
}

/* One side through a point of the line. */
static void draw_side(struct view *v, size_t at)
{
    uint16_t x, y;
    int32_t low = some_way(), high = some_way(), deep = either_way();

    point_of_line(at, &x, &y);
    if (one_in(2))
        span(v, on_grid(x - low), y, on_grid(x + high), on_grid(y + deep));
    else
        span(v, x, on_grid(y - low), on_grid(x + deep), on_grid(y + high));
}

/* From rim to rim, no wider than a step or two. */
static void draw_thin(struct view *v, size_t at)
{
    uint16_t x, y;

    point_of_line(at, &x, &y);
    if (one_in(2))
        span(v, 0, y, LAST, on_grid(y + between(0, 2)));
    else
        span(v, x, 0, on_grid(x + between(0, 2)), LAST);
}

static void (*const drawn_at_line[])(struct view *, size_t) = { draw_point, draw_corner, draw_touching, draw_touching,
                                                                draw_side, draw_thin };

/* The whole rectangle moved by a step, so that it just misses what it touched. */
static void move(struct view *v)
{
    int32_t x = between(-1, 1), y = between(-1, 1);

    span(v, on_grid(v->west + x), on_grid(v->south + y), on_grid(v->east + x), on_grid(v->north + y));
}

static void invert(struct view *v)
{
    uint16_t was = v->west;

    if (one_in(2)) {
        v->west = (uint16_t)(v->east + (v->west == v->east));
        v->east = was;
    } else {
        was = v->south;
        v->south = (uint16_t)(v->north + (v->south == v->north));
        v->north = was;
    }
}

static void put_view_off_grid(struct view *v)
{
    uint16_t *const coordinates[4] = { &v->west, &v->south, &v->east, &v->north };

    *coordinates[under(4)] = one_in(4) ? 65535 : off_grid();
    if (one_in(4))
        v->east = v->north = off_grid();
}

static void make_wrong(struct view *v)
{
    if (!one_in(3))
        invert(v);
    if (one_in(2))
        put_view_off_grid(v);
}

static void draw_view(struct view *v, long at)
{
    if (at < 0 || one_in(4))
        draw_box(v);
    else
        drawn_at_line[under(6)](v, (size_t)at);
    if (one_in(12))
        draw_whole(v);
    if (one_in(3))
        move(v);
    if (one_in(10))
        make_wrong(v);
}

/* What was seen */

static int is_point(const struct view *v)
{
    return v->west == v->east && v->south == v->north;
}

static int is_segment(const struct view *v)
{
    return (v->west == v->east) != (v->south == v->north);
}

/* A rising line has but the corner in the north-west or the south-east, a falling one in the other two. */
static void note_corners(const struct view *v, const struct stroke *s)
{
    const uint16_t x[4] = { v->west, v->east, v->west, v->east }, y[4] = { v->south, v->south, v->north, v->north };
    int32_t slope = slope_of(s), i;

    if (slope == 0 || v->west == v->east || v->south == v->north)
        return;
    for (i = 0; i < 4; i++)
        if ((slope > 0) == (i == 1 || i == 2) && lies_on(x[i], y[i], s) && !is_end(x[i], y[i], s))
            seen.corners[i]++;
}

/* An end on a side, not at a corner, and the line goes off from there: it has no other point of the rectangle. */
static void note_end(const struct view *v, uint16_t x, uint16_t y, uint16_t far_x, uint16_t far_y)
{
    const int across = v->west < x && x < v->east, up = v->south < y && y < v->north;

    seen.sides[0] += up && x == v->west && far_x < x;
    seen.sides[1] += across && y == v->south && far_y < y;
    seen.sides[2] += up && x == v->east && far_x > x;
    seen.sides[3] += across && y == v->north && far_y > y;
}

static void note(const struct view *v, long at, size_t count)
{
    struct stroke s;
    int told = at >= 0 && window_told((uint16_t)(at / 8), count);

    seen.on_point += is_point(v) && count > 0;
    seen.beside_point += is_point(v) && at >= 0 && !told;
    seen.on_segment += is_segment(v) && count > 0;
    if (!told)
        return;
    s = stroke_at((size_t)at);
    note_corners(v, &s);
    note_end(v, s.x1, s.y1, s.x2, s.y2);
    note_end(v, s.x2, s.y2, s.x1, s.y1);
}

/* Asking */

static uint64_t ask(const struct view *v, size_t length)
{
    uint64_t result = window(v->west, v->south, v->east, v->north, length);

    seen.answers[result >> 32]++;
    return result;
}

/* A list of just so many, of one fewer, of some more, or any. */
static size_t length_beside(size_t count)
{
    switch (under(5)) {
    case 0:
        return count;
    case 1:
        return count > 0 ? count - 1 : 0;
    case 2:
        return count + 1 + under(3);
    case 3:
        return 0;
    default:
        return under(PLAIN_SLOTS + 8);
    }
}

static void ask_with_lengths(const struct view *v, size_t count)
{
    size_t length = length_beside(count);
    uint64_t again = ask(v, length);

    if (again >> 32 != (length < count ? LIST_SHORT : 0))
        fail("a list long enough is refused, or one that is short is not");
    seen.exact += count > 0 && length == count;
    seen.longer += count > 0 && length > count;
    seen.none += count == 0;
}

/* Any two calls on one map tell one number: the second is asked with a list of about that length. */
static void ask_view(const struct view *v, long at)
{
    uint64_t result = ask(v, one_in(2) ? PLAIN_SLOTS : said(LINES) / 8);

    if (result >> 32 != 0) {
        ask(v, 0);
        return;
    }
    note(v, at, (size_t)result);
    ask_with_lengths(v, (size_t)result);
}

void ask_window(void)
{
    struct view v;
    long at = some_line();

    draw_view(&v, at);
    ask_view(&v, at);
}

void ask_whole(void)
{
    struct view v;

    draw_whole(&v);
    ask_view(&v, some_line());
}

void ask_wrong_window(void)
{
    struct view v;

    draw_view(&v, some_line());
    if (!one_in(4))
        make_wrong(&v);
    ask(&v, one_in(2) ? 0 : under(4));
}

/* Windows: few places, and lines with grid points in their middle, so that corners fall on them */

static void draw_with_middle(struct stroke *s)
{
    draw_anyhow(s);
    if (one_in(2)) {
        s->x2 = (uint16_t)(s->x2 ^ ((s->x1 ^ s->x2) & 1));
        s->y2 = (uint16_t)(s->y2 ^ ((s->y1 ^ s->y2) & 1));
    }
}

static void ask_corner(void)
{
    struct view v;
    long at = some_line();

    if (at < 0)
        return;
    draw_touching(&v, (size_t)at);
    ask_view(&v, at);
}

static void ask_point(void)
{
    long at = some_line();
    uint16_t point[2];
    uint64_t result;

    if (at < 0)
        return;
    point_of_line((size_t)at, &point[0], &point[1]);
    result = window(point[0], point[1], point[0], point[1], PLAIN_SLOTS);
    if (result >> 32 != 0 || !window_told((uint16_t)(at / 8), (size_t)result))
        fail("a point of a line, and the window of the point does not tell the line");
    locate(point, 1);
}

void part_windows(void)
{
    struct stroke s;
    int times;

    choose_frame();
    if (one_in(2))
        narrow_frame(between(4, 30));
    begin(under(24) + 1, PLAIN_ROOM, PLAIN_ROOM);
    for (times = 0; times < 40; times++) {
        draw_with_middle(&s);
        insert_stroke(&s);
        ask_window();
        ask_corner();
        if (one_in(4))
            ask_point();
        if (one_in(8))
            delete_handle(live_handle());
    }
    ask_whole();
}

/* Report */

int report_windows(void)
{
    const uint64_t *a = seen.answers, *c = seen.corners, *s = seen.sides;

    printf("differential: windows: done %llu, refused with 1 %llu, 2 %llu, 9 %llu, 10 %llu\n",
           (unsigned long long)a[0], (unsigned long long)a[1], (unsigned long long)a[2],
           (unsigned long long)a[BAD_WINDOW], (unsigned long long)a[LIST_SHORT]);
    printf("differential: windows done with a list of just so many %llu, longer %llu, with no line %llu; a point on a "
           "line %llu, a point beside one %llu, a segment with a line %llu\n",
           (unsigned long long)seen.exact, (unsigned long long)seen.longer, (unsigned long long)seen.none,
           (unsigned long long)seen.on_point, (unsigned long long)seen.beside_point,
           (unsigned long long)seen.on_segment);
    printf("differential: windows with but a corner on a line: south-west %llu, south-east %llu, north-west %llu, "
           "north-east %llu; with but a line's end on a side: west %llu, south %llu, east %llu, north %llu\n",
           (unsigned long long)c[0], (unsigned long long)c[1], (unsigned long long)c[2], (unsigned long long)c[3],
           (unsigned long long)s[0], (unsigned long long)s[1], (unsigned long long)s[2], (unsigned long long)s[3]);
    return none_of(a, 3) + none_of(a + BAD_WINDOW, 2) + none_of(&seen.exact, 1) + none_of(&seen.longer, 1)
        + none_of(&seen.none, 1) + none_of(&seen.on_point, 1) + none_of(&seen.beside_point, 1)
        + none_of(&seen.on_segment, 1) + none_of(c, 4) + none_of(s, 4);
}
