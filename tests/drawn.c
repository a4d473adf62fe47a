/* Maps out of chance: what a host would draw and what only a test would. See parts.h. */
#include "parts.h"

#include <stdlib.h>

enum { LAST = 16383 };

/* Numbers and places */

static struct {
    int32_t x, y, side;
    int32_t reach;               /* a stroke's far end is drawn no farther off than this, as a rule */
} frame;

uint16_t on_grid(int32_t v)
{
    return (uint16_t)(v < 0 ? 0 : v > LAST ? LAST : v);
}

uint16_t off_grid(void)
{
    return (uint16_t)(LAST + 1 + (one_in(2) ? 0 : under(49152)));
}

void choose_frame(void)
{
    static const int32_t sides[] = { 3, 7, 15, 40, 150, 1000, 5000, LAST };

    frame.side = sides[under(8)];
    frame.x = between(0, LAST - frame.side);
    frame.y = between(0, LAST - frame.side);
    if (one_in(3)) {                        /* astride the corner of a large block */
        frame.x = 4096 * between(0, 4) - frame.side / 2;
        frame.y = 4096 * between(0, 4) - frame.side / 2;
    } else if (one_in(3)) {                 /* at a corner of the map */
        frame.x = one_in(2) ? 0 : LAST - frame.side;
        frame.y = one_in(2) ? 0 : LAST - frame.side;
    }
    frame.reach = one_in(3) ? frame.side : frame.side / between(3, 12) + 1;
}

void narrow_frame(int32_t side)
{
    frame.side = frame.reach = side < frame.side ? side : frame.side;
}

static void in_frame(uint16_t *x, uint16_t *y)
{
    *x = on_grid(frame.x + between(0, frame.side));
    *y = on_grid(frame.y + between(0, frame.side));
}

uint16_t any_label(void)
{
    static const uint16_t labels[] = { 0, 1, 2, 65534, 65535 };

    return one_in(4) ? labels[under(5)] : (uint16_t)chance();
}

size_t any_room(void)
{
    static const size_t rooms[] = { 60, 120, 400, 1500, 5000 };

    return one_in(2) ? PLAIN_ROOM : rooms[under(5)];
}

static size_t any_slots(void)
{
    return one_in(2) ? under(80) + 1 : under(16) + 4;
}

/* Lines that are there */

long some_line(void)
{
    size_t slots = capacity(LINES) / 8;
    int tries;

    for (tries = 0; tries < 8; tries++) {
        size_t at = 8 * (size_t)under((uint32_t)slots);

        if (peek(LINES, at) == 1)
            return (long)at;
    }
    return -1;
}

static int32_t common_measure(int32_t a, int32_t b)
{
    a = abs(a);
    b = abs(b);
    while (b != 0) {
        int32_t rest = a % b;

        a = b;
        b = rest;
    }
    return a;
}

void along_line(size_t at, int past, uint16_t *x, uint16_t *y)
{
    int32_t x1 = peek(LINES, at + 2), y1 = peek(LINES, at + 3);
    int32_t dx = peek(LINES, at + 4) - x1, dy = peek(LINES, at + 5) - y1;
    int32_t steps = common_measure(dx, dy);
    int32_t k = past ? between(-1, 2 * steps) : between(0, steps);

    if (steps == 0)
        return;
    *x = on_grid(x1 + dx / steps * k);
    *y = on_grid(y1 + dy / steps * k);
}

uint32_t live_handle(void)
{
    long at = some_line();

    if (at < 0)
        return 0;
    return (uint32_t)(at / 8) * 65536 + peek(LINES, (size_t)at + 1);
}

uint32_t false_handle(void)
{
    uint32_t slots = (uint32_t)(capacity(LINES) / 8);
    uint32_t slot = under(slots);
    uint32_t generation = peek(LINES, 8 * slot + 1);

    switch (under(8)) {
    case 0:
        return slot * 65536 + (generation + 1) % 65536;
    case 1:
        return slot * 65536 + (generation + 65535) % 65536;
    case 2:
        return slot * 65536;
    case 3:
        return (slot + 1) * 65536 + generation;
    case 4:
        return slots * 65536 + generation;
    case 5:
        return UINT32_C(65535) * 65536 + generation;
    case 6:
        return slot * 65536 + generation;        /* true, or of an empty slot */
    default:
        return (uint32_t)chance();
    }
}

/* Points to ask for */

static void near_line(size_t at, uint16_t *x, uint16_t *y)
{
    int end = one_in(2) ? 2 : 4;

    *x = peek(LINES, at + (size_t)end);
    *y = peek(LINES, at + (size_t)end + 1);
    if (one_in(2))
        along_line(at, 0, x, y);
    if (one_in(4))
        *x = on_grid(*x + between(-1, 1));
    if (one_in(2))
        *y = on_grid(*y + between(-1, 1));
    else if (one_in(2))
        *y = on_grid(*y + between(-frame.side - 1, frame.side + 1));
}

static void any_point(uint16_t *x, uint16_t *y)
{
    long at = one_in(4) ? -1 : some_line();

    in_frame(x, y);
    if (at >= 0)
        near_line((size_t)at, x, y);
    else if (one_in(4))
        *y = one_in(2) ? LAST : 0;
    if (one_in(40))
        *x = off_grid();
    if (one_in(40))
        *y = off_grid();
}

void ask_points(size_t most)
{
    uint16_t points[2 * MOST_POINTS];
    size_t i, count = under((uint32_t)most + 1);

    for (i = 0; i < count; i++)
        any_point(&points[2 * i], &points[2 * i + 1]);
    locate(points, count);
}

/* Strokes */

void turn_over(struct stroke *s)
{
    struct stroke t = *s;

    s->x1 = t.x2;
    s->y1 = t.y2;
    s->x2 = t.x1;
    s->y2 = t.y1;
    s->left = t.right;
    s->right = t.left;
}

void put_off_grid(struct stroke *s)
{
    uint16_t *const coordinates[4] = { &s->x1, &s->y1, &s->x2, &s->y2 };

    *coordinates[under(4)] = off_grid();
}

/* To do with a line that is there: from its end, from a point of it, itself, beyond it, or close beside it. */
static void draw_at_line(struct stroke *s, size_t at)
{
    size_t end = one_in(2) ? 2 : 4;

    s->x1 = peek(LINES, at + end);
    s->y1 = peek(LINES, at + end + 1);
    switch (under(8)) {
    case 0:
        along_line(at, 0, &s->x1, &s->y1);
        break;
    case 1:
        s->x2 = peek(LINES, at + 6 - end);
        s->y2 = peek(LINES, at + 7 - end);
        break;
    case 2:
        along_line(at, 1, &s->x2, &s->y2);
        break;
    case 3:
        along_line(at, 1, &s->x1, &s->y1);
        along_line(at, 1, &s->x2, &s->y2);
        break;
    case 4:
        s->x2 = on_grid(peek(LINES, at + 6 - end) + between(-1, 1));
        s->y2 = on_grid(peek(LINES, at + 7 - end) + between(-1, 1));
        break;
    case 5:
        in_frame(&s->x2, &s->y2);
        break;
    default:
        s->x2 = on_grid(s->x1 + between(-frame.reach, frame.reach));
        s->y2 = on_grid(s->y1 + between(-frame.reach, frame.reach));
        break;
    }
}

void draw_anyhow(struct stroke *s)
{
    long at = one_in(2) ? some_line() : -1;

    in_frame(&s->x1, &s->y1);
    s->x2 = on_grid(s->x1 + between(-frame.reach, frame.reach));
    s->y2 = on_grid(s->y1 + between(-frame.reach, frame.reach));
    if (one_in(8))
        s->x2 = s->x1;
    if (one_in(8))
        s->y2 = s->y1;
    if (at >= 0)
        draw_at_line(s, (size_t)at);
    s->left = any_label();
    s->right = any_label();
    if (one_in(2))
        turn_over(s);
    if (one_in(100))
        put_off_grid(s);
}

uint64_t insert_stroke(const struct stroke *s)
{
    return insert(s->x1, s->y1, s->x2, s->y2, s->left, s->right);
}

void live_on(int calls, void (*draw)(struct stroke *))
{
    struct stroke s;

    for (; calls > 0; calls--) {
        uint32_t what = under(100);

        if (what < 55) {
            draw(&s);
            insert_stroke(&s);
        } else if (what < 70) {
            delete_handle(live_handle());
        } else if (what < 75) {
            delete_handle(false_handle());
        } else if (what < 99 || !one_in(3)) {
            ask_points(16);
        } else {
            start();
        }
        if (one_in(20))
            ask_window();
    }
}

/* Fields: a net of plots with its labels, put down fence by fence in any order */

enum { MOST_ACROSS = 33 };

static struct {
    int across, up;
    uint16_t x[MOST_ACROSS][MOST_ACROSS], y[MOST_ACROSS][MOST_ACROSS];
    size_t count;
    struct stroke fence[2 * MOST_ACROSS * MOST_ACROSS];
} net;

static uint16_t plot_label(int i, int k)
{
    if (i < 0 || k < 0 || i >= net.across - 1 || k >= net.up - 1)
        return 0;
    return (uint16_t)(1 + i * net.up + k);
}

static void add_fence(int i, int k, int to_i, int to_k, uint16_t left, uint16_t right)
{
    struct stroke *s = &net.fence[net.count++];

    s->x1 = net.x[i][k];
    s->y1 = net.y[i][k];
    s->x2 = net.x[to_i][to_k];
    s->y2 = net.y[to_i][to_k];
    s->left = left;
    s->right = right;
    if (one_in(2))
        turn_over(s);
}

/* Stirred by less than a quarter of the pitch, fences of a net never cross. */
static void make_net(int across, int up, int32_t x, int32_t y, int32_t pitch, int32_t stir)
{
    int i, k;

    net.across = across;
    net.up = up;
    net.count = 0;
    for (i = 0; i < across; i++)
        for (k = 0; k < up; k++) {
            net.x[i][k] = on_grid(x + i * pitch + between(-stir, stir));
            net.y[i][k] = on_grid(y + k * pitch + between(-stir, stir));
        }
    for (i = 0; i < across; i++)
        for (k = 0; k < up; k++) {
            if (i + 1 < across)
                add_fence(i, k, i + 1, k, plot_label(i, k), plot_label(i, k - 1));
            if (k + 1 < up)
                add_fence(i, k, i, k + 1, plot_label(i - 1, k), plot_label(i, k));
        }
}

static void shuffle_net(void)
{
    size_t i;

    for (i = net.count; i > 1; i--) {
        size_t k = under((uint32_t)i);
        struct stroke s = net.fence[i - 1];

        net.fence[i - 1] = net.fence[k];
        net.fence[k] = s;
    }
}

static void draw_fence(struct stroke *s)
{
    if (one_in(4))
        draw_anyhow(s);
    else
        *s = net.fence[under((uint32_t)net.count)];
}

void part_fields(void)
{
    int across = between(2, 8), up = between(2, 7);
    int32_t widest = across > up ? across : up;
    int32_t pitch = between(1, one_in(2) ? 40 : 16384 / widest);
    size_t i;

    frame.side = (widest - 1) * pitch;
    frame.reach = pitch;
    frame.x = between(0, LAST - frame.side);
    frame.y = between(0, LAST - frame.side);
    make_net(across, up, frame.x, frame.y, pitch, pitch / 5);
    shuffle_net();
    begin(net.count + under(6), one_in(4) ? any_room() : PLAIN_ROOM, one_in(4) ? any_room() : PLAIN_ROOM);
    for (i = 0; i < net.count; i++) {
        insert_stroke(&net.fence[i]);
        if (one_in(3))
            ask_points(16);
    }
    live_on(80, draw_fence);
}

/* Fences: short ones, put up and taken down */

void part_fences(void)
{
    choose_frame();
    begin(any_slots(), any_room(), any_room());
    live_on(250, draw_anyhow);
}

/* Fans: lines from one hub, some in one direction, some a step apart at their far ends */

static uint16_t hub_x, hub_y;

static void draw_ray(struct stroke *s)
{
    if (one_in(8)) {
        draw_anyhow(s);
        return;
    }
    s->x1 = hub_x;
    s->y1 = hub_y;
    in_frame(&s->x2, &s->y2);
    if (one_in(3))
        s->x2 = on_grid(frame.x + frame.side);
    else if (one_in(3))
        s->y2 = on_grid(frame.y + frame.side);
    s->left = any_label();
    s->right = any_label();
    if (one_in(2))
        turn_over(s);
}

void part_fans(void)
{
    choose_frame();
    in_frame(&hub_x, &hub_y);
    begin(under(40) + 2, any_room(), any_room());
    live_on(120, draw_ray);
}

/* Parallels: lines a step or two apart, or nearly so */

static struct stroke first_parallel;

static void draw_parallel(struct stroke *s)
{
    *s = first_parallel;
    s->y1 = on_grid(s->y1 + between(-3, 3));
    s->y2 = on_grid(s->y2 + between(-3, 3));
    if (one_in(2)) {
        s->x1 = on_grid(s->x1 + between(-2, 2));
        s->x2 = on_grid(s->x2 + between(-2, 2));
    }
    s->left = any_label();
    s->right = any_label();
    if (one_in(2))
        turn_over(s);
}

static void draw_steep_parallel(struct stroke *s)
{
    struct stroke t;

    draw_parallel(&t);
    *s = t;
    s->x1 = t.y1;
    s->y1 = t.x1;
    s->x2 = t.y2;
    s->y2 = t.x2;
}

void part_parallels(void)
{
    int32_t length = between(1, one_in(4) ? LAST : 400);

    choose_frame();
    frame.side = frame.reach = length;
    first_parallel.x1 = (uint16_t)between(0, LAST - length);
    first_parallel.y1 = (uint16_t)between(0, LAST - length);
    first_parallel.x2 = (uint16_t)(first_parallel.x1 + length);
    first_parallel.y2 = (uint16_t)(first_parallel.y1 + between(0, one_in(2) ? 3 : length));
    frame.x = first_parallel.x1;
    frame.y = first_parallel.y1;
    begin(under(12) + 2, any_room(), any_room());
    live_on(60, one_in(2) ? draw_parallel : draw_steep_parallel);
}

/* Corners: lines through the corners of blocks, exactly or nearly, and along their sides */

static int32_t any_corner(int32_t side)
{
    return side * between(0, 32768 / side);
}

/* Ends on half-steps on both sides of a corner, so that the line runs through it. */
static int draw_through(int32_t x, int32_t y, int32_t reach, struct stroke *s)
{
    int32_t dx = 2 * between(-reach, reach) + 1, dy = one_in(3) ? dx : 2 * between(-reach, reach) + 1;
    int32_t back = 2 * between(0, 2) + 1, on = 2 * between(0, 2) + 1;
    int32_t x1 = x - back * dx, y1 = y - back * dy, x2 = x + on * dx, y2 = y + on * dy;

    if (one_in(6)) {
        y1 = y + back * dy;                  /* the other diagonal */
        y2 = y - on * dy;
    }
    if (x1 < 0 || x2 < 0 || y1 < 0 || y2 < 0 || x1 > 32768 || x2 > 32768 || y1 > 32768 || y2 > 32768)
        return 0;
    s->x1 = (uint16_t)((x1 - 1) / 2);
    s->y1 = (uint16_t)((y1 - 1) / 2);
    s->x2 = (uint16_t)((x2 - 1) / 2);
    s->y2 = (uint16_t)((y2 - 1) / 2);
    return 1;
}

static void draw_along(int32_t side, struct stroke *s)
{
    int32_t y = any_corner(side) / 2 - between(0, 1);
    struct stroke t;

    s->x1 = on_grid(any_corner(side) / 2 - between(0, 1));
    s->x2 = on_grid(any_corner(side) / 2 - between(0, 1));
    s->y1 = s->y2 = on_grid(y);
    t = *s;
    if (one_in(2)) {
        s->x1 = t.y1;
        s->y1 = t.x1;
        s->x2 = t.y2;
        s->y2 = t.x2;
    }
}

static void draw_at_corner(struct stroke *s)
{
    int32_t side = INT32_C(1) << between(one_in(3) ? 2 : 9, 15);

    draw_anyhow(s);
    if (one_in(4))
        draw_along(side, s);
    else if (!draw_through(any_corner(side), any_corner(side), one_in(2) ? 8 : side / 4, s))
        return;
    if (one_in(4))
        s->x2 = on_grid(s->x2 + between(-1, 1));
    if (one_in(4))
        s->y2 = on_grid(s->y2 + between(-1, 1));
}

void part_corners(void)
{
    choose_frame();
    begin(any_slots(), any_room(), any_room());
    live_on(120, draw_at_corner);
}

/* Rims: the least and greatest coordinates, the middle, and those just off the grid */

static uint16_t at_rim(void)
{
    static const uint16_t places[] = { 0, 16383, 0, 16383, 1, 16382, 2, 8191, 8192, 4095, 12288 };
    static const uint16_t off[] = { 16384, 16385, 32767, 32768, 65535 };

    return one_in(60) ? off[under(5)] : places[under(11)];
}

/* One step off the grid and nothing else that tells: all other bits of all coordinates are 0. */
static void draw_just_off(struct stroke *s)
{
    s->x1 = s->y1 = s->x2 = s->y2 = 0;
    *(one_in(2) ? &s->x1 : &s->y1) = (uint16_t)(one_in(2) ? LAST + 1 : 0);
    *(one_in(2) ? &s->x2 : &s->y2) = (uint16_t)(one_in(2) ? LAST + 1 : 0);
}

static void draw_at_rim(struct stroke *s)
{
    draw_anyhow(s);
    s->x1 = at_rim();
    s->y1 = at_rim();
    s->x2 = at_rim();
    s->y2 = at_rim();
    if (one_in(20)) {
        draw_just_off(s);
        return;
    }
    if (one_in(4))
        s->x1 = (uint16_t)(under(LAST) + 1);
    if (one_in(4))
        s->y2 = (uint16_t)(under(LAST) + 1);
}

void part_rims(void)
{
    choose_frame();
    frame.x = frame.y = 0;
    frame.side = LAST;
    frame.reach = between(1, LAST);
    begin(any_slots(), any_room(), any_room());
    live_on(120, draw_at_rim);
}

/* A crowd: so few places that lines touch, cross, lie on each other and share ends all the time */

void part_crowd(void)
{
    choose_frame();
    frame.side = frame.reach = between(1, 6);
    begin(under(30) + 1, PLAIN_ROOM, PLAIN_ROOM);
    live_on(200, draw_anyhow);
}

/* Deep: upright lines a step apart make long columns of smallest leaves. What a point above them is answered lies
 * under them all, and what one under them is answered above them all; or it is not there. */

/* Two poles from the same height, one step apart, sometimes with a gap in one of them. */
static void put_poles(uint16_t x, uint16_t foot, uint16_t length)
{
    uint16_t break_at = (uint16_t)(foot + between(1, length - 1));

    insert(x, foot, x, (uint16_t)(foot + length), any_label(), any_label());
    if (one_in(2)) {
        insert((uint16_t)(x + 1), foot, (uint16_t)(x + 1), (uint16_t)(foot + length), any_label(), any_label());
    } else {
        insert((uint16_t)(x + 1), foot, (uint16_t)(x + 1), break_at, any_label(), any_label());
        insert((uint16_t)(x + 1), (uint16_t)(foot + length), (uint16_t)(x + 1), (uint16_t)(break_at + 1),
               any_label(), any_label());
    }
}

static void put_floor(uint16_t x, uint16_t foot)
{
    insert(on_grid(x - between(0, 300)), on_grid(foot - between(1, 200)), on_grid(x + between(1, 300)),
           on_grid(foot - between(1, 200)), any_label(), any_label());
}

static void put_roof(uint16_t x, uint16_t head)
{
    insert(on_grid(x - between(0, 300)), on_grid(head + between(1, 200)), on_grid(x + between(1, 300)),
           on_grid(head + between(1, 200)), any_label(), any_label());
}

static void ask_above_and_below(uint16_t x, uint16_t foot, uint16_t length)
{
    uint16_t points[2 * MOST_POINTS];
    size_t i;

    for (i = 0; i < 24; i++) {
        points[2 * i] = on_grid(x + between(-1, 2));
        if (one_in(3))
            points[2 * i + 1] = on_grid(foot - between(0, one_in(2) ? 3 : 2000));
        else
            points[2 * i + 1] = on_grid(foot + length + between(-length, one_in(2) ? 3 : 2000));
    }
    locate(points, 24);
}

void part_deep(void)
{
    uint16_t x = (uint16_t)between(1, LAST - 2), foot = (uint16_t)between(0, LAST - 1200);
    uint16_t length = (uint16_t)between(30, 130), poles = (uint16_t)between(1, 4), i;

    frame.x = x - 5;
    frame.y = foot;
    frame.side = frame.reach = 10;
    begin(20, PLAIN_ROOM, PLAIN_ROOM);
    if (one_in(2))
        put_floor(x, foot);
    if (one_in(2))
        put_roof(x, (uint16_t)(foot + poles * (length + 2)));
    for (i = 0; i < poles; i++) {
        put_poles(x, (uint16_t)(foot + i * (length + 2)), length);
        ask_above_and_below(x, foot, (uint16_t)((i + 1) * (length + 2)));
    }
    if (one_in(2))
        put_floor(x, foot);
    put_roof(x, (uint16_t)(foot + poles * (length + 2)));
    ask_above_and_below(x, foot, (uint16_t)(poles * (length + 2)));
    live_on(8, draw_anyhow);
}

/* Large: nets of hundreds of fences laid down at once, and few calls on them */

void lay_stroke(size_t slot, const struct stroke *s)
{
    const uint16_t entries[8] = { 1, (uint16_t)(under(65535) + 1), s->x1, s->y1, s->x2, s->y2, s->left,
                                  s->right };
    size_t k;

    for (k = 0; k < 8; k++)
        poke(LINES, 8 * slot + k, entries[k]);
}

static void lay_all(void)
{
    size_t i;

    for (i = 0; i < net.count; i++)
        lay_stroke(i, &net.fence[i]);
}

static void lay_net(size_t slots)
{
    begin(slots, PLAIN_ROOM, PLAIN_ROOM);
    lay_all();
    if (!rebuild() || !is_sound())
        fail("a large net is not sound");
}

static void ask_large(int times)
{
    for (; times > 0; times--) {
        ask_points(MOST_POINTS);
        delete_handle(live_handle());
        ask_points(MOST_POINTS);
        insert_stroke(&net.fence[under((uint32_t)net.count)]);
        ask_window();
    }
}

static void make_large_net(int across, int up)
{
    int32_t pitch = LAST / (across > up ? across : up) - between(0, 20);

    frame.x = frame.y = 0;
    frame.side = frame.reach = LAST;
    make_net(across, up, pitch / 3, pitch / 3, pitch, pitch / 5);
}

void part_large(void)
{
    make_large_net(between(9, 32), between(9, 16));
    shuffle_net();
    lay_net(one_in(4) ? PLAIN_SLOTS : net.count + under(2));
    ask_large(4);
}

/* Full: all 1,024 slots live, by a net in the southern half of the map and fences in a row north of it */
void part_full(void)
{
    make_large_net(32, 16);
    while (net.count < PLAIN_SLOTS) {
        struct stroke *s = &net.fence[net.count];
        uint16_t x = (uint16_t)(300 * (PLAIN_SLOTS - net.count));

        s->x1 = (uint16_t)(x + 100);
        s->x2 = (uint16_t)(x + 250);
        s->y1 = s->y2 = 12000;
        s->left = s->right = any_label();
        net.count++;
    }
    shuffle_net();
    lay_net(PLAIN_SLOTS);
    insert(1, 16000, 16000, 16000, 1, 2);
    ask_whole();
    ask_large(1);
}

/* Hubs: the rays of a fan, all in one leaf, in any order. A ray laid over one of them has to be found among them all. */

static void add_ray(int32_t x, int32_t y, int32_t to_x, int32_t to_y)
{
    struct stroke *s = &net.fence[net.count++];

    s->x1 = on_grid(x);
    s->y1 = on_grid(y);
    s->x2 = on_grid(to_x);
    s->y2 = on_grid(to_y);
    s->left = any_label();
    s->right = any_label();
    if (one_in(2))
        turn_over(s);
}

/* The hub is in the middle of a block; the rays end just outside it, on all four sides. */
static void make_hub(int32_t west, int32_t south, int32_t side, int32_t apart)
{
    int32_t x = west + side / 2, y = south + side / 2, i;

    net.count = 0;
    for (i = apart; i < side; i += apart) {
        add_ray(x, y, west + i, south - 1);
        add_ray(x, y, west + i, south + side);
        add_ray(x, y, west - 1, south + i);
        add_ray(x, y, west + side, south + i);
    }
}

/* The same way as one of the rays, twice as far. */
static void add_ray_over(int32_t x, int32_t y)
{
    const struct stroke *s = &net.fence[under((uint32_t)net.count)];
    int32_t over_x = s->x1 + s->x2 - x, over_y = s->y1 + s->y2 - y;

    add_ray(x, y, 2 * over_x - x, 2 * over_y - y);
}

void part_hubs(void)
{
    int32_t side = 16 << under(3), apart = between(1, 3), last = LAST / side - 2;
    int32_t west = side * between(1, last), south = side * between(1, last);
    int laid_over = one_in(2);

    make_hub(west, south, side, apart);
    if (laid_over)
        add_ray_over(west + side / 2, south + side / 2);
    shuffle_net();
    begin(net.count + under(2), PLAIN_ROOM, PLAIN_ROOM);
    lay_all();
    if (!rebuild() || is_sound() == laid_over)
        fail("a hub is not as it was made");
    ask_points(MOST_POINTS);
    insert_stroke(&net.fence[under((uint32_t)net.count)]);
    ask_window();
    delete_handle(live_handle());
    ask_points(MOST_POINTS);
}

/* Great fans: as many rays as slots, all of them in every block on the way down to the hub. Their tree does not
 * fit; the tables say nothing of it, and the map is damaged. */
void part_great_fans(void)
{
    struct stroke s = { 0, 0, 0, 0, 1, 2 };
    uint16_t north = one_in(2) ? LAST : 0, far = (uint16_t)(LAST - north);
    size_t i;

    s.x1 = one_in(2) ? LAST : 0;
    s.y1 = north;
    begin(PLAIN_SLOTS, PLAIN_ROOM, PLAIN_ROOM);
    for (i = 0; i < PLAIN_SLOTS; i++) {
        s.x2 = (uint16_t)(i * 16);
        s.y2 = far;
        lay_stroke(i, &s);
    }
    ask_points(1);
    ask_window();
    insert(0, 8000, 1, 8000, 1, 2);
    delete_handle(live_handle());
}
