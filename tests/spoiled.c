/* Handles, lengths and room, and tables that hold anything at all. See parts.h. */
#include "parts.h"

#include <string.h>

enum { DIVIDED = 65535 };

/* A small map to spoil: a few lines, some slots used before, some emptied again. */
static void some_map(size_t slots, size_t nodes_len, size_t listings_len)
{
    static const uint16_t generations[] = { 0, 1, 7, 65533, 65534, 65535 };
    size_t i;

    choose_frame();
    begin(slots, nodes_len, listings_len);
    for (i = 0; i < slots; i++)
        poke(LINES, 8 * i + 1, generations[under(6)]);
    live_on((int)(2 * slots), draw_anyhow);
}

/* One call of each kind that asks for a sound map; a map that is still sound is changed by them. */
static void ask_all(void)
{
    struct stroke s;

    draw_anyhow(&s);
    ask_points(4);
    if (one_in(3))
        ask_window();
    insert_stroke(&s);
    delete_handle(one_in(3) ? false_handle() : live_handle());
}

/* Handles */

enum { MOST_OLD = 64 };

static uint32_t old_handles[MOST_OLD];
static size_t old_count;

static void note_handle(uint64_t result)
{
    if (result >> 32 == 0)
        old_handles[old_count++ % MOST_OLD] = (uint32_t)result;
}

static uint32_t old_handle(void)
{
    size_t kept = old_count < MOST_OLD ? old_count : MOST_OLD;

    return kept == 0 ? 0 : old_handles[under((uint32_t)kept)];
}

/* Lines that do not touch one another, so that slots come and go quickly. */
static void insert_apart(void)
{
    uint16_t y = (uint16_t)(1000 * under(16));
    uint16_t x1 = one_in(2) ? 100 : 15000;

    note_handle(insert(x1, y, (uint16_t)(15100 - x1), y, any_label(), any_label()));
}

void part_handles(void)
{
    int calls;

    old_count = 0;
    some_map(under(5) + 1, PLAIN_ROOM, PLAIN_ROOM);
    for (calls = 0; calls < 120; calls++) {
        uint32_t what = under(20);

        if (what < 9)
            insert_apart();
        else if (what < 12)
            delete_handle(live_handle());
        else if (what < 15)
            delete_handle(old_handle());
        else if (what < 19)
            delete_handle(false_handle());
        else if (one_in(4))
            start();                            /* old handles may be given again after it */
        else if (one_in(4))
            ask_window();
        else
            ask_points(4);
    }
}

/* Garbage */

static uint16_t garbage_for(int table, size_t at)
{
    static const uint16_t odd_values[] = { 0, 1, 2, 3, 4, 255, 256, 1023, 1024, 16383, 16384, 65534, 65535 };
    uint16_t now = peek(table, at);

    switch (under(6)) {
    case 0:
        return (uint16_t)(now + 1);
    case 1:
        return (uint16_t)(now - 1);
    case 2:
        return (uint16_t)(now ^ (1u << under(16)));
    case 3:
        return peek(table, under((uint32_t)capacity(table)));
    case 4:
        return (uint16_t)chance();
    default:
        return odd_values[under(13)];
    }
}

/* Where it may tell: mostly among the entries used, or just behind them, or the last. */
static size_t garbage_place(int table, size_t in_use)
{
    size_t length = said(table);

    if (one_in(10))
        return length - 1;
    if (one_in(10) || in_use + 2 > length)
        return under((uint32_t)length);
    return under((uint32_t)in_use + 2);
}

static void spoil_one(int table, size_t in_use)
{
    size_t at = garbage_place(table, in_use);
    size_t other = garbage_place(table, in_use);
    uint16_t was = peek(table, at);

    if (one_in(6)) {
        poke(table, at, peek(table, other));
        poke(table, other, was);
    } else {
        poke(table, at, garbage_for(table, at));
    }
}

static void spoil(void)
{
    size_t in_use[TABLES];
    int times = between(1, 3);

    in_use[LINES] = said(LINES);
    used(&in_use[NODES], &in_use[LISTINGS]);
    for (; times > 0; times--) {
        int table = (int)under(TABLES);

        if (said(table) > 0)
            spoil_one(table, in_use[table]);
    }
}

void part_garbage(void)
{
    int times;

    some_map(under(10) + 1, one_in(2) ? 200 : 2000, one_in(2) ? 100 : 2000);
    keep();
    for (times = 0; times < 40; times++) {
        spoil();
        ask_all();
        if (one_in(20))
            start();
        put_back();
    }
}

/* Orders: calls to which several refusals apply at once, so that the first of them must be given */

static void draw_doubly_wrong(struct stroke *s)
{
    draw_anyhow(s);
    if (one_in(3))
        put_off_grid(s);
    if (one_in(3)) {
        s->x2 = s->x1;
        s->y2 = s->y1;
    }
}

static void ask_doubly_wrong(void)
{
    struct stroke s;

    draw_doubly_wrong(&s);
    insert_stroke(&s);
    delete_handle(false_handle());
    ask_points(2);
    ask_wrong_window();
}

/* Few slots and little room: a line may conflict, find no slot and find no room, all in one. */
void part_orders(void)
{
    const size_t slots = under(3) + 1, nodes_len = 4 * under(20) + 1, listings_len = under(8);
    int times;

    choose_frame();
    lend(8 * slots + 1, nodes_len, listings_len);
    say(LINES, 8 * slots);
    start();
    for (times = 0; times < 30; times++) {
        live_on(2, draw_anyhow);
        ask_doubly_wrong();
        keep();
        spoil();
        ask_doubly_wrong();
        if (one_in(2)) {
            say(LINES, 8 * slots + 1);
            ask_doubly_wrong();
            say(LINES, 8 * slots);
        }
        put_back();
    }
}

/* One fault: a map that would be sound but for one thing, its tree being the tree of what it says */

/* A stroke put into a slot with no question asked: it may conflict, have no length or lie off the grid. */
static void force_line(void)
{
    struct stroke s;

    draw_anyhow(&s);
    if (one_in(4)) {
        s.x2 = s.x1;
        s.y2 = s.y1;
    } else if (one_in(4)) {
        put_off_grid(&s);
    }
    lay_stroke(under((uint32_t)(said(LINES) / 8)), &s);
    rebuild();
}

static void spoil_slot(void)
{
    size_t at = 8 * (size_t)under((uint32_t)(said(LINES) / 8));

    switch (under(4)) {
    case 0:
        poke(LINES, at + 1, 0);                                /* 0 is right for an empty slot only */
        break;
    case 1:
        poke(LINES, at, (uint16_t)(one_in(2) ? 2 : 65535));
        break;
    case 2:
        poke(LINES, at, (uint16_t)!peek(LINES, at));
        break;
    default:
        poke(LINES, at + 2 + under(6), (uint16_t)(chance() | 1));
        break;
    }
    if (one_in(2))
        rebuild();
}

/* Behind the tree, where all must be 0. */
static void spoil_rest(void)
{
    size_t nodes, listings;

    used(&nodes, &listings);
    if (one_in(2) && nodes < said(NODES))
        poke(NODES, one_in(2) ? nodes : said(NODES) - 1, (uint16_t)(one_in(2) ? 1 : 65535));
    else if (listings < said(LISTINGS))
        poke(LISTINGS, one_in(2) ? listings : said(LISTINGS) - 1, 1);
}

/* Opens or closes a gap in a table; what falls off its end is lost. */
static void shift(int table, size_t at, size_t from)
{
    size_t length = said(table), i;

    if (from > at)
        for (i = at; i < length; i++)
            poke(table, i, (uint16_t)(i + from - at < length ? peek(table, i + from - at) : 0));
    else
        for (i = length; i-- > at;)
            poke(table, i, (uint16_t)(i >= at + (at - from) ? peek(table, i - (at - from)) : 0));
}

/* An empty leaf divided once more: the same lines, a tree that the rule does not give. */
static void divide_needlessly(void)
{
    size_t nodes, listings, at, tries;

    used(&nodes, &listings);
    if (nodes + 4 > said(NODES))
        return;
    for (tries = 0; tries < 50; tries++) {
        at = under((uint32_t)nodes);
        if (peek(NODES, at) != 0)
            continue;
        shift(NODES, at + 4, at);
        poke(NODES, at, DIVIDED);
        poke(NODES, at + 1, 0);
        poke(NODES, at + 2, 0);
        poke(NODES, at + 3, 0);
        return;
    }
}

/* Writes the slots that four leaves list, each once and rising, over the first of their listings. */
static size_t join_listings(size_t first, size_t count)
{
    uint16_t joined[1024];
    size_t i, k, kept = 0;

    for (i = 0; i < count; i++) {
        uint16_t slot = peek(LISTINGS, first + i);

        for (k = kept; k > 0 && joined[k - 1] > slot; k--)
            continue;
        if (k > 0 && joined[k - 1] == slot)
            continue;
        memmove(joined + k + 1, joined + k, (kept - k) * sizeof *joined);
        joined[k] = slot;
        kept++;
    }
    for (i = 0; i < kept; i++)
        poke(LISTINGS, first + i, joined[i]);
    return kept;
}

/* Four leaves joined to one that lists all that they list, where the rule divides. */
static void join_wrongly(void)
{
    size_t nodes, listings, at, i, first = 0, sum = 0, kept;

    used(&nodes, &listings);
    for (at = 0; at + 4 < nodes; at++) {
        for (i = 1, sum = 0; i <= 4 && peek(NODES, at + i) != DIVIDED; i++)
            sum += peek(NODES, at + i);
        if (peek(NODES, at) == DIVIDED && i == 5 && one_in(3))
            break;
        first += peek(NODES, at) == DIVIDED ? 0 : peek(NODES, at);
    }
    if (at + 4 >= nodes || sum > 1000)
        return;
    kept = join_listings(first, sum);
    shift(LISTINGS, first + kept, first + sum);
    shift(NODES, at, at + 4);
    poke(NODES, at, (uint16_t)kept);
}

/* Within a leaf the order wrong, or a slot twice, or a line left out with its count. */
static void spoil_leaf(void)
{
    size_t nodes, listings, at;

    used(&nodes, &listings);
    if (listings < 2)
        return;
    at = under((uint32_t)listings - 1);
    if (one_in(2)) {
        uint16_t was = peek(LISTINGS, at);

        poke(LISTINGS, at, peek(LISTINGS, at + 1));
        poke(LISTINGS, at + 1, was);
    } else {
        poke(LISTINGS, at, peek(LISTINGS, at + 1));
    }
}

static void swap_slots(void)
{
    uint32_t slots = (uint32_t)(said(LINES) / 8);
    size_t a = 8 * (size_t)under(slots), b = 8 * (size_t)under(slots), k;

    for (k = 0; k < 8; k++) {
        uint16_t was = peek(LINES, a + k);

        poke(LINES, a + k, peek(LINES, b + k));
        poke(LINES, b + k, was);
    }
    if (one_in(2))
        rebuild();                                             /* then it is a sound map again */
}

void part_one_fault(void)
{
    static void (*const faults[])(void) = { force_line, force_line,   spoil_slot, spoil_rest,
                                            divide_needlessly, join_wrongly, spoil_leaf, swap_slots };
    int times;

    some_map(under(12) + 2, one_in(2) ? 300 : 3000, one_in(2) ? 200 : 3000);
    keep();
    for (times = 0; times < 40; times++) {
        faults[under(8)]();
        ask_all();
        put_back();
    }
}

/* Noise: nothing in the tables that was ever a map */

static uint16_t noise(uint32_t kind)
{
    switch (kind) {
    case 0:
        return (uint16_t)chance();
    case 1:
        return (uint16_t)under(3);
    case 2:
        return (uint16_t)(one_in(2) ? 65535 : under(2));
    default:
        return (uint16_t)(one_in(30) ? chance() : 0);
    }
}

static void fill_with_noise(void)
{
    uint32_t kind;
    size_t i;
    int table;

    for (table = LINES; table < TABLES; table++)
        for (kind = under(5), i = 0; i < said(table); i++)
            poke(table, i, noise(kind));
}

void part_noise(void)
{
    int times;

    choose_frame();
    lend(8 * ((size_t)under(6) + 1), under(30) + 1, under(20));
    for (times = 0; times < 15; times++) {
        fill_with_noise();
        ask_all();
        ask_all();
        if (one_in(5)) {
            start();
            live_on(3, draw_anyhow);
        }
    }
}

/* Lengths: every one wrong by one, alone and with another */

/* Said of a table that is longer than it should be; the right length is the map's own. */
static size_t wrong_length(int table, size_t right)
{
    static const size_t wrong[TABLES][6] = {
        { 0, 7, 8191, 8192, 8193, 8200 }, { 0, 1, 16384, 16385, 0, 16385 }, { 0, 1, 16384, 16385, 16385, 16385 }
    };

    switch (under(4)) {
    case 0:
        return right - 1;
    case 1:
        return right + 1;
    case 2:
        return table == LINES ? right + 8 : right;
    default:
        return wrong[table][under(6)];
    }
}

static void ask_lists(void)
{
    const uint16_t points[10] = { 0, 0, 8000, 8000, 16383, 16383, 5, 16384, 65535, 1 };
    static const size_t lengths[][2] = { { 0, 0 }, { 0, 1 }, { 1, 0 }, { 1, 1 }, { 2, 0 }, { 2, 1 },
                                         { 2, 2 }, { 3, 1 }, { 3, 2 }, { 8, 4 }, { 8, 3 }, { 8, 5 },
                                         { 9, 4 }, { 7, 4 }, { 7, 3 }, { 9, 5 }, { 10, 10 }, { 10, 5 } };
    const size_t *pair = lengths[under(18)];

    locate_lengths(points, pair[0], pair[1]);
}

static void ask_with_lengths(void)
{
    ask_lists();
    ask_all();
    if (one_in(4))
        start();
}

void part_lengths(void)
{
    const size_t right[TABLES] = { 8 * ((size_t)under(4) + 1), 300, 200 };
    int times, table;

    lend(8200, PLAIN_ROOM + 1, PLAIN_ROOM + 1);
    for (table = LINES; table < TABLES; table++)
        say(table, right[table]);
    choose_frame();
    start();
    live_on(10, draw_anyhow);
    keep();
    for (times = 0; times < 30; times++) {
        table = (int)under(TABLES);
        say(table, wrong_length(table, right[table]));
        if (one_in(5)) {
            table = (int)under(TABLES);
            say(table, wrong_length(table, right[table]));
        }
        ask_with_lengths();
        put_back();
        for (table = LINES; table < TABLES; table++)
            say(table, right[table]);
        ask_lists();
    }
}

/* Room: a map drawn in large tables, then again in tables that just hold it, or lack one entry */

enum { MOST_STROKES = 12 };

static struct {
    size_t count;
    struct stroke stroke[MOST_STROKES];
    size_t nodes, listings;                  /* what all of them need */
} drawing;

static void make_drawing(size_t count)
{
    struct stroke s;
    int tries;

    choose_frame();
    drawing.count = 0;
    begin(MOST_STROKES, PLAIN_ROOM, PLAIN_ROOM);
    for (tries = 0; tries < 40 && drawing.count < count; tries++) {
        draw_anyhow(&s);
        if (insert_stroke(&s) >> 32 == 0)
            drawing.stroke[drawing.count++] = s;
    }
    used(&drawing.nodes, &drawing.listings);
}

static void redraw(size_t nodes_len, size_t listings_len, size_t slots)
{
    size_t i;

    begin(slots, nodes_len, listings_len);
    for (i = 0; i < drawing.count; i++)
        insert_stroke(&drawing.stroke[i]);
    live_on(8, draw_anyhow);
}

void part_room(void)
{
    int times;

    for (times = 0; times < 4; times++) {
        make_drawing(under(MOST_STROKES) + 1);
        if (drawing.count == 0 || drawing.nodes < 2)
            continue;
        redraw(drawing.nodes, drawing.listings, drawing.count);
        redraw(drawing.nodes - 1, drawing.listings, drawing.count);
        redraw(drawing.nodes, drawing.listings - 1, drawing.count);
        redraw(drawing.nodes - 1, PLAIN_ROOM, drawing.count + 1);
    }
}
