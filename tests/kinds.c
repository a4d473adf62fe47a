/* How two lines conflict: pairs of lines put every way round, and lines that have several others in the way. See
 * parts.h. */
#include "parts.h"

#include <stdio.h>

enum { LAST = 16383, CONFLICT = 5, NO_SLOT = 6, TOUCHING = 2 };

static struct {
    uint64_t pairs[KINDS];       /* by kind, 0 for those that do not conflict */
    uint64_t ends[4];            /* touching: with end 1 or 2 of the live line, with end 1 or 2 of the given one */
    uint64_t lower, higher;      /* several in the way: the first kind told, beside that of a later slot */
} seen;

static uint32_t kind_told(uint64_t result)
{
    return result >> 32 == CONFLICT ? (uint32_t)result >> 16 : 0;
}

/* Drawing */

/* A small grid of its own, and where the map has it: anywhere, at a corner, or drawn out from corner to corner. On it
 * a row: four places on one straight line, evenly apart. */
static struct {
    int32_t side, scale, x, y;
    int32_t row_x[4], row_y[4];
    int32_t strays;              /* of four ends so many are not in the row, on average */
} yard;

static int32_t anywhere_or_corner(int32_t room)
{
    if (one_in(2))
        return between(0, room);
    return one_in(2) ? 0 : room;
}

static void draw_row(int32_t row[4])
{
    int32_t step = between(0, yard.side / 3), from = between(0, yard.side - 3 * step), back = one_in(2), i;

    for (i = 0; i < 4; i++)
        row[i] = back ? yard.side - from - i * step : from + i * step;
}

static void choose_yard(void)
{
    yard.side = between(3, 15);
    yard.scale = one_in(3) ? LAST / yard.side : 1;
    yard.x = anywhere_or_corner(LAST - yard.side * yard.scale);
    yard.y = anywhere_or_corner(LAST - yard.side * yard.scale);
    yard.strays = between(0, 4);
    do {
        draw_row(yard.row_x);
        draw_row(yard.row_y);
    } while (yard.row_x[0] == yard.row_x[3] && yard.row_y[0] == yard.row_y[3]);
}

static void put_end(uint16_t *x, uint16_t *y, int32_t at_x, int32_t at_y)
{
    *x = (uint16_t)(yard.x + yard.scale * at_x);
    *y = (uint16_t)(yard.y + yard.scale * at_y);
}

static void in_row(uint16_t *x, uint16_t *y, int32_t place)
{
    put_end(x, y, yard.row_x[place], yard.row_y[place]);
}

static void draw_end(uint16_t *x, uint16_t *y)
{
    if (between(1, 4) <= yard.strays)
        put_end(x, y, between(0, yard.side), between(0, yard.side));
    else
        in_row(x, y, between(0, 3));
}

static int has_length(const struct stroke *s)
{
    return s->x1 != s->x2 || s->y1 != s->y2;
}

static void draw_in_yard(struct stroke *s)
{
    do {
        draw_end(&s->x1, &s->y1);
        draw_end(&s->x2, &s->y2);
    } while (!has_length(s));
    s->left = any_label();
    s->right = any_label();
}

/* Pairs */

int lies_on(uint16_t x, uint16_t y, const struct stroke *s)
{
    int64_t dx = s->x2 - s->x1, dy = s->y2 - s->y1, to_x = x - s->x1, to_y = y - s->y1;
    int64_t along = dx * to_x + dy * to_y;

    return dx * to_y == dy * to_x && along >= 0 && along <= dx * dx + dy * dy;
}

static void count_ends(const struct stroke *live, const struct stroke *given)
{
    const int lies[4] = { lies_on(live->x1, live->y1, given), lies_on(live->x2, live->y2, given),
                          lies_on(given->x1, given->y1, live), lies_on(given->x2, given->y2, live) };
    int i;

    if (lies[0] + lies[1] + lies[2] + lies[3] != 1)
        fail("a pair touches, but not with one end");
    for (i = 0; i < 4; i++)
        seen.ends[i] += (uint64_t)lies[i];
}

/* The map has one slot: a line that does not conflict finds none, and every way leaves the map as it was. */
static uint32_t put(const struct stroke *live, const struct stroke *given)
{
    uint64_t result;

    lay_stroke(0, live);
    if (!rebuild())
        fail("there is no room for one line");
    result = insert_stroke(given);
    if (result >> 32 != CONFLICT && result >> 32 != NO_SLOT)
        fail("a pair is refused for another reason");
    return kind_told(result);
}

/* Either line in the map, and either line turned over. */
static void put_all_ways(const struct stroke *a, const struct stroke *b)
{
    uint32_t kind = 0, way;

    for (way = 0; way < 8; way++) {
        struct stroke live = way & 1 ? *b : *a, given = way & 1 ? *a : *b;
        uint32_t told;

        if (way & 2)
            turn_over(&live);
        if (way & 4)
            turn_over(&given);
        told = put(&live, &given);
        kind = way == 0 ? told : kind;
        if (told != kind)
            fail("a pair put another way is of another kind");
        if (kind == TOUCHING)
            count_ends(&live, &given);
    }
    seen.pairs[kind]++;
}

/* Two lines with all ends in the row overlap, are the same, or share an end or nothing; where ends stray they may
 * cross. Lines that are the same, and lines that hang on another's middle, are made so: chance makes too few. */
static void draw_pair(struct stroke *a, struct stroke *b)
{
    choose_yard();
    draw_in_yard(a);
    draw_in_yard(b);
    if (one_in(12))
        *b = *a;
    if (one_in(4)) {
        in_row(&a->x1, &a->y1, 0);
        in_row(&a->x2, &a->y2, 3);
        in_row(&b->x1, &b->y1, between(1, 2));
    }
}

void part_pairs(void)
{
    struct stroke a, b;
    int pairs = 60;

    begin(1, 64, 64);
    while (pairs > 0) {
        draw_pair(&a, &b);
        if (!has_length(&b))
            continue;
        put_all_ways(&a, &b);
        if (one_in(4))
            ask_window();
        pairs--;
    }
}

/* Several: a line is told of the lowest slot in its way, whatever kinds the others are of. Those told are taken away
 * one after another, so that each is the lowest once. */
static void ask_one_after_another(const struct stroke *s)
{
    uint64_t result = insert_stroke(s);
    uint32_t first = kind_told(result), kind;

    while ((kind = kind_told(result)) != 0) {
        uint32_t slot = (uint32_t)result & 0xffff;

        seen.lower += first < kind;
        seen.higher += first > kind;
        delete_handle(slot * 65536 + peek(LINES, 8 * slot + 1));
        result = insert_stroke(s);
    }
    put_back();
}

static void ask_yard(void)
{
    struct stroke s;
    int times;

    choose_yard();
    yard.strays = 2;
    for (times = 0; times < 12; times++) {
        draw_in_yard(&s);
        insert_stroke(&s);
    }
    keep();
    for (times = 0; times < 4; times++) {
        draw_in_yard(&s);
        if (one_in(2)) {                        /* all along the row, where most lines are */
            in_row(&s.x1, &s.y1, 0);
            in_row(&s.x2, &s.y2, 3);
        }
        ask_one_after_another(&s);
        ask_window();
    }
}

void part_several(void)
{
    int yards;

    for (yards = 0; yards < 8; yards++) {
        begin(12, 3000, 3000);
        ask_yard();
    }
}

/* What was seen */

int report_kinds(void)
{
    printf("differential: pairs of lines, each put 8 ways: apart %llu, crossing %llu, touching %llu, overlap %llu, "
           "same %llu\n",
           (unsigned long long)seen.pairs[0], (unsigned long long)seen.pairs[1], (unsigned long long)seen.pairs[2],
           (unsigned long long)seen.pairs[3], (unsigned long long)seen.pairs[4]);
    printf("differential: touching with an end of the live line: first %llu, second %llu; of the given: first %llu, "
           "second %llu\n",
           (unsigned long long)seen.ends[0], (unsigned long long)seen.ends[1], (unsigned long long)seen.ends[2],
           (unsigned long long)seen.ends[3]);
    printf("differential: several in the way: the kind told below that of a later slot %llu times, above it %llu\n",
           (unsigned long long)seen.lower, (unsigned long long)seen.higher);
    return none_of(seen.pairs, KINDS) + none_of(seen.ends, 4) + none_of(&seen.lower, 1) + none_of(&seen.higher, 1);
}
