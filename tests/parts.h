/* The parts of the differential test. Each makes its own maps out of chance and asks both sides. */
#ifndef TESTS_PARTS_H
#define TESTS_PARTS_H

#include "harness.h"

/* drawn.c: maps as hosts draw them, and as they would hardly draw them */
void part_fields(void);
void part_fences(void);
void part_fans(void);
void part_parallels(void);
void part_corners(void);
void part_rims(void);
void part_crowd(void);
void part_deep(void);
void part_large(void);
void part_full(void);
void part_hubs(void);
void part_great_fans(void);

/* spoiled.c: handles, lengths, room, and tables that hold anything at all */
void part_handles(void);
void part_garbage(void);
void part_orders(void);
void part_one_fault(void);
void part_noise(void);
void part_lengths(void);
void part_room(void);

/* kinds.c: how two lines conflict */
void part_pairs(void);
void part_several(void);
/* Prints what these two saw of each kind, and says how many things they never saw. */
int report_kinds(void);

/* window.c: the lines that meet a rectangle */
void part_windows(void);
/* Prints what windows came to, those that other parts asked for too, and says how many things were never seen. */
int report_windows(void);

/* sheets.c: ditches across a sheet, and land south of them */
void part_sheets(void);

/* bounds.c: the least and the greatest coordinates */
void part_bounds(void);
/* Prints what it met of the greatest turns and the least, and says how many things it never met. */
int report_bounds(void);

/* What all use */

struct stroke {
    uint16_t x1, y1, x2, y2, left, right;
};

/* The nearest grid number; one that is just off the grid, or far. */
uint16_t on_grid(int32_t v);
uint16_t off_grid(void);

/* Somewhere on the grid, small or large, at a rim, at a corner of large blocks or anywhere. */
void choose_frame(void);
/* The same place, but no larger than this, and strokes as long as it is wide. */
void narrow_frame(int32_t side);
/* Two places in the frame, or a stroke that has to do with a line that is there. */
void draw_anyhow(struct stroke *s);
uint16_t any_label(void);
/* Its ends changed over, and its labels. */
void turn_over(struct stroke *s);
/* Moves one of its four coordinates off the grid, most often by one. */
void put_off_grid(struct stroke *s);
uint64_t insert_stroke(const struct stroke *s);
/* Whether the point is on the stroke, its ends with it. */
int lies_on(uint16_t x, uint16_t y, const struct stroke *s);
/* How many of the counts are 0. */
int none_of(const uint64_t *counts, size_t many);
/* Finds a live slot by trying a few; where its entries begin, or -1. */
long some_line(void);
/* The line whose entries begin there. */
struct stroke stroke_at(size_t at);
/* A grid point of the straight line through a slot's line: on it, or past an end if asked so. */
void along_line(size_t at, int past, uint16_t *x, uint16_t *y);
/* Writes it into a slot as a live line of some generation, with no call and no question asked. */
void lay_stroke(size_t slot, const struct stroke *s);
/* A handle of a live slot; 0, which is never one, if none was found. */
uint32_t live_handle(void);
/* Near enough to the truth to be taken for it: old, of a neighbour, of no slot, or anything. */
uint32_t false_handle(void);
/* Up to this many points, most of them where something is. */
void ask_points(size_t most);
/* A window at some line, or anywhere, asked twice: with a list long enough and with another. */
void ask_window(void);
/* The same of the whole map. */
void ask_whole(void);
/* One that is inverted or off the grid most of the time, with a list that is too short as often. */
void ask_wrong_window(void);
/* So many calls of all kinds, with lines drawn so. */
void live_on(int calls, void (*draw)(struct stroke *));
/* Lengths for the node and listing tables, most often enough. */
size_t any_room(void);

#endif
