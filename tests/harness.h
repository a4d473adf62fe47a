/* Every call made twice, of the library on its own tables and of the plain search on copies of them, and every
 * entry compared afterwards: the number given back, all three tables, the lists, and the guard words that stand
 * before and behind each. The first difference is printed and ends the part of the test that was running. */
#ifndef TESTS_HARNESS_H
#define TESTS_HARNESS_H

#include "plain.h"

enum { LINES, NODES, LISTINGS, TABLES };

/* Most points that one locate is asked for here. */
enum { MOST_POINTS = 64 };

/* Numbers that look random and are the same in every run. */
void seed(uint64_t with);
uint64_t chance(void);
/* From 0 up to, not including, this. */
uint32_t under(uint32_t bound);
/* Both included. */
int32_t between(int32_t from, int32_t to);
/* One time in so many. */
int one_in(uint32_t times);

/* Lends both sides tables of these capacities, filled with leftovers, and says these lengths in calls. */
void lend(size_t lines_len, size_t nodes_len, size_t listings_len);
/* Lends and starts, for so many slots. */
void begin(size_t slots, size_t nodes_len, size_t listings_len);
/* From here on a call says this length of a table, at most its capacity. */
void say(int table, size_t length);
size_t said(int table);
size_t capacity(int table);

/* An entry as both sides have it; writing it writes both. */
uint16_t peek(int table, size_t at);
void poke(int table, size_t at, uint16_t value);

/* The table of both sides kept and put back, to spoil it in between. */
void keep(void);
void put_back(void);

/* The calls, compared. What comes back is what both sides gave. */
uint64_t start(void);
uint64_t insert(uint16_t x1, uint16_t y1, uint16_t x2, uint16_t y2, uint16_t left, uint16_t right);
uint64_t delete_handle(uint32_t handle);
/* Lengths are those said, which may be wrong; points holds at least points_len, answers_len is free. */
uint64_t locate_lengths(const uint16_t *points, size_t points_len, size_t answers_len);
/* A list of so many points. */
uint64_t locate(const uint16_t *points, size_t count);
/* With a list of this length, which holds noise before. */
uint64_t window(uint16_t west, uint16_t south, uint16_t east, uint16_t north, size_t slots_len);
/* Whether the last window, which was done and told so many lines, told the line of this slot. */
int window_told(uint16_t slot, size_t count);

/* Makes the tree of whatever the live slots say, on both sides, with no call; 0 if it does not fit. */
int rebuild(void);
/* Whether the plain search holds the map sound. */
int is_sound(void);
/* What the tree takes of both tables. */
void used(size_t *nodes, size_t *listings);

/* Runs one part of a test under a name; 1 if nothing differed. */
int run_part(const char *name, uint64_t with_seed, void (*part)(void));
/* Says that something else than a comparison went wrong, and ends the part. */
void fail(const char *what);

/* What was met on the way: it tells whether a test asked for anything at all. */
enum { ANSWER_NONE, ANSWER_LABEL, ANSWER_ON_LINE, ANSWER_OFF_GRID, ANSWERS };

/* How a point on no line came by its answer; the first of a row counts those of the others too. */
enum {
    FROM_BELOW, BELOW_IS_0,                     /* that label is 0, and a line above has another */
    FROM_ABOVE, UNDER_WEST_END, UNDER_FORK,     /* two lines from one west end, with two labels */
    FROM_NEITHER, UNDER_EAST_END,
    WAYS
};

/* How many numbers a kind of conflict can have, with 0 for no conflict. */
enum { KINDS = 5 };

/* How many numbers a refusal can have, with 0 for done. */
enum { REFUSALS = 11 };

extern struct met {
    uint64_t calls;
    uint64_t refusals[REFUSALS];         /* how often each number from 0 to 10 came back */
    uint64_t kinds[KINDS];               /* of the refusals 5, how often each kind from 1 to 4 was told */
    uint64_t answers[ANSWERS];           /* of locate, by kind */
    uint64_t ways[WAYS];                 /* of points on no line, by how their answers were found */
    uint64_t sound_calls, live_lines;    /* calls on sound maps, and the lines these had, summed up */
    uint64_t most_lines;
} met;

/* A number from the environment, or else this one. */
uint64_t setting(const char *name, uint64_t otherwise);

#endif
