/* The plain list search: what documents 01 and 02 say of every call, done the slow way and apart from the library.
 *
 * It keeps a list of the live lines and looks through all of it, every time. All geometry is done with one
 * notion only, the height of a line at a given x, as an exact fraction; there is no turn of three points in it.
 * The tree is built from the whole map down by the rule's own words, with every line asked at every block.
 *
 * It takes any tables whatever and, as the library does, either refuses and leaves all as it was, or does
 * the call and leaves every entry as the documents say. */
#ifndef TESTS_PLAIN_H
#define TESTS_PLAIN_H

#include <stddef.h>
#include <stdint.h>

enum {
    PLAIN_SLOTS = 1024,   /* most slots of a map */
    PLAIN_ROOM = 16384    /* most nodes, most listings, and one more than the last grid number */
};

/* A place in half-steps: grid number g stands at 2g + 1. */
struct plain_place {
    int64_t x, y;
};

struct plain_line {
    uint16_t slot;
    struct plain_place west, east;   /* the two ends; of an upright line the south end is called west */
    uint16_t upper, lower;           /* the labels above it and below it; an upright line has none, and they say nothing */
};

/* Whether the tables are sound, once found out, holds until somebody writes to them. */
enum plain_verdict { PLAIN_UNASKED, PLAIN_SOUND, PLAIN_DAMAGED };

struct plain {
    uint16_t *lines, *nodes, *listings;
    size_t lines_len, nodes_len, listings_len;
    enum plain_verdict verdict;
    size_t count;
    struct plain_line list[PLAIN_SLOTS];   /* the live lines by rising slot, one of them at most to a slot */
};

/* Takes the tables as they are, of these lengths, knowing nothing of them. */
void plain_take(struct plain *p, uint16_t *lines, size_t lines_len, uint16_t *nodes, size_t nodes_len,
                uint16_t *listings, size_t listings_len);

/* To be told whenever an entry was written by someone else. */
void plain_forget(struct plain *p);

/* 1 if the map is sound; its lengths must be right. */
int plain_sound(struct plain *p);

/* The five calls, answered with refusal x 4,294,967,296 + detail. */
uint64_t plain_start(struct plain *p);
uint64_t plain_insert(struct plain *p, uint16_t x1, uint16_t y1, uint16_t x2, uint16_t y2, uint16_t left,
                      uint16_t right);
uint64_t plain_delete(struct plain *p, uint32_t handle);
uint64_t plain_locate(struct plain *p, const uint16_t *points, size_t points_len, uint32_t *answers,
                      size_t answers_len);
uint64_t plain_window(struct plain *p, uint16_t west, uint16_t south, uint16_t east, uint16_t north,
                      uint16_t *to, size_t to_len);

/* Writes node and listing tables for whatever the live slots say, sound or not, so that a test can make a map
 * with one fault and no other. 0, and nothing written, if they need more than was lent. */
int plain_rebuild(struct plain *p);

/* Entries that the tree takes of the node and of the listing table, as last written by the plain search. */
void plain_used(const struct plain *p, size_t *nodes, size_t *listings);

#endif
