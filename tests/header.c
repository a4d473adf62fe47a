/* The installed header beside the library that is linked: it declares the calls as the tests do, or this does not
 * compile; both are of one version; its check of a map tells a sound one from a damaged one; it tells what a point is
 * answered, how lines conflict and why a window is refused; and a map lent longer goes on. */
#include "library.h"

#include "../include/boundary_map.h"

#define PART "header"
#include "expect.h"

#include <string.h>

static uint16_t lines[BOUNDARY_MAP_LINES_LEN(2)], nodes[64], listings[64];

static struct boundary_map map = { lines, BOUNDARY_MAP_LINES_LEN(2), nodes, 64, listings, 64 };

static void version(void)
{
    EXPECT(boundary_map_version() == BOUNDARY_MAP_VERSION_NUMBER);
    EXPECT(BOUNDARY_MAP_VERSION_NUMBER == 5000);
}

static void check_tells(void)
{
    memset(lines, 0x5a, sizeof lines);
    EXPECT(boundary_map_check(&map) == BOUNDARY_MAP_DAMAGED);
    EXPECT(boundary_map_start(BOUNDARY_MAP_LENT(&map)) == 0);
    EXPECT(boundary_map_check(&map) == BOUNDARY_MAP_DONE);
    EXPECT(boundary_map_insert(BOUNDARY_MAP_LENT(&map), 0, 8000, 16383, 8000, 7, 9) == 1);
    EXPECT(boundary_map_check(&map) == BOUNDARY_MAP_DONE);
    map.nodes_len = 0;
    EXPECT(boundary_map_check(&map) == BOUNDARY_MAP_LENGTHS);
    map.nodes_len = 64;
}

/* As the header has it of a damaged map: nothing changes, no call but start takes it, and it is made anew. */
static void after_damage(void)
{
    const uint16_t kept[6] = { 0, 8000, 16383, 8000, 7, 9 };
    uint16_t before[BOUNDARY_MAP_LINES_LEN(2)];

    nodes[0] ^= 1;
    memcpy(before, lines, sizeof lines);
    EXPECT(boundary_map_check(&map) == BOUNDARY_MAP_DAMAGED);
    EXPECT(boundary_map_refusal(boundary_map_delete(BOUNDARY_MAP_LENT(&map), 1)) == BOUNDARY_MAP_DAMAGED);
    EXPECT(memcmp(before, lines, sizeof lines) == 0);
    EXPECT(boundary_map_start(BOUNDARY_MAP_LENT(&map)) == 0);
    EXPECT(boundary_map_insert(BOUNDARY_MAP_LENT(&map), kept[0], kept[1], kept[2], kept[3], kept[4], kept[5]) == 1);
    EXPECT(boundary_map_check(&map) == BOUNDARY_MAP_DONE);
}

/* The level line across the map is in slot 0, with 7 above it and 9 below. Over and under its east end no line counts. */
static void answers_told(void)
{
    const uint16_t points[12] = { 5, 9000, 5, 8000, 5, 7999, 16383, 9000, 16383, 7999, 5, 16384 };
    uint32_t answers[6] = { 1, 1, 1, 1, 1, 1 };

    EXPECT(boundary_map_locate(BOUNDARY_MAP_LENT(&map), points, 12, answers, 6) == 0);
    EXPECT(boundary_map_is_label(answers[0]) && boundary_map_answer_label(answers[0]) == 7);
    EXPECT(boundary_map_is_on_line(answers[1]) && boundary_map_answer_slot(answers[1]) == 0);
    EXPECT(boundary_map_is_label(answers[2]) && boundary_map_answer_label(answers[2]) == 9);
    EXPECT(boundary_map_is_label(answers[3]) && boundary_map_answer_label(answers[3]) == 0);
    EXPECT(boundary_map_is_label(answers[4]) && boundary_map_answer_label(answers[4]) == 0);
    EXPECT(boundary_map_is_off_grid(answers[5]));
}

/* A label changed leaves a sound map, as the header has it of rule 5. */
static void label_changed(void)
{
    lines[BOUNDARY_MAP_LEFT] = 8;
    EXPECT(boundary_map_check(&map) == BOUNDARY_MAP_DONE);
}

/* A full map lent longer, with zeros appended: it goes on, handles and all. */
static void lent_longer(void)
{
    struct boundary_map small = { lines, BOUNDARY_MAP_LINES_LEN(1), nodes, 5, listings, 4 };

    memset(lines, 0, sizeof lines);
    memset(nodes, 0, sizeof nodes);
    memset(listings, 0, sizeof listings);
    EXPECT(boundary_map_insert(BOUNDARY_MAP_LENT(&small), 0, 0, 16383, 16383, 7, 9) == 1);
    EXPECT(boundary_map_refusal(boundary_map_insert(BOUNDARY_MAP_LENT(&small), 0, 1, 0, 9, 7, 9)) == BOUNDARY_MAP_NO_SLOT);
    EXPECT(boundary_map_check(&map) == BOUNDARY_MAP_DONE);
    EXPECT(boundary_map_insert(BOUNDARY_MAP_LENT(&map), 0, 16383, 4, 16383, 7, 9) == boundary_map_handle(1, 1));
    EXPECT(boundary_map_delete(BOUNDARY_MAP_LENT(&map), 1) == 0);
    EXPECT(boundary_map_refusal(boundary_map_delete(BOUNDARY_MAP_LENT(&map), 1)) == BOUNDARY_MAP_UNKNOWN_HANDLE);
}

/* The level line across the map is in slot 0, and the one given is told how it lies to it. */
static void conflict_told(uint16_t x1, uint16_t y1, uint16_t x2, uint16_t y2, uint32_t kind, const char *words)
{
    uint64_t refused = boundary_map_insert(BOUNDARY_MAP_LENT(&map), x1, y1, x2, y2, 7, 9);
    uint32_t detail = boundary_map_detail(refused);

    EXPECT(boundary_map_refusal(refused) == BOUNDARY_MAP_CONFLICT);
    EXPECT(boundary_map_conflict_slot(detail) == 0);
    EXPECT(boundary_map_conflict_kind(detail) == kind);
    EXPECT(strcmp(boundary_map_kindstr(boundary_map_conflict_kind(detail)), words) == 0);
}

static void conflicts_told(void)
{
    conflict_told(40, 0, 40, 16383, BOUNDARY_MAP_CROSSING, "crosses");
    conflict_told(40, 0, 40, 8000, BOUNDARY_MAP_TOUCHING, "touches");
    conflict_told(40, 8000, 50, 8000, BOUNDARY_MAP_OVERLAP, "overlaps");
    conflict_told(16383, 8000, 0, 8000, BOUNDARY_MAP_SAME, "is the same as");
}

/* The level line across the map is in slot 0; the entry that was not asked for stays. */
static void windows_told(void)
{
    uint16_t slots[2] = { 70, 71 };
    uint64_t r = boundary_map_window(BOUNDARY_MAP_LENT(&map), 5, 8000, 9, 9000, slots, 2);

    EXPECT(boundary_map_refusal(r) == BOUNDARY_MAP_DONE);
    EXPECT(boundary_map_detail(r) == 1);
    EXPECT(slots[0] == 0 && slots[1] == 71);
    r = boundary_map_window(BOUNDARY_MAP_LENT(&map), 5, 9000, 9, 8000, slots, 2);
    EXPECT(boundary_map_refusal(r) == BOUNDARY_MAP_BAD_WINDOW);
    EXPECT(strncmp(boundary_map_errstr(BOUNDARY_MAP_BAD_WINDOW), "bad window: ", 12) == 0);
    r = boundary_map_window(BOUNDARY_MAP_LENT(&map), 0, 0, 16383, 16383, slots, 0);
    EXPECT(boundary_map_refusal(r) == BOUNDARY_MAP_LIST_SHORT);
    EXPECT(strncmp(boundary_map_errstr(BOUNDARY_MAP_LIST_SHORT), "list short: ", 12) == 0);
    EXPECT(boundary_map_detail(r) == 0);
    EXPECT(slots[0] == 0 && slots[1] == 71);
}

int main(void)
{
    version();
    check_tells();
    after_damage();
    answers_told();
    label_changed();
    conflicts_told();
    windows_told();
    lent_longer();
    return tallied(PART);
}
