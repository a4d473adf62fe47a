/* Every call on a thread with the stack that the header asks for and no more, with the guard page below it that
 * threads have: a call that needs more ends this program. The map is the one that takes most: the largest tables, and
 * the deepest fan. */
#include "../include/boundary_map.h"

#include "deepest_fan.h"

#define PART "stack"
#include "expect.h"

#include <pthread.h>
#include <stdlib.h>

static uint16_t lines[BOUNDARY_MAP_LINES_MAX], nodes[BOUNDARY_MAP_NODES_MAX], listings[BOUNDARY_MAP_LISTINGS_MAX];
static const struct boundary_map map = { lines, BOUNDARY_MAP_LINES_MAX, nodes, BOUNDARY_MAP_NODES_MAX,
                                         listings, BOUNDARY_MAP_LISTINGS_MAX };
static unsigned ray_of[FAN_RAYS];
static uint16_t slots[BOUNDARY_MAP_SLOTS_MAX];

static void *all_calls(void *nothing)
{
    const uint16_t points[6] = { 0, 0, FAN_HUB + 900, FAN_HUB - 10, FAN_HUB + 900, 0 };
    uint32_t answers[3] = { 9, 9, 9 };
    unsigned slot, inserted = 0;

    EXPECT(boundary_map_start(BOUNDARY_MAP_LENT(&map)) == 0);
    for (slot = 0; slot < FAN_RAYS; slot++)
        inserted += insert_ray(&map, ray_of[slot]) == boundary_map_handle((uint16_t)slot, 1);
    EXPECT(inserted == FAN_RAYS);
    EXPECT(boundary_map_insert(BOUNDARY_MAP_LENT(&map), 0, 0, 0, 1, 1, 2) == boundary_map_handle(FAN_RAYS, 1));
    EXPECT(boundary_map_locate(BOUNDARY_MAP_LENT(&map), points, 6, answers, 3) == 0);
    EXPECT(boundary_map_is_on_line(answers[0]) && boundary_map_answer_slot(answers[0]) == FAN_RAYS);
    EXPECT(boundary_map_is_label(answers[1]));
    EXPECT(answers[2] == 2);             /* under all rays: the label below the lowest */
    EXPECT(boundary_map_window(BOUNDARY_MAP_LENT(&map), 0, 0, BOUNDARY_MAP_GRID_MAX, BOUNDARY_MAP_GRID_MAX, slots,
                               BOUNDARY_MAP_SLOTS_MAX) == FAN_RAYS + 1);
    EXPECT(slots[0] == 0 && slots[FAN_RAYS] == FAN_RAYS);
    EXPECT(boundary_map_delete(BOUNDARY_MAP_LENT(&map), boundary_map_handle(0, 1)) == 0);
    EXPECT(boundary_map_check(&map) == BOUNDARY_MAP_DONE);
    return nothing;
}

/* STACK in the environment sets another size, to see that too little is seen. */
static size_t stack_bytes(void)
{
    const char *text = getenv("STACK");

    return text == NULL || *text == '\0' ? BOUNDARY_MAP_STACK_BYTES : strtoul(text, NULL, 10);
}

int main(void)
{
    pthread_attr_t attributes;
    pthread_t thread;
    size_t guard = 0;

    order_rays(ray_of);
    EXPECT(pthread_attr_init(&attributes) == 0);
    EXPECT(pthread_attr_setstacksize(&attributes, stack_bytes()) == 0);
    EXPECT(pthread_attr_getguardsize(&attributes, &guard) == 0 && guard > 0);
    EXPECT(pthread_create(&thread, &attributes, all_calls, NULL) == 0);
    EXPECT(pthread_join(thread, NULL) == 0);
    return tallied(PART);
}
