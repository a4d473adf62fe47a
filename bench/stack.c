/* How much stack each call needs: a call runs on a stack of its own, painted before and read after. The map is the deepest
** fan. */
#define _GNU_SOURCE
#include "boundary_map.h"
#include "../tests/deepest_fan.h"
#include <pthread.h>
#include <stdio.h>
#include <stdlib.h>
#include <string.h>

#define STACK (1u << 20)
#define SLOTS 1024
#define ENTRIES 16384

static uint16_t lines[8 * SLOTS], nodes[ENTRIES], listings[ENTRIES];
static const struct boundary_map map = {lines, 8 * SLOTS, nodes, ENTRIES, listings, ENTRIES};
#define LENT BOUNDARY_MAP_LENT(&map)
static uint16_t points[2];
static uint32_t answers[1];
static uint16_t slots[SLOTS];
static uint64_t result;

static void *do_start(void *u) { result = boundary_map_start(LENT); return u; }
static void *do_insert(void *u) { result = boundary_map_insert(LENT, 0, 0, 0, 1, 1, 2); return u; }
static void *do_delete(void *u) { result = boundary_map_delete(LENT, boundary_map_handle(0, 1)); return u; }
static void *do_locate(void *u) { result = boundary_map_locate(LENT, points, 2, answers, 1); return u; }

static void *do_window(void *u) { result = boundary_map_window(LENT, 0, 0, 16383, 16383, slots, SLOTS); return u; }

static void make_fan(void) {
    unsigned ray_of[FAN_RAYS];
    boundary_map_start(LENT);
    order_rays(ray_of);
    for (unsigned i = 0; i < FAN_RAYS; i++)
        if (boundary_map_refusal(insert_ray(&map, ray_of[i]))) exit(1);
}

static size_t used_by(void *(*call)(void *)) {
    unsigned char *stack = aligned_alloc(4096, STACK);
    pthread_attr_t attr;
    pthread_t thread;
    size_t low = 0;
    if (!stack) exit(1);
    memset(stack, 0xa5, STACK);
    pthread_attr_init(&attr);
    pthread_attr_setstack(&attr, stack, STACK);
    if (pthread_create(&thread, &attr, call, NULL)) exit(1);
    pthread_join(thread, NULL);
    while (low < STACK && stack[low] == 0xa5) low++;
    free(stack);
    return STACK - low;
}

static void *do_nothing(void *u) { return u; }

int main(void) {
    size_t idle = used_by(do_nothing);
    make_fan();
    size_t window = used_by(do_window), locate = used_by(do_locate), insert = used_by(do_insert);
    size_t del = used_by(do_delete), start = used_by(do_start);
    printf("bytes of stack, beyond an idle thread's: start %zu, insert %zu, locate %zu, delete %zu, window %zu\n",
           start - idle, insert - idle, locate - idle, del - idle, window - idle);
    return 0;
}
