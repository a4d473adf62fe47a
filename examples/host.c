/* The smallest host: a map of one fence, a question, a line in the way, and a
** late delete.
**
**   cc host.c $(pkg-config --cflags --libs boundary_map) -o host
*/
#include <stdio.h>

#include "boundary_map.h"

/* The tables are the host's own. 64 slots, and all the tree there can be. */
static uint16_t lines[BOUNDARY_MAP_LINES_LEN(64)];
static uint16_t nodes[BOUNDARY_MAP_NODES_MAX];
static uint16_t listings[BOUNDARY_MAP_LISTINGS_MAX];
static const struct boundary_map map = {
    lines, BOUNDARY_MAP_LINES_LEN(64), nodes, BOUNDARY_MAP_NODES_MAX, listings, BOUNDARY_MAP_LISTINGS_MAX};

/* Every call on the map begins with the three tables and their lengths. */
#define MAP BOUNDARY_MAP_LENT(&map)

static uint32_t say(const char *what, uint64_t answer) {
  printf("%s: %s\n", what, boundary_map_errstr(boundary_map_refusal(answer)));
  return boundary_map_detail(answer);
}

static void ask(void) {
  const uint16_t points[4] = {5, 9000, 5, 8000};
  uint32_t answers[2] = {0, 0};

  say("locate", boundary_map_locate(MAP, points, 4, answers, 2));
  if (boundary_map_is_label(answers[0])) printf("the first point is in region %u\n", boundary_map_answer_label(answers[0]));
  if (boundary_map_is_on_line(answers[1]))
    printf("the second is on the line of slot %lu\n", (unsigned long)boundary_map_answer_slot(answers[1]));
}

int main(void) {
  if (boundary_map_version() != BOUNDARY_MAP_VERSION_NUMBER) return 1; /* another library than this header's */

  say("start", boundary_map_start(MAP));
  uint32_t fence = say("insert", boundary_map_insert(MAP, 0, 8000, 16383, 8000, 7, 9));
  printf("its handle is %lu\n", (unsigned long)fence);
  ask();

  uint32_t conflict = say("insert another", boundary_map_insert(MAP, 40, 0, 40, 16383, 7, 9));
  printf("it %s the line of slot %lu\n", boundary_map_kindstr(boundary_map_conflict_kind(conflict)),
         (unsigned long)boundary_map_conflict_slot(conflict));

  say("delete", boundary_map_delete(MAP, fence));
  say("delete again", boundary_map_delete(MAP, fence));
  printf("the map is %s\n", boundary_map_check(&map) == BOUNDARY_MAP_DONE ? "sound" : "not sound");
  return 0;
}
