/* Reading the lent tables on the host's side. */
#include "tables.h"

struct boundary_map lend(struct room *room, size_t slots, size_t nodes_len, size_t listings_len) {
  struct boundary_map map = {room->lines,    BOUNDARY_MAP_LINES_LEN(slots), room->nodes, nodes_len,
                             room->listings, listings_len};
  return map;
}

size_t slots_of(const struct boundary_map *map) {
  return map->lines_len / BOUNDARY_MAP_SLOT_LEN;
}

struct block block_son(struct block block, int son) {
  uint32_t half = block.side / 2;
  struct block quarter = {block.west + (son % 2 ? half : 0), block.south + (son < 2 ? half : 0), half};
  return quarter;
}

/* Passes over a whole block: its node, and all below it. */
static struct place pass(const uint16_t *nodes, struct place at) {
  size_t open = 1;
  while (open > 0) {
    uint16_t node = nodes[at.node++];
    if (node == BOUNDARY_MAP_DIVIDED) {
      open += 3;
    } else {
      at.listing += node;
      open--;
    }
  }
  return at;
}

struct leaf leaf_at(const struct boundary_map *map, uint16_t x, uint16_t y) {
  uint32_t px = BOUNDARY_MAP_HALF_STEP((uint32_t)x), py = BOUNDARY_MAP_HALF_STEP((uint32_t)y);
  struct block block = {0, 0, BOUNDARY_MAP_SIDE};
  struct place at = {0, 0};
  while (map->nodes[at.node] == BOUNDARY_MAP_DIVIDED) {
    /* A point stands at odd half-steps and a side at even ones: no ties. */
    int east = px > block.west + block.side / 2, south = py < block.south + block.side / 2;
    int son = 2 * south + east;
    at.node++;
    for (int i = 0; i < son; i++) at = pass(map->nodes, at);
    block = block_son(block, son);
  }
  struct leaf leaf = {block, at.listing, map->nodes[at.node]};
  return leaf;
}

uint16_t entry_of(const struct boundary_map *map, size_t slot, enum boundary_map_entry entry) {
  return map->lines[BOUNDARY_MAP_LINES_LEN(slot) + (size_t)entry];
}

struct fullness fullness_of(const struct boundary_map *map) {
  struct place start = {0, 0};
  struct fullness full = {0, 0, 0, {0, 0}};
  for (size_t slot = 0; slot < slots_of(map); slot++) {
    if (entry_of(map, slot, BOUNDARY_MAP_LIVE)) full.live++;
    else if (entry_of(map, slot, BOUNDARY_MAP_GENERATION) == BOUNDARY_MAP_GENERATION_MAX) full.retired++;
    else full.free++;
  }
  full.used = pass(map->nodes, start);
  return full;
}
