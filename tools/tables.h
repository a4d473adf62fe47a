/* Reading the lent tables on the host's side: the tree in the node table, the
** leaf that holds a point, how full each table is. Only for a sound map, as
** every call that is not refused leaves it. */
#ifndef TABLES_H
#define TABLES_H

#include <stddef.h>
#include <stdint.h>

#include "boundary_map.h"

/* Memory for the largest map. */
struct room {
  uint16_t lines[BOUNDARY_MAP_LINES_MAX];
  uint16_t nodes[BOUNDARY_MAP_NODES_MAX];
  uint16_t listings[BOUNDARY_MAP_LISTINGS_MAX];
};

/* A map of these sizes in the first entries of the room, whatever they hold. */
struct boundary_map lend(struct room *room, size_t slots, size_t nodes_len, size_t listings_len);

/* A block, in half-steps. */
struct block {
  uint32_t west, south, side;
};

/* A leaf: its block, and its part of the listing table. */
struct leaf {
  struct block block;
  size_t first, count;
};

/* A place in the node table, and in the listing table beside it. */
struct place {
  size_t node, listing;
};

struct fullness {
  size_t live, free, retired;
  struct place used;
};

/* The quarter of a block, 0 to 3 for NW, NE, SW, SE as the node table has them. */
struct block block_son(struct block block, int son);

/* The leaf that holds the grid point. Both coordinates are on the grid. */
struct leaf leaf_at(const struct boundary_map *map, uint16_t x, uint16_t y);

size_t slots_of(const struct boundary_map *map);

struct fullness fullness_of(const struct boundary_map *map);

/* A slot's entry, as the header names it. */
uint16_t entry_of(const struct boundary_map *map, size_t slot, enum boundary_map_entry entry);

#endif
