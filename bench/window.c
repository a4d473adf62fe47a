#include "window.h"

#include "tree.h"

#include <string.h>

const struct window windows[WINDOWS] = {
    {"window 2000", 7192, 7192, 9191, 9191},
    {"window 8000", 4192, 4192, 12191, 12191},
    {"window all", 0, 0, GRID_MAX, GRID_MAX},
};

/* What a walk is about, and the slots that it has come upon. */
struct search {
  const u16 *nodes, *listings, *index;
  struct rectangle r;
  uint8_t marks[SLOTS];
};

static bool block_meets(struct block k, struct rectangle r) {
  return (k.west <= r.east) & (r.west <= k.west + k.side) & (k.south <= r.north) & (r.south <= k.south + k.side);
}

static struct block son_of(struct block k, int son) {
  unsigned h = k.side / 2u;
  return block_of(k.west + (son % 2 ? h : 0), k.south + (son < 2 ? h : 0), h);
}

static void mark(struct search *s, size_t first, size_t count) {
  for (size_t i = first; i < first + count; i++) s->marks[s->listings[i]] = 1;
}

static size_t read_marks(const struct search *s, u16 *to) {
  size_t count = 0;
  for (size_t i = 0; i < SLOTS; i++) {
    to[count] = (u16)i;
    count += s->marks[i];
  }
  return count;
}

static struct place pass_block(const u16 *nodes, struct place at) {
  for (size_t left = 1; left > 0; left--) {
    size_t count = nodes[at.node++];
    if (count == DIVIDED) left += 4;
    else at.listing += count;
  }
  return at;
}

static struct place walk_block(struct search *s, struct place at, struct block k) {
  if (!block_meets(k, s->r)) return pass_block(s->nodes, at);
  size_t count = s->nodes[at.node++];
  if (count != DIVIDED) {
    mark(s, at.listing, count);
    at.listing += count;
    return at;
  }
  for (int son = 0; son < 4; son++) at = walk_block(s, at, son_of(k, son));
  return at;
}

static void walk_indexed(struct search *s, size_t node, struct block k) {
  const u16 *entry = s->index + 4 * node;
  if (s->nodes[node] != DIVIDED) {
    mark(s, entry[0], s->nodes[node]);
    return;
  }
  for (int son = 0; son < 4; son++) {
    struct block quarter = son_of(k, son);
    if (block_meets(quarter, s->r)) walk_indexed(s, entry[son], quarter);
  }
}

size_t window_scan(READ_TABLES, VIEW) {
  (void)nodes, (void)nodes_len, (void)listings, (void)listings_len, (void)slots_len;
  return slots_within(lines, lines_len / SLOT, rectangle_of(west, south, east, north), slots);
}

size_t window_walk(READ_TABLES, VIEW) {
  struct search s = {nodes, listings, NULL, rectangle_of(west, south, east, north), {0}};
  struct place start = {0, 0};
  (void)lines, (void)lines_len, (void)nodes_len, (void)listings_len, (void)slots_len;
  walk_block(&s, start, block_of(0, 0, SIDE));
  return read_marks(&s, slots);
}

size_t window_indexed(READ_TABLES, VIEW) {
  u16 index[4 * ROOM] = {0};
  struct search s = {nodes, listings, index, rectangle_of(west, south, east, north), {0}};
  struct place start = {0, 0};
  (void)lines, (void)lines_len, (void)nodes_len, (void)listings_len, (void)slots_len;
  index_block(nodes, index, start);
  walk_indexed(&s, 0, block_of(0, 0, SIDE));
  return read_marks(&s, slots);
}
