/* Reading the node table: places in it, and its index. */
#ifndef BENCH_TREE_H
#define BENCH_TREE_H

#include "plane.h"

struct place { size_t node, listing; };

/* Four entries for each node: the sons of a divided block, or first where a leaf's listings start. */
static struct place index_block(const u16 *nodes, u16 *index, struct place at) {
  u16 *entry = index + 4 * at.node;
  size_t count = nodes[at.node++];
  if (count != DIVIDED) {
    entry[0] = (u16)at.listing;
    at.listing += count;
    return at;
  }
  for (int son = 0; son < 4; son++) {
    entry[son] = (u16)at.node;
    at = index_block(nodes, index, at);
  }
  return at;
}

#endif
