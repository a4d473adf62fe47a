/* Replaying a script through the library, as a tablet's host would call it. */
#ifndef REPLAY_H
#define REPLAY_H

#include <stdio.h>

#include "script.h"
#include "tables.h"

/* A point asked, and what was answered at the time. */
struct asked {
  uint16_t x, y;
  uint32_t answer;
};

/* A window asked, and how many lines met it at the time. */
struct window {
  uint16_t west, south, east, north;
  uint32_t count;
};

/* What a replay leaves: the last map, and what was asked of it, for drawing. */
struct replay {
  struct room room;
  struct boundary_map map;
  struct asked *asked;
  size_t asked_count;
  struct leaf *leaves;
  size_t leaves_count;
  struct window *windows;
  size_t windows_count;
  uint16_t in_window[BOUNDARY_MAP_SLOTS_MAX]; /* by slot, the generation of the line that a window told last; 0 none */
  size_t refused[BOUNDARY_MAP_REFUSAL_MAX + 1];
  uint16_t *points;
  uint32_t *answers;
  uint16_t slots[BOUNDARY_MAP_SLOTS_MAX];
};

/* Has all memory that the script will need, so that a replay is never left in
** the middle. Answers 0 if there is not enough; free in any case. */
int replay_prepare(struct replay *replay, const struct script *script);

/* Does every command, printing each answer, and how full the map is at the end. */
void replay_run(struct replay *replay, const struct script *script, FILE *out);

void replay_free(struct replay *replay);

#endif
