/* Replaying a script through the library. */
#include "replay.h"

#include <stdlib.h>
#include <string.h>

int replay_prepare(struct replay *replay, const struct script *script) {
  size_t points = script->numbers_count / 2 + 1;
  memset(replay, 0, sizeof *replay);
  replay->asked = calloc(points, sizeof *replay->asked);
  replay->leaves = calloc(script->count + 1, sizeof *replay->leaves);
  replay->windows = calloc(script->count + 1, sizeof *replay->windows);
  replay->points = calloc(2 * points, sizeof *replay->points);
  replay->answers = calloc(points, sizeof *replay->answers);
  return replay->asked != NULL && replay->leaves != NULL && replay->windows != NULL && replay->points != NULL &&
         replay->answers != NULL;
}

void replay_free(struct replay *replay) {
  free(replay->asked);
  free(replay->leaves);
  free(replay->windows);
  free(replay->points);
  free(replay->answers);
}

/* A live line by its slot, with the ends that the lent table has. */
static void print_line(const struct boundary_map *map, size_t slot, FILE *out) {
  fprintf(out, "the line of slot %zu, (%u, %u)-(%u, %u)", slot, entry_of(map, slot, BOUNDARY_MAP_X1),
          entry_of(map, slot, BOUNDARY_MAP_Y1), entry_of(map, slot, BOUNDARY_MAP_X2), entry_of(map, slot, BOUNDARY_MAP_Y2));
}

/* Which line is in the way, and how. A refusal changes nothing, so the line is
** still in the lent table. */
static void print_conflict(const struct boundary_map *map, uint32_t detail, FILE *out) {
  fprintf(out, "refused %d, conflict: %s ", BOUNDARY_MAP_CONFLICT, boundary_map_kindstr(boundary_map_conflict_kind(detail)));
  print_line(map, boundary_map_conflict_slot(detail), out);
}

/* Prints what every answer has, and counts it. Answers whether it is done. */
static int told(struct replay *replay, uint64_t answer, FILE *out) {
  uint32_t refusal = boundary_map_refusal(answer);
  replay->refused[refusal <= BOUNDARY_MAP_REFUSAL_MAX ? refusal : 0]++;
  if (refusal == BOUNDARY_MAP_DONE) fputs("done", out);
  else if (refusal == BOUNDARY_MAP_CONFLICT) print_conflict(&replay->map, boundary_map_detail(answer), out);
  else fprintf(out, "refused %lu, %s", (unsigned long)refusal, boundary_map_errstr(refusal));
  return refusal == BOUNDARY_MAP_DONE;
}

static void print_handle(uint32_t handle, FILE *out) {
  fprintf(out, "handle %lu (slot %lu, generation %lu)", (unsigned long)handle,
          (unsigned long)boundary_map_handle_slot(handle), (unsigned long)boundary_map_handle_generation(handle));
}

/* Lends tables of these lengths and starts a map in them. */
static void start(struct replay *replay, const uint32_t *n, FILE *out) {
  const struct boundary_map *map = &replay->map;
  replay->map = lend(&replay->room, n[0], n[1], n[2]);
  replay->asked_count = replay->leaves_count = replay->windows_count = 0;
  memset(replay->in_window, 0, sizeof replay->in_window);
  memset(replay->refused, 0, sizeof replay->refused);
  fprintf(out, "slots %zu, nodes %zu, listings %zu: ", slots_of(map), map->nodes_len, map->listings_len);
  told(replay, boundary_map_start(BOUNDARY_MAP_LENT(map)), out);
  fputc('\n', out);
}

static void insert(struct replay *replay, const uint32_t *n, FILE *out) {
  uint16_t v[6];
  for (int i = 0; i < 6; i++) v[i] = (uint16_t)n[i];
  fprintf(out, "(%u, %u)-(%u, %u) left %u right %u: ", v[0], v[1], v[2], v[3], v[4], v[5]);
  uint64_t answer = boundary_map_insert(BOUNDARY_MAP_LENT(&replay->map), v[0], v[1], v[2], v[3], v[4], v[5]);
  if (told(replay, answer, out)) {
    fputs(", ", out);
    print_handle(boundary_map_detail(answer), out);
  }
  fputc('\n', out);
}

static void delete(struct replay *replay, uint32_t handle, FILE *out) {
  print_handle(handle, out);
  fputs(": ", out);
  told(replay, boundary_map_delete(BOUNDARY_MAP_LENT(&replay->map), handle), out);
  fputc('\n', out);
}

/* An answer in numbers and words. */
static void print_answer(uint32_t answer, FILE *out) {
  fprintf(out, "%lu, ", (unsigned long)answer);
  if (boundary_map_is_off_grid(answer)) fputs("off the grid", out);
  else if (boundary_map_is_on_line(answer))
    fprintf(out, "on the line of slot %lu", (unsigned long)boundary_map_answer_slot(answer));
  else if (answer == 0) fputs("outside", out);
  else fprintf(out, "in region %lu", (unsigned long)answer);
}

/* Asks all points of the command in one call, as the check of the map is paid
** once a call. */
static void locate(struct replay *replay, const uint32_t *n, size_t count, FILE *out) {
  size_t points = count / 2;
  for (size_t i = 0; i < count; i++) replay->points[i] = (uint16_t)n[i];
  fprintf(out, "%zu %s: ", points, points == 1 ? "point" : "points");
  uint64_t answer = boundary_map_locate(BOUNDARY_MAP_LENT(&replay->map), replay->points, count, replay->answers, points);
  int done = told(replay, answer, out);
  fputc('\n', out);
  for (size_t i = 0; done && i < points; i++) {
    struct asked asked = {replay->points[2 * i], replay->points[2 * i + 1], replay->answers[i]};
    replay->asked[replay->asked_count++] = asked;
    fprintf(out, "              (%u, %u): ", asked.x, asked.y);
    print_answer(asked.answer, out);
    fputc('\n', out);
  }
}

/* Notes the lines that a window told, by what a line in the slot later cannot
** have: the generation. */
static void note_window(struct replay *replay, struct window window, FILE *out) {
  replay->windows[replay->windows_count++] = window;
  for (uint32_t i = 0; i < window.count; i++) {
    size_t slot = replay->slots[i];
    replay->in_window[slot] = entry_of(&replay->map, slot, BOUNDARY_MAP_GENERATION);
    fputs("              ", out);
    print_line(&replay->map, slot, out);
    fputc('\n', out);
  }
}

/* The list has an entry for every slot there can be, so it is never short. */
static void window(struct replay *replay, const uint32_t *n, FILE *out) {
  struct window asked = {(uint16_t)n[0], (uint16_t)n[1], (uint16_t)n[2], (uint16_t)n[3], 0};
  fprintf(out, "x %u to %u, y %u to %u: ", asked.west, asked.east, asked.south, asked.north);
  uint64_t answer = boundary_map_window(BOUNDARY_MAP_LENT(&replay->map), asked.west, asked.south, asked.east, asked.north,
                                        replay->slots, BOUNDARY_MAP_SLOTS_MAX);
  int done = told(replay, answer, out);
  asked.count = boundary_map_detail(answer);
  if (done) fprintf(out, ", %lu %s", (unsigned long)asked.count, asked.count == 1 ? "line" : "lines");
  fputc('\n', out);
  if (done) note_window(replay, asked, out);
}

/* Show leaf does not cross the C boundary: the host has the tables in its
** hands and reads them, with the library's own number for a point off the grid. */
static void leaf(struct replay *replay, const uint32_t *n, FILE *out) {
  const struct boundary_map *map = &replay->map;
  uint16_t x = (uint16_t)n[0], y = (uint16_t)n[1];
  fprintf(out, "(%u, %u): ", x, y);
  if (x > BOUNDARY_MAP_GRID_MAX || y > BOUNDARY_MAP_GRID_MAX) {
    told(replay, (uint64_t)BOUNDARY_MAP_OFF_GRID << 32, out);
  } else {
    struct leaf held = leaf_at(map, x, y);
    replay->leaves[replay->leaves_count++] = held;
    replay->refused[BOUNDARY_MAP_DONE]++;
    fprintf(out, "side %lu at (%lu, %lu) half-steps, lists %zu", (unsigned long)held.block.side,
            (unsigned long)held.block.west, (unsigned long)held.block.south, held.count);
    if (held.count > 0) fprintf(out, ": %s", held.count == 1 ? "slot" : "slots");
    for (size_t i = 0; i < held.count; i++) fprintf(out, " %u", map->listings[held.first + i]);
  }
  fputc('\n', out);
}

static void print_fullness(const struct replay *replay, FILE *out) {
  const struct boundary_map *map = &replay->map;
  struct fullness full = fullness_of(map);
  size_t refusals = 0;
  for (int i = 1; i <= BOUNDARY_MAP_REFUSAL_MAX; i++) refusals += replay->refused[i];
  fprintf(out, "\nslots     %zu live, %zu free, %zu retired, of %zu lent\n", full.live, full.free, full.retired,
          slots_of(map));
  fprintf(out, "nodes     %zu used of %zu lent\n", full.used.node, map->nodes_len);
  fprintf(out, "listings  %zu used of %zu lent\n", full.used.listing, map->listings_len);
  fprintf(out, "answers   %zu done, %zu refused", replay->refused[BOUNDARY_MAP_DONE], refusals);
  for (int i = 1; i <= BOUNDARY_MAP_REFUSAL_MAX; i++)
    if (replay->refused[i] > 0) fprintf(out, "; %zu with %d", replay->refused[i], i);
  fputc('\n', out);
}

static void run(struct replay *replay, const struct script *script, const struct command *command, FILE *out) {
  const uint32_t *n = script->numbers + command->first;
  fprintf(out, "%5lu %-7s ", command->line, script_word(command->kind));
  switch (command->kind) {
    case MAP: start(replay, n, out); break;
    case INSERT: insert(replay, n, out); break;
    case DELETE: delete(replay, n[0], out); break;
    case LOCATE: locate(replay, n, command->count, out); break;
    case WINDOW: window(replay, n, out); break;
    case LEAF: leaf(replay, n, out); break;
  }
}

/* The map of a script that names none: all the room there can be. */
static void start_default(struct replay *replay, FILE *out) {
  static const uint32_t most[3] = {BOUNDARY_MAP_SLOTS_MAX, BOUNDARY_MAP_NODES_MAX, BOUNDARY_MAP_LISTINGS_MAX};
  fprintf(out, "%5s %-7s ", "", script_word(MAP));
  start(replay, most, out);
}

void replay_run(struct replay *replay, const struct script *script, FILE *out) {
  if (script->count == 0 || script->commands[0].kind != MAP) start_default(replay, out);
  for (size_t i = 0; i < script->count; i++) {
    if (i > 0 && script->commands[i].kind == MAP) {
      print_fullness(replay, out);
      fputc('\n', out);
    }
    run(replay, script, &script->commands[i], out);
  }
  print_fullness(replay, out);
}
