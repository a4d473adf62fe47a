/* The header's helpers, tried on the numbers that they must take apart. This
** file is compiled as C99 and as C++; it calls nothing of the library. */
#include "boundary_map.h"
#include "boundary_map.h" /* twice does no harm */

#include <stdio.h>
#include <string.h>

static int wrong = 0;

static void want(int holds, const char *what) {
  if (!holds) {
    printf("wrong: %s\n", what);
    wrong = 1;
  }
}

#define WANT(x) want((x) != 0, #x)

static void answers_of_calls(void) {
  WANT(boundary_map_refusal(0) == BOUNDARY_MAP_DONE);
  WANT(boundary_map_detail(UINT64_C(67043329)) == UINT32_C(67043329));
  WANT(boundary_map_refusal(UINT64_C(67043329)) == BOUNDARY_MAP_DONE);
  WANT(boundary_map_refusal(UINT64_C(5) * 4294967296 + 1023) == BOUNDARY_MAP_CONFLICT);
  WANT(boundary_map_detail(UINT64_C(5) * 4294967296 + 1023) == 1023);
  WANT(boundary_map_refusal(UINT64_C(34359738368)) == BOUNDARY_MAP_UNKNOWN_HANDLE);
  WANT(boundary_map_refusal(UINT64_C(38654705664)) == BOUNDARY_MAP_BAD_WINDOW);
  WANT(boundary_map_refusal(UINT64_C(42949672960)) == BOUNDARY_MAP_LIST_SHORT);
  WANT(boundary_map_refusal(1024) == BOUNDARY_MAP_DONE && boundary_map_detail(1024) == 1024);
  WANT(boundary_map_detail(UINT64_MAX) == UINT32_MAX);
  WANT(boundary_map_conflict_slot(0) == 0 && boundary_map_conflict_slot(1023) == 1023);
  WANT(boundary_map_conflict_slot(4 * UINT32_C(65536) + 1023) == 1023);
  WANT(boundary_map_conflict_kind(4 * UINT32_C(65536) + 1023) == BOUNDARY_MAP_SAME);
  WANT(boundary_map_conflict_kind(65536) == BOUNDARY_MAP_CROSSING);
  WANT(boundary_map_conflict_kind(131071) == BOUNDARY_MAP_CROSSING && boundary_map_conflict_kind(65535) == 0);
}

/* Four kinds, each with words of its own; any other number has words too. */
static void kinds(void) {
  const char *other = boundary_map_kindstr(0);
  WANT(BOUNDARY_MAP_CROSSING == 1 && BOUNDARY_MAP_TOUCHING == 2 && BOUNDARY_MAP_OVERLAP == 3 && BOUNDARY_MAP_SAME == 4);
  WANT(BOUNDARY_MAP_KIND_MAX == BOUNDARY_MAP_SAME);
  WANT(strcmp(other, "conflicts with") == 0);
  for (uint32_t i = 1; i <= BOUNDARY_MAP_KIND_MAX; i++) {
    const char *text = boundary_map_kindstr(i);
    WANT(text != NULL && text[0] != '\0' && strcmp(text, other) != 0);
    for (uint32_t k = 1; k < i; k++) WANT(strcmp(text, boundary_map_kindstr(k)) != 0);
  }
  WANT(strcmp(boundary_map_kindstr(BOUNDARY_MAP_KIND_MAX + 1), other) == 0);
  WANT(boundary_map_kindstr(UINT32_MAX) != NULL && strcmp(boundary_map_kindstr(UINT32_MAX), other) == 0);
}

static void words(void) {
  for (uint32_t i = 0; i < 20; i++) {
    const char *text = boundary_map_errstr(i);
    WANT(text != NULL && text[0] != '\0');
    for (uint32_t k = 0; k < i && k <= BOUNDARY_MAP_REFUSAL_MAX; k++)
      WANT(strcmp(text, boundary_map_errstr(k)) != 0);
  }
  WANT(BOUNDARY_MAP_REFUSAL_MAX == BOUNDARY_MAP_LIST_SHORT);
  /* The largest refusal has words of its own; the number after it has those of no refusal. */
  WANT(strcmp(boundary_map_errstr(BOUNDARY_MAP_REFUSAL_MAX), boundary_map_errstr(UINT32_MAX)) != 0);
  WANT(strcmp(boundary_map_errstr(BOUNDARY_MAP_REFUSAL_MAX + 1), boundary_map_errstr(UINT32_MAX)) == 0);
  WANT(boundary_map_errstr(UINT32_MAX) != NULL);
  WANT(strcmp(boundary_map_errstr(0), "done") == 0);
}

static void handles(void) {
  WANT(boundary_map_handle(0, 1) == 1);
  WANT(boundary_map_handle(1023, 65535) == UINT32_C(67108863));
  WANT(boundary_map_handle(65535, 65535) == UINT32_MAX);
  WANT(boundary_map_handle_slot(UINT32_C(67108863)) == 1023);
  WANT(boundary_map_handle_generation(UINT32_C(67108863)) == 65535);
  WANT(boundary_map_handle_slot(UINT32_MAX) == 65535);
}

static void answers_of_locate(void) {
  WANT(boundary_map_is_label(0) && boundary_map_is_label(65535) && !boundary_map_is_label(65536));
  WANT(!boundary_map_is_on_line(65535) && boundary_map_is_on_line(65536) && boundary_map_is_on_line(66559));
  WANT(boundary_map_is_off_grid(UINT32_MAX) && !boundary_map_is_on_line(UINT32_MAX) && !boundary_map_is_label(UINT32_MAX));
  WANT(boundary_map_answer_slot(66559) == 1023);
  WANT(boundary_map_answer_label(65535) == 65535);
}

static void lengths(void) {
  static uint16_t lines[BOUNDARY_MAP_LINES_LEN(1 + 1)];
  WANT(sizeof lines == 32);
  WANT(BOUNDARY_MAP_LINES_MAX == 8192);
  WANT(BOUNDARY_MAP_POINTS_LEN(2 + 1) == 6);
  WANT(BOUNDARY_MAP_HALF_STEP(BOUNDARY_MAP_GRID_MAX) == BOUNDARY_MAP_SIDE - 1);
}

/* Tells the six arguments of a call apart, by their places. */
static size_t six(const uint16_t *a, size_t n, const uint16_t *b, size_t m, const uint16_t *c, size_t k, size_t more) {
  return a[0] * n * 10000 + b[0] * m * 100 + c[0] * k + more;
}

static void lent(void) {
  uint16_t lines[8] = {1}, nodes[2] = {3}, listings[1] = {5};
  struct boundary_map map = {lines, 8, nodes, 2, listings, 1};
  struct boundary_map maps[2];
  maps[1] = map;
  WANT(six(BOUNDARY_MAP_LENT(&map), 2) == 80607);
  WANT(six(BOUNDARY_MAP_LENT(maps + 1), 0) == 80605);
}

static void version(void) {
  char text[32];
  snprintf(text, sizeof text, "%d.%d.%d", BOUNDARY_MAP_VERSION_NUMBER / 1000000, BOUNDARY_MAP_VERSION_NUMBER / 1000 % 1000,
           BOUNDARY_MAP_VERSION_NUMBER % 1000);
  WANT(strcmp(text, BOUNDARY_MAP_VERSION) == 0);
}

int main(void) {
  answers_of_calls();
  kinds();
  words();
  handles();
  answers_of_locate();
  lengths();
  lent();
  version();
  return wrong;
}
