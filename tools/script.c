/* Reading an edit script. Nothing here calls the library: a bad script is
** refused whole, before anything is done. */
#include "script.h"

#include <stdlib.h>
#include <string.h>

#include "boundary_map.h"

#define ANY ((size_t)-1)

/* A command's shape: how many numbers it takes, and the range of each (the
** last range serves the numbers after it). */
struct shape {
  const char *word;
  size_t least, most;
  const char *takes;
  uint32_t low[3], high[3];
};

static const struct shape shapes[] = {
  [MAP] = {"map", 3, 3, "3 numbers: SLOTS NODES LISTINGS",
           {1, BOUNDARY_MAP_NODES_MIN, 0},
           {BOUNDARY_MAP_SLOTS_MAX, BOUNDARY_MAP_NODES_MAX, BOUNDARY_MAP_LISTINGS_MAX}},
  [INSERT] = {"insert", 6, 6, "6 numbers: x1 y1 x2 y2 LEFT RIGHT", {0, 0, 0}, {65535, 65535, 65535}},
  [DELETE] = {"delete", 1, 1, "1 handle: a number, or SLOT:GENERATION", {0, 0, 0}, {UINT32_MAX, 0, 0}},
  [LOCATE] = {"locate", 2, ANY, "pairs of numbers: x y [x y ...]", {0, 0, 0}, {65535, 65535, 65535}},
  [WINDOW] = {"window", 4, 4, "4 numbers: WEST SOUTH EAST NORTH", {0, 0, 0}, {65535, 65535, 65535}},
  [LEAF] = {"leaf", 2, 2, "2 numbers: x y", {0, 0, 0}, {65535, 65535, 65535}}
};

#define SHAPES (sizeof shapes / sizeof shapes[0])

const char *script_word(enum kind kind) { return shapes[kind].word; }

/* A word of the text, not copied. */
struct token {
  const char *at;
  size_t length;
};

/* Where the reader stands. */
struct reader {
  struct script *script;
  const char *name;
  FILE *errors;
  unsigned long line;
};

static int is_blank(char c) { return c == ' ' || c == '\t' || c == '\r'; }

/* The next word before end; of length 0 at a comment or the line's end. */
static struct token next_token(const char **at, const char *end) {
  while (*at < end && is_blank(**at)) (*at)++;
  struct token token = {*at, 0};
  while (*at < end && !is_blank(**at) && **at != '#') (*at)++;
  token.length = (size_t)(*at - token.at);
  return token;
}

/* Says what is wrong with the line, with the word if there is one. A script
** may be any file, so only plain characters of the word are shown. */
static int bad(const struct reader *reader, struct token token, const char *what) {
  fprintf(reader->errors, "%s:%lu: ", reader->name, reader->line);
  if (token.length > 0) {
    fputc('\'', reader->errors);
    for (size_t i = 0; i < token.length && i < 24; i++)
      fputc(token.at[i] > ' ' && token.at[i] < 127 ? token.at[i] : '?', reader->errors);
    fputs(token.length > 24 ? "...' " : "' ", reader->errors);
  }
  fprintf(reader->errors, "%s\n", what);
  return 0;
}

/* Says that a command has too few or too many numbers. */
static int bad_count(const struct reader *reader, const struct shape *shape, size_t given) {
  fprintf(reader->errors, "%s:%lu: %s takes %s (%zu given)\n", reader->name, reader->line, shape->word, shape->takes,
          given);
  return 0;
}

/* Says that a number is out of its range. */
static int bad_range(const struct reader *reader, const struct shape *shape, uint32_t low, uint32_t high,
                     struct token token) {
  char what[96];
  snprintf(what, sizeof what, "is no number from %lu to %lu; %s takes %s", (unsigned long)low, (unsigned long)high,
           shape->word, shape->takes);
  return bad(reader, token, what);
}

/* The value of a decimal number from low to high; 0 if it is none. */
static int number_of(struct token token, uint32_t low, uint32_t high, uint32_t *value) {
  uint64_t sum = 0;
  if (token.length == 0) return 0;
  for (size_t i = 0; i < token.length; i++) {
    if (token.at[i] < '0' || token.at[i] > '9') return 0;
    sum = sum * 10 + (uint64_t)(token.at[i] - '0');
    if (sum > high) return 0;
  }
  *value = (uint32_t)sum;
  return sum >= low;
}

/* The value of SLOT:GENERATION; 0 if it is none. */
static int handle_of(struct token token, uint32_t *value) {
  const char *colon = memchr(token.at, ':', token.length);
  uint32_t slot, generation;
  if (colon == NULL) return 0;
  struct token before = {token.at, (size_t)(colon - token.at)};
  struct token after = {colon + 1, token.length - before.length - 1};
  if (!number_of(before, 0, 65535, &slot) || !number_of(after, 0, 65535, &generation)) return 0;
  *value = boundary_map_handle((uint16_t)slot, (uint16_t)generation);
  return 1;
}

/* The shape of a command's word; NULL if there is none. */
static const struct shape *shape_of(struct token token) {
  for (size_t i = 0; i < SHAPES; i++)
    if (strlen(shapes[i].word) == token.length && memcmp(shapes[i].word, token.at, token.length) == 0)
      return &shapes[i];
  return NULL;
}

/* Reads a command's numbers to the end of the line. */
static int read_numbers(const struct reader *reader, const struct shape *shape, const char *at, const char *end,
                        size_t *count) {
  struct script *script = reader->script;
  for (*count = 0;; (*count)++) {
    struct token token = next_token(&at, end);
    size_t range = *count < 3 ? *count : 2;
    uint32_t value = 0;
    if (token.length == 0) return 1;
    if (*count >= shape->most) continue; /* counted, so that the count can be told */
    if (shape == &shapes[DELETE] && handle_of(token, &value)) range = 0;
    else if (!number_of(token, shape->low[range], shape->high[range], &value))
      return bad_range(reader, shape, shape->low[range], shape->high[range], token);
    script->numbers[script->numbers_count + *count] = value;
  }
}

/* Reads one line. Answers 0 if it is bad. */
static int read_line(const struct reader *reader, const char *at, const char *end) {
  struct script *script = reader->script;
  struct token word = next_token(&at, end);
  size_t count;
  if (word.length == 0) return 1;
  const struct shape *shape = shape_of(word);
  if (shape == NULL) return bad(reader, word, "is no command; the commands are map, insert, delete, locate, window and leaf");
  if (!read_numbers(reader, shape, at, end, &count)) return 0;
  if (count < shape->least || count > shape->most || (shape->most == ANY && count % 2 != 0))
    return bad_count(reader, shape, count);
  struct command command = {(enum kind)(shape - shapes), reader->line, script->numbers_count, count};
  script->commands[script->count++] = command;
  script->numbers_count += count;
  return 1;
}

/* The lines of the text, and its words, at most: room for all is had at once. */
static size_t lines_in(const char *text, size_t length) {
  size_t count = 1;
  for (size_t i = 0; i < length; i++) count += text[i] == '\n';
  return count;
}

long script_parse(struct script *script, const char *text, size_t length, const char *name, FILE *errors) {
  struct reader reader = {script, name, errors, 0};
  const char *at = text, *end = text + length;
  long wrong = 0;
  memset(script, 0, sizeof *script);
  script->commands = calloc(lines_in(text, length), sizeof *script->commands);
  script->numbers = calloc(length / 2 + 1, sizeof *script->numbers);
  if (script->commands == NULL || script->numbers == NULL) return -1;
  while (at < end) {
    const char *newline = memchr(at, '\n', (size_t)(end - at));
    const char *stop = newline == NULL ? end : newline;
    reader.line++;
    if (!read_line(&reader, at, stop)) wrong++;
    at = stop < end ? stop + 1 : end;
  }
  return wrong;
}

void script_free(struct script *script) {
  free(script->commands);
  free(script->numbers);
}
