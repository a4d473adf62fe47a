/* boundary-map: replays an edit script through the library, prints each answer
** and draws the map. The format is in docs/SCRIPT.md, the manual in
** docs/man/boundary-map.1. */
#include <stdio.h>
#include <stdlib.h>
#include <string.h>

#include "boundary_map.h"
#include "picture.h"
#include "replay.h"
#include "script.h"

enum { FINE = 0, FILE_TROUBLE = 1, BAD_SCRIPT = 2 };

static const char usage[] =
    "usage: boundary-map [--svg FILE] [--whole] [SCRIPT]\n"
    "\n"
    "Replays an edit script through the boundary map library and prints each answer.\n"
    "Without SCRIPT, or with -, the script is read from standard input.\n"
    "\n"
    "  --svg FILE  draw the map at the script's end, with what was asked, into FILE\n"
    "  --whole     draw the whole map, not only the part used\n"
    "  --help      print this and end\n"
    "  --version   print the version and end\n"
    "\n"
    "One command a line; # begins a comment:\n"
    "  map SLOTS NODES LISTINGS          start a map in tables of these sizes\n"
    "                                    (1024 16384 16384 if the script names none)\n"
    "  insert x1 y1 x2 y2 LEFT RIGHT     a line, and the regions on its sides\n"
    "  delete HANDLE                     a number, or SLOT:GENERATION\n"
    "  locate x y [x y ...]              which region is each point in?\n"
    "  window WEST SOUTH EAST NORTH      which lines meet the rectangle?\n"
    "  leaf x y                          the tree's leaf that holds the point\n"
    "\n"
    "Exit status: 0 all was replayed (a refusal is an answer too); 1 a file could not\n"
    "be read or written; 2 a bad option or script, and nothing was done.\n";

struct options {
  const char *script, *svg;
  int whole, help, version;
};

/* The part of an argument after 'name='; NULL if it is another. */
static const char *value_of(const char *argument, const char *name) {
  size_t length = strlen(name);
  return strncmp(argument, name, length) == 0 && argument[length] == '=' ? argument + length + 1 : NULL;
}

/* An option that stands alone; NULL if the argument is none. */
static int *flag_of(struct options *options, const char *argument) {
  if (strcmp(argument, "--help") == 0) return &options->help;
  if (strcmp(argument, "--version") == 0) return &options->version;
  if (strcmp(argument, "--whole") == 0) return &options->whole;
  return NULL;
}

/* Reads one argument; answers how many it took, 0 if it is bad. */
static int read_option(struct options *options, char **at) {
  int *flag = flag_of(options, at[0]);
  const char *svg = value_of(at[0], "--svg");
  if (flag != NULL) {
    *flag = 1;
    return 1;
  }
  if (strcmp(at[0], "--svg") == 0 && at[1] != NULL) {
    options->svg = at[1];
    return 2;
  }
  if (svg != NULL) {
    options->svg = svg;
    return 1;
  }
  if ((at[0][0] == '-' && at[0][1] != '\0') || options->script != NULL) return 0;
  options->script = at[0];
  return 1;
}

static int read_options(struct options *options, char **at) {
  memset(options, 0, sizeof *options);
  while (*at != NULL) {
    int took = read_option(options, at);
    if (took == 0) {
      fprintf(stderr, "boundary-map: '%s' is no option, or lacks something; --help tells them\n", *at);
      return 0;
    }
    at += took;
  }
  return 1;
}

/* All of a file in memory; NULL if it cannot be read. */
static char *read_all(FILE *in, size_t *length) {
  size_t room = 65536;
  char *text = malloc(room);
  *length = 0;
  while (text != NULL) {
    *length += fread(text + *length, 1, room - *length, in);
    if (*length < room) break;
    char *larger = realloc(text, room *= 2);
    if (larger == NULL) free(text);
    text = larger;
  }
  if (text != NULL && ferror(in)) {
    free(text);
    text = NULL;
  }
  return text;
}

static int trouble(const char *what, const char *name) {
  fprintf(stderr, "boundary-map: %s %s\n", what, name);
  return FILE_TROUBLE;
}

static int is_stdin(const struct options *options) {
  return options->script == NULL || strcmp(options->script, "-") == 0;
}

static char *read_script(const struct options *options, size_t *length) {
  if (is_stdin(options)) return read_all(stdin, length);
  FILE *in = fopen(options->script, "rb");
  if (in == NULL) return NULL;
  char *text = read_all(in, length);
  fclose(in);
  return text;
}

/* The script's own name, without its folder: a picture does not tell where it
** was made. */
static const char *title_of(const struct options *options) {
  if (is_stdin(options)) return "boundary map";
  const char *slash = strrchr(options->script, '/');
  return slash == NULL ? options->script : slash + 1;
}

static int draw(const struct options *options, const struct replay *replay) {
  FILE *out = fopen(options->svg, "wb");
  if (out == NULL) return trouble("cannot write", options->svg);
  picture_draw(out, replay, title_of(options), options->whole);
  int failed = ferror(out);
  if (fclose(out) != 0 || failed) return trouble("cannot write", options->svg);
  return FINE;
}

/* Replays a script that was read whole and found good. */
static int replay_all(const struct options *options, const struct script *script) {
  static struct replay replay;
  int status = FINE;
  if (!replay_prepare(&replay, script)) {
    status = trouble("not enough memory for", title_of(options));
  } else {
    replay_run(&replay, script, stdout);
    if (fflush(stdout) != 0 || ferror(stdout)) status = trouble("cannot write", "the answers");
    else if (options->svg != NULL) status = draw(options, &replay);
  }
  replay_free(&replay);
  return status;
}

static int parse_and_replay(const struct options *options, const char *name) {
  struct script script;
  size_t length;
  char *text = read_script(options, &length);
  if (text == NULL) return trouble("cannot read", name);
  long wrong = script_parse(&script, text, length, name, stderr);
  int status = wrong < 0 ? trouble("not enough memory for", name) : wrong > 0 ? BAD_SCRIPT : replay_all(options, &script);
  if (wrong > 0) fprintf(stderr, "boundary-map: %ld bad %s; nothing was done\n", wrong, wrong == 1 ? "line" : "lines");
  script_free(&script);
  free(text);
  return status;
}

int main(int argc, char **argv) {
  struct options options;
  if (argc < 1 || !read_options(&options, argv + 1)) return BAD_SCRIPT;
  if (options.help) return fputs(usage, stdout) == EOF ? FILE_TROUBLE : FINE;
  if (options.version) return puts("boundary-map " BOUNDARY_MAP_VERSION) == EOF ? FILE_TROUBLE : FINE;
  return parse_and_replay(&options, is_stdin(&options) ? "standard input" : options.script);
}
