/* An edit script, read whole before the first call. docs/SCRIPT.md has the format. */
#ifndef SCRIPT_H
#define SCRIPT_H

#include <stddef.h>
#include <stdint.h>
#include <stdio.h>

enum kind { MAP, INSERT, DELETE, LOCATE, WINDOW, LEAF };

/* One command. Its numbers are numbers[first] on, in the script's one list. */
struct command {
  enum kind kind;
  unsigned long line;
  size_t first;
  size_t count;
};

struct script {
  struct command *commands;
  size_t count;
  uint32_t *numbers;
  size_t numbers_count;
};

/* The command's word. */
const char *script_word(enum kind kind);

/*
** Reads a script from its text. Each bad line is told on errors as
** 'name:line: what is wrong'. Answers the number of bad lines; -1 if memory ran
** out. The script is to be freed in any case.
*/
long script_parse(struct script *script, const char *text, size_t length, const char *name, FILE *errors);

void script_free(struct script *script);

#endif
