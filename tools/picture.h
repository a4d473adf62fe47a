/* Drawing the map that a replay left, as SVG. */
#ifndef PICTURE_H
#define PICTURE_H

#include <stdio.h>

#include "replay.h"

/* Draws the last map: lines with the labels on their sides, blocks, and the
** points, leaves and windows asked. It shows the part of the map that is used,
** or with whole set the whole map. */
void picture_draw(FILE *out, const struct replay *replay, const char *title, int whole);

#endif
