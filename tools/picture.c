/* Drawing the map that a replay left, as SVG. Every number printed is a plain
** sum, product or square root of whole numbers with one decimal, so that the
** same map gives the same file everywhere. */
#include "picture.h"

#include <math.h>
#include <stdarg.h>
#include <string.h>

#define PANE 880.0 /* the side of the frame */
#define MARGIN 8.0 /* kept free in it, for marks at the map's edge */
#define DRAWN (PANE - 2 * MARGIN)
#define LEFT 20.0
#define TOP 50.0
#define LEGEND (LEFT + PANE + 24.0)
#define WIDTH 1180
#define HEIGHT 966
#define LEGEND_REGIONS 32
#define LEGEND_WINDOWS 2 /* rows that windows take, of the regions' */

#define FONT 10.0       /* of labels; smaller beside a short line */
#define FONT_SMALL 7.5
#define LABEL_LARGE 60.0 /* a shorter line has small labels */
#define LABEL_ROOM 12.0  /* a still shorter one has no room for any */
#define WINDOW_LEAST 5.0 /* a window of a segment is drawn so wide */
#define WINDOW_POINT 9.0 /* and one of a point */

static const char *const palette[] = {
    "#1b6ca8", "#c8553d", "#2e7d32", "#8e44ad", "#b07d00", "#00838f", "#d81b60", "#6d4c41", "#3949ab", "#7a9a01",
    "#ef6c00", "#004d40", "#5aa9e6", "#7b1e3a", "#58b368", "#b48ce0", "#8a8d00", "#ff6f91", "#37566b",
    "#9e2a2b", "#26b394", "#4b1d8f", "#f2a541", "#a1887f"};
#define COLOURS (sizeof palette / sizeof palette[0])
#define OUTSIDE "#8a8a8a"
#define ON_LINE "#ffd400"
#define INK "#222222"
#define WINDOW_STYLE "fill=\"#e91e63\" fill-opacity=\"0.06\" stroke=\"#c2185b\" stroke-width=\"1.2\" stroke-dasharray=\"5 3\""
#define IN_WINDOW_STYLE "stroke=\"#e91e63\" stroke-opacity=\"0.35\" stroke-width=\"7\" stroke-linecap=\"round\""

/* What a label has in this picture. */
struct region {
  int seen;
  size_t rank;  /* among the labels seen: neighbours get different colours */
  size_t asked; /* points answered with it */
};

struct picture {
  FILE *out;
  const struct replay *replay;
  struct block view; /* the part shown, in half-steps; need not be a block of the tree */
  struct region regions[65536];
  size_t on_line, off_grid, unlabelled;
};

/* A place in the picture. */
struct spot {
  double x, y;
};

static struct spot spot_of(const struct picture *p, uint32_t west, uint32_t south) {
  double scale = DRAWN / p->view.side;
  struct spot spot = {LEFT + MARGIN + ((double)west - p->view.west) * scale,
                      TOP + PANE - MARGIN - ((double)south - p->view.south) * scale};
  return spot;
}

static struct spot spot_of_grid(const struct picture *p, uint16_t x, uint16_t y) {
  return spot_of(p, BOUNDARY_MAP_HALF_STEP((uint32_t)x), BOUNDARY_MAP_HALF_STEP((uint32_t)y));
}

static const char *colour_of(const struct picture *p, uint16_t label) {
  return label == 0 ? OUTSIDE : palette[p->regions[label].rank % COLOURS];
}

/* The part of the map that is used: the least and greatest half-steps. */
struct extent {
  uint32_t west, south, east, north;
};

static void reach(struct extent *e, uint16_t x, uint16_t y) {
  uint32_t px = BOUNDARY_MAP_HALF_STEP((uint32_t)x), py = BOUNDARY_MAP_HALF_STEP((uint32_t)y);
  if (px < e->west) e->west = px;
  if (px > e->east) e->east = px;
  if (py < e->south) e->south = py;
  if (py > e->north) e->north = py;
}

static struct extent extent_of(const struct replay *replay) {
  const struct boundary_map *map = &replay->map;
  struct extent e = {BOUNDARY_MAP_SIDE, BOUNDARY_MAP_SIDE, 0, 0};
  for (size_t slot = 0; slot < slots_of(map); slot++) {
    if (!entry_of(map, slot, BOUNDARY_MAP_LIVE)) continue;
    reach(&e, entry_of(map, slot, BOUNDARY_MAP_X1), entry_of(map, slot, BOUNDARY_MAP_Y1));
    reach(&e, entry_of(map, slot, BOUNDARY_MAP_X2), entry_of(map, slot, BOUNDARY_MAP_Y2));
  }
  for (size_t i = 0; i < replay->asked_count; i++)
    if (!boundary_map_is_off_grid(replay->asked[i].answer)) reach(&e, replay->asked[i].x, replay->asked[i].y);
  for (size_t i = 0; i < replay->windows_count; i++) {
    reach(&e, replay->windows[i].west, replay->windows[i].south);
    reach(&e, replay->windows[i].east, replay->windows[i].north);
  }
  return e;
}

/* The least place of a view of this side about the middle, kept on the map. */
static uint32_t placed(uint32_t low, uint32_t high, uint32_t side) {
  uint32_t middle = (low + high) / 2, from = middle < side / 2 ? 0 : middle - side / 2;
  return from > BOUNDARY_MAP_SIDE - side ? BOUNDARY_MAP_SIDE - side : from;
}

static struct block view_of(const struct replay *replay, int whole) {
  struct extent e = extent_of(replay);
  struct block all = {0, 0, BOUNDARY_MAP_SIDE};
  if (whole || e.east < e.west) return all;
  uint32_t across = e.east - e.west, up = e.north - e.south, side = across > up ? across : up;
  side += side / 6 + 8;
  if (side > BOUNDARY_MAP_SIDE / 2) return all;
  struct block view = {placed(e.west, e.east, side), placed(e.south, e.north, side), side};
  return view;
}

/* Notes the labels of live lines and of answers, and ranks them. */
static void note_regions(struct picture *p) {
  const struct boundary_map *map = &p->replay->map;
  size_t rank = 0;
  for (size_t slot = 0; slot < slots_of(map); slot++) {
    if (!entry_of(map, slot, BOUNDARY_MAP_LIVE)) continue;
    p->regions[entry_of(map, slot, BOUNDARY_MAP_LEFT)].seen = 1;
    p->regions[entry_of(map, slot, BOUNDARY_MAP_RIGHT)].seen = 1;
  }
  for (size_t i = 0; i < p->replay->asked_count; i++) {
    uint32_t answer = p->replay->asked[i].answer;
    if (boundary_map_is_off_grid(answer)) {
      p->off_grid++;
    } else if (boundary_map_is_on_line(answer)) {
      p->on_line++;
    } else {
      p->regions[answer].seen = 1;
      p->regions[answer].asked++;
    }
  }
  for (size_t label = 1; label < 65536; label++)
    if (p->regions[label].seen) p->regions[label].rank = rank++;
}

/* Text from outside, made fit for XML. */
static void print_text(FILE *out, const char *text) {
  for (; *text != '\0'; text++) {
    if (*text == '<') fputs("&lt;", out);
    else if (*text == '&') fputs("&amp;", out);
    else if ((unsigned char)*text < ' ') fputc(' ', out);
    else fputc(*text, out);
  }
}

static void draw_head(const struct picture *p, const char *title) {
  FILE *out = p->out;
  fprintf(out, "<svg xmlns=\"http://www.w3.org/2000/svg\" viewBox=\"0 0 %d %d\" width=\"%d\" height=\"%d\"", WIDTH, HEIGHT,
          WIDTH, HEIGHT);
  fputs(" font-family=\"DejaVu Sans, Verdana, sans-serif\">\n<title>", out);
  print_text(out, title);
  fputs("</title>\n<rect width=\"100%\" height=\"100%\" fill=\"#ffffff\"/>\n", out);
  fprintf(out, "<text x=\"%.0f\" y=\"32\" font-size=\"20\" font-weight=\"bold\" fill=\"" INK "\">", LEFT);
  print_text(out, title);
  fputs("</text>\n", out);
  fprintf(out, "<clipPath id=\"pane\"><rect x=\"%.0f\" y=\"%.0f\" width=\"%.0f\" height=\"%.0f\"/></clipPath>\n", LEFT, TOP,
          PANE, PANE);
}

/* Blocks that do not touch the view, or are too small to see, are left out. */
static int is_seen(const struct picture *p, struct block b) {
  const struct block *w = &p->view;
  return b.west <= w->west + w->side && w->west <= b.west + b.side && b.south <= w->south + w->side &&
         w->south <= b.south + b.side && b.side * DRAWN / w->side >= 2.0;
}

/* Draws a block's division as a cross, and those of its sons; one path for the
** whole tree. Answers the node after the block. */
static size_t draw_block(const struct picture *p, size_t node, struct block block) {
  if (p->replay->map.nodes[node++] != BOUNDARY_MAP_DIVIDED) return node;
  if (is_seen(p, block)) {
    uint32_t half = block.side / 2;
    struct spot west = spot_of(p, block.west, block.south + half), south = spot_of(p, block.west + half, block.south);
    double side = block.side * DRAWN / p->view.side;
    fprintf(p->out, "M%.1f %.1fh%.1fM%.1f %.1fv-%.1f\n", west.x, west.y, side, south.x, south.y, side);
  }
  for (int son = 0; son < 4; son++) node = draw_block(p, node, block_son(block, son));
  return node;
}

static void draw_blocks(const struct picture *p) {
  struct block whole = {0, 0, BOUNDARY_MAP_SIDE};
  struct spot corner = spot_of(p, 0, BOUNDARY_MAP_SIDE);
  double side = BOUNDARY_MAP_SIDE * DRAWN / p->view.side;
  fprintf(p->out, "<path fill=\"none\" stroke=\"#cbd3da\" d=\"M%.1f %.1fh%.1fv%.1fh-%.1fz\n", corner.x, corner.y, side, side,
          side);
  draw_block(p, 0, whole);
  fputs("\"/>\n", p->out);
}

static void draw_leaves(const struct picture *p) {
  for (size_t i = 0; i < p->replay->leaves_count; i++) {
    const struct leaf *leaf = &p->replay->leaves[i];
    struct spot corner = spot_of(p, leaf->block.west, leaf->block.south + leaf->block.side);
    double side = leaf->block.side * DRAWN / p->view.side;
    fprintf(p->out,
            "<rect x=\"%.1f\" y=\"%.1f\" width=\"%.1f\" height=\"%.1f\" fill=\"#fff3c4\" stroke=\"#e0b000\">"
            "<title>leaf of side %lu at (%lu, %lu) half-steps, lists %zu</title></rect>\n",
            corner.x, corner.y, side, side, (unsigned long)leaf->block.side, (unsigned long)leaf->block.west,
            (unsigned long)leaf->block.south, leaf->count);
  }
}

/* The two ends of a line in the picture. */
struct stroke {
  struct spot a, b;
};

static struct stroke stroke_of(const struct picture *p, size_t slot) {
  const struct boundary_map *map = &p->replay->map;
  struct stroke stroke = {
      spot_of_grid(p, entry_of(map, slot, BOUNDARY_MAP_X1), entry_of(map, slot, BOUNDARY_MAP_Y1)),
      spot_of_grid(p, entry_of(map, slot, BOUNDARY_MAP_X2), entry_of(map, slot, BOUNDARY_MAP_Y2))};
  return stroke;
}

static void draw_window(const struct picture *p, const struct window *w) {
  struct spot from = spot_of_grid(p, w->west, w->north), to = spot_of_grid(p, w->east, w->south);
  double across = to.x - from.x, up = to.y - from.y;
  double least = across < WINDOW_LEAST && up < WINDOW_LEAST ? WINDOW_POINT : WINDOW_LEAST;
  double wide = across < least ? least : across, high = up < least ? least : up;
  fprintf(p->out,
          "<rect x=\"%.1f\" y=\"%.1f\" width=\"%.1f\" height=\"%.1f\"><title>window x %u to %u, y %u to %u: %lu %s</title></rect>\n",
          from.x - (wide - across) / 2, from.y - (high - up) / 2, wide, high, w->west, w->east, w->south, w->north,
          (unsigned long)w->count, w->count == 1 ? "line" : "lines");
}

/* Whether a window told the line; one that has come into the slot since then is another. */
static int is_in_window(const struct replay *replay, size_t slot) {
  return entry_of(&replay->map, slot, BOUNDARY_MAP_LIVE) &&
         replay->in_window[slot] == entry_of(&replay->map, slot, BOUNDARY_MAP_GENERATION);
}

/* The lines that windows told have a broad stroke, under what is drawn later. */
static void draw_windows(const struct picture *p) {
  if (p->replay->windows_count == 0) return;
  fputs("<path " IN_WINDOW_STYLE " d=\"", p->out);
  for (size_t slot = 0; slot < slots_of(&p->replay->map); slot++) {
    struct stroke s = stroke_of(p, slot);
    if (is_in_window(p->replay, slot)) fprintf(p->out, "M%.1f %.1fL%.1f %.1f\n", s.a.x, s.a.y, s.b.x, s.b.y);
  }
  fputs("\"/>\n<g " WINDOW_STYLE ">\n", p->out);
  for (size_t i = 0; i < p->replay->windows_count; i++) draw_window(p, &p->replay->windows[i]);
  fputs("</g>\n", p->out);
}

static void draw_line(const struct picture *p, size_t slot) {
  const struct boundary_map *map = &p->replay->map;
  struct stroke s = stroke_of(p, slot);
  fprintf(p->out, "<path d=\"M%.1f %.1fL%.1f %.1f\"><title>slot %zu, generation %u: (%u, %u)-(%u, %u) left %u right %u</title></path>\n",
          s.a.x, s.a.y, s.b.x, s.b.y, slot, entry_of(map, slot, BOUNDARY_MAP_GENERATION),
          entry_of(map, slot, BOUNDARY_MAP_X1), entry_of(map, slot, BOUNDARY_MAP_Y1), entry_of(map, slot, BOUNDARY_MAP_X2),
          entry_of(map, slot, BOUNDARY_MAP_Y2), entry_of(map, slot, BOUNDARY_MAP_LEFT), entry_of(map, slot, BOUNDARY_MAP_RIGHT));
}

static void draw_ends(const struct picture *p, size_t slot) {
  struct stroke s = stroke_of(p, slot);
  fprintf(p->out, "<circle cx=\"%.1f\" cy=\"%.1f\" r=\"2\"/><circle cx=\"%.1f\" cy=\"%.1f\" r=\"2\"/>\n", s.a.x, s.a.y,
          s.b.x, s.b.y);
}

static void draw_label(const struct picture *p, struct spot at, double font, uint16_t label) {
  fprintf(p->out, "<text x=\"%.1f\" y=\"%.1f\" font-size=\"%.1f\" fill=\"%s\">%u</text>\n", at.x, at.y + 0.36 * font, font,
          colour_of(p, label), label);
}

/* The labels, each on its side of the line. They stand a little before and
** after the middle, so that those of two close lines do not fall together. */
static void draw_labels(struct picture *p, size_t slot) {
  const struct boundary_map *map = &p->replay->map;
  struct stroke s = stroke_of(p, slot);
  double dx = s.b.x - s.a.x, dy = s.b.y - s.a.y, length = sqrt(dx * dx + dy * dy);
  double font = length < LABEL_LARGE ? FONT_SMALL : FONT;
  if (length < LABEL_ROOM) {
    p->unlabelled++;
    return;
  }
  /* Left of the way from a to b, where y grows downwards. A number is wider
  ** than high, so it stands off further sideways. */
  double nx = dy / length * (font * 0.95), ny = -dx / length * (font * 0.75);
  struct spot left = {s.a.x + 0.42 * dx + nx, s.a.y + 0.42 * dy + ny};
  struct spot right = {s.a.x + 0.58 * dx - nx, s.a.y + 0.58 * dy - ny};
  draw_label(p, left, font, entry_of(map, slot, BOUNDARY_MAP_LEFT));
  draw_label(p, right, font, entry_of(map, slot, BOUNDARY_MAP_RIGHT));
}

static void draw_lines(struct picture *p) {
  const struct boundary_map *map = &p->replay->map;
  fputs("<g stroke=\"" INK "\" stroke-width=\"1.6\" stroke-linecap=\"round\">\n", p->out);
  for (size_t slot = 0; slot < slots_of(map); slot++)
    if (entry_of(map, slot, BOUNDARY_MAP_LIVE)) draw_line(p, slot);
  fputs("</g>\n<g fill=\"" INK "\">\n", p->out);
  for (size_t slot = 0; slot < slots_of(map); slot++)
    if (entry_of(map, slot, BOUNDARY_MAP_LIVE)) draw_ends(p, slot);
  fputs("</g>\n<g font-weight=\"bold\" text-anchor=\"middle\">\n", p->out);
  for (size_t slot = 0; slot < slots_of(map); slot++)
    if (entry_of(map, slot, BOUNDARY_MAP_LIVE)) draw_labels(p, slot);
  fputs("</g>\n", p->out);
}

/* A point's mark: a diamond on a line, a ring outside, a disc in a region. */
static void draw_mark(const struct picture *p, struct spot at, uint32_t answer) {
  if (boundary_map_is_on_line(answer))
    fprintf(p->out, "<path d=\"M%.1f %.1fl5.5 5.5l-5.5 5.5l-5.5 -5.5z\" fill=\"" ON_LINE "\" stroke=\"" INK "\">", at.x,
            at.y - 5.5);
  else if (answer == 0)
    fprintf(p->out, "<circle cx=\"%.1f\" cy=\"%.1f\" r=\"3.6\" fill=\"#ffffff\" stroke=\"" OUTSIDE "\" stroke-width=\"1.6\">", at.x,
            at.y);
  else
    fprintf(p->out, "<circle cx=\"%.1f\" cy=\"%.1f\" r=\"4.2\" fill=\"%s\" stroke=\"#ffffff\">", at.x, at.y,
            colour_of(p, boundary_map_answer_label(answer)));
}

static void end_mark(const struct picture *p, uint32_t answer) {
  fputs(boundary_map_is_on_line(answer) ? "</path>\n" : "</circle>\n", p->out);
}

static void draw_points(const struct picture *p) {
  for (size_t i = 0; i < p->replay->asked_count; i++) {
    const struct asked *asked = &p->replay->asked[i];
    if (boundary_map_is_off_grid(asked->answer)) continue;
    draw_mark(p, spot_of_grid(p, asked->x, asked->y), asked->answer);
    fprintf(p->out, "<title>(%u, %u): %lu</title>", asked->x, asked->y, (unsigned long)asked->answer);
    end_mark(p, asked->answer);
  }
}

/* A row of the legend: the text beside a mark drawn before it. */
static void legend_text(const struct picture *p, double *y, const char *format, ...) {
  va_list values;
  va_start(values, format);
  fprintf(p->out, "<text x=\"%.0f\" y=\"%.0f\">", LEGEND + 28, *y + 4);
  vfprintf(p->out, format, values);
  fputs("</text>\n", p->out);
  va_end(values);
  *y += 20;
}

static void legend_mark(const struct picture *p, double y, uint32_t answer) {
  struct spot at = {LEGEND + 10, y};
  draw_mark(p, at, answer);
  end_mark(p, answer);
}

/* What windows look like, and the lines in them. */
static void legend_windows(const struct picture *p, double *y) {
  size_t lines = 0;
  for (size_t slot = 0; slot < slots_of(&p->replay->map); slot++) lines += (size_t)is_in_window(p->replay, slot);
  fprintf(p->out, "<rect x=\"%.0f\" y=\"%.0f\" width=\"18\" height=\"14\" " WINDOW_STYLE "/>\n", LEGEND + 1, *y - 7);
  legend_text(p, y, "a window: %zu asked", p->replay->windows_count);
  fprintf(p->out, "<path d=\"M%.0f %.0fh14\" " IN_WINDOW_STYLE "/>\n", LEGEND + 3, *y);
  fprintf(p->out, "<path d=\"M%.0f %.0fh14\" stroke=\"" INK "\" stroke-width=\"1.6\"/>\n", LEGEND + 3, *y);
  legend_text(p, y, "a line in a window: %zu", lines);
}

/* What the lines, blocks and leaves look like. */
static void legend_map(const struct picture *p, double *y) {
  fprintf(p->out, "<path d=\"M%.0f %.0fh20\" stroke=\"" INK "\" stroke-width=\"1.6\"/>\n", LEGEND, *y);
  legend_text(p, y, "a line; the numbers are");
  legend_text(p, y, "the regions on its sides");
  fprintf(p->out, "<rect x=\"%.0f\" y=\"%.0f\" width=\"14\" height=\"14\" fill=\"none\" stroke=\"#b4bcc4\"/>\n", LEGEND + 3,
          *y - 7);
  legend_text(p, y, "a block of the tree");
  if (p->replay->windows_count > 0) legend_windows(p, y);
  if (p->replay->leaves_count == 0) return;
  fprintf(p->out, "<rect x=\"%.0f\" y=\"%.0f\" width=\"14\" height=\"14\" fill=\"#fff3c4\" stroke=\"#e0b000\"/>\n", LEGEND + 3,
          *y - 7);
  legend_text(p, y, "a leaf asked");
}

/* What the regions' points look like, as many as there is room for. */
static void legend_regions(const struct picture *p, double *y) {
  size_t shown = 0, more = 0, most = LEGEND_REGIONS - (p->replay->windows_count > 0 ? LEGEND_WINDOWS : 0);
  for (size_t label = 1; label < 65536; label++) {
    if (!p->regions[label].seen) continue;
    if (shown == most) {
      more++;
      continue;
    }
    legend_mark(p, *y, (uint32_t)label);
    legend_text(p, y, "region %zu: %zu asked", label, p->regions[label].asked);
    shown++;
  }
  if (more > 0) legend_text(p, y, "and %zu regions more", more);
}

/* What the other points look like. */
static void legend_points(const struct picture *p, double *y) {
  legend_mark(p, *y, 0);
  legend_text(p, y, "outside: %zu asked", p->regions[0].asked);
  if (p->on_line > 0) {
    legend_mark(p, *y, BOUNDARY_MAP_ANSWER_ON_LINE);
    legend_text(p, y, "on a line: %zu asked", p->on_line);
  }
  if (p->off_grid > 0) legend_text(p, y, "off the grid, not drawn: %zu", p->off_grid);
}

static void legend_fullness(const struct picture *p, double *y) {
  const struct boundary_map *map = &p->replay->map;
  struct fullness full = fullness_of(map);
  *y += 10;
  legend_text(p, y, "%zu lines in %zu slots", full.live, slots_of(map));
  legend_text(p, y, "%zu of %zu nodes", full.used.node, map->nodes_len);
  legend_text(p, y, "%zu of %zu listings", full.used.listing, map->listings_len);
  if (p->unlabelled > 0) legend_text(p, y, "%zu short lines without labels", p->unlabelled);
}

static void draw_legend(const struct picture *p) {
  double y = TOP + 10;
  fputs("<g font-size=\"13\" fill=\"" INK "\">\n", p->out);
  legend_map(p, &y);
  legend_regions(p, &y);
  legend_points(p, &y);
  legend_fullness(p, &y);
  fputs("</g>\n", p->out);
}

/* The pane's frame, and under it which grid numbers the view holds. */
static void draw_frame(const struct picture *p) {
  const struct block *w = &p->view;
  fprintf(p->out, "<rect x=\"%.0f\" y=\"%.0f\" width=\"%.0f\" height=\"%.0f\" fill=\"none\" stroke=\"#9aa3ac\"/>\n", LEFT, TOP,
          PANE, PANE);
  fprintf(p->out,
          "<text x=\"%.0f\" y=\"%.0f\" font-size=\"12\" fill=\"#555555\">grid numbers x %lu to %lu, y %lu to %lu; north is up</text>\n",
          LEFT, TOP + PANE + 20, (unsigned long)(w->west / 2), (unsigned long)((w->west + w->side - 1) / 2),
          (unsigned long)(w->south / 2), (unsigned long)((w->south + w->side - 1) / 2));
}

void picture_draw(FILE *out, const struct replay *replay, const char *title, int whole) {
  static struct picture picture; /* too large for the stack of a small host */
  struct picture *p = &picture;
  memset(p, 0, sizeof *p);
  p->out = out;
  p->replay = replay;
  p->view = view_of(replay, whole);
  note_regions(p);
  draw_head(p, title);
  fputs("<g clip-path=\"url(#pane)\">\n", out);
  draw_leaves(p);
  draw_blocks(p);
  draw_windows(p);
  draw_lines(p);
  draw_points(p);
  fputs("</g>\n", out);
  draw_frame(p);
  draw_legend(p);
  fputs("</svg>\n", out);
}
