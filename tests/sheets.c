/* Sheets: ditches one over another, as on a sheet cut from a larger survey, and points south of them, between them and under their
 * ends. See parts.h. */
#include "parts.h"

enum { LAST = 16383, BANDS = 6 };

/* The ground is parted in bands from south to north. A ditch keeps to its band, so ditches of two bands never conflict. */
static struct {
    int32_t west, south, across, band;
} sheet;

static void choose_sheet(void)
{
    sheet.across = one_in(2) ? LAST : between(3, one_in(2) ? 12 : 400);
    sheet.west = between(0, LAST - sheet.across);
    sheet.band = one_in(2) ? between(2, 8) : between(20, LAST / (BANDS + 1));
    sheet.south = between(0, LAST - BANDS * sheet.band);
}

static uint16_t across(void)
{
    return (uint16_t)(sheet.west + between(0, sheet.across));
}

static uint16_t in_band(int32_t band)
{
    return (uint16_t)(sheet.south + band * sheet.band + between(0, sheet.band - 1));
}

/* 0 often enough that it stands above a line with another line over it. */
static uint16_t label(void)
{
    return one_in(3) ? 0 : any_label();
}

/* From edge to edge, or a part of that; or from an end of one that is there, so that two begin or end at one place. */
static void draw_ditch(struct stroke *s)
{
    int32_t band = (int32_t)under(BANDS);
    long at = one_in(2) ? some_line() : -1;

    s->x1 = one_in(2) ? (uint16_t)sheet.west : across();
    s->x2 = one_in(2) ? (uint16_t)(sheet.west + sheet.across) : across();
    s->y1 = in_band(band);
    s->y2 = in_band(band);
    if (at >= 0) {
        size_t end = one_in(2) ? 2 : 4;

        s->x1 = peek(LINES, (size_t)at + end);
        s->y1 = peek(LINES, (size_t)at + end + 1);
        s->y2 = in_band((s->y1 - sheet.south) / sheet.band);
    }
    if (one_in(8))
        s->x2 = s->x1;
    s->left = label();
    s->right = label();
    if (one_in(2))
        turn_over(s);
}

/* Under an end of a line or under its middle, a step under it, at the map's south side, or anywhere on the sheet. */
static void draw_point(uint16_t *x, uint16_t *y)
{
    long at = some_line();
    struct stroke s;

    *x = across();
    *y = on_grid(sheet.south + between(-2, BANDS * sheet.band + 2));
    if (at < 0)
        return;
    s = stroke_at((size_t)at);
    if (one_in(2))
        *x = one_in(2) ? s.x1 : s.x2;
    else
        *x = (uint16_t)(s.x1 < s.x2 ? between(s.x1, s.x2) : between(s.x2, s.x1));
    if (one_in(4))
        *y = on_grid((s.y1 < s.y2 ? s.y1 : s.y2) - 1);
    else if (one_in(4))
        *y = one_in(2) ? 0 : on_grid(sheet.south - 1);
}

static void ask_sheet(void)
{
    uint16_t points[2 * MOST_POINTS];
    size_t i, count = 24;

    for (i = 0; i < count; i++)
        draw_point(&points[2 * i], &points[2 * i + 1]);
    locate(points, count);
}

void part_sheets(void)
{
    struct stroke s;
    int sheets, times;

    for (sheets = 0; sheets < 4; sheets++) {
        choose_frame();
        choose_sheet();
        begin(under(12) + 2, PLAIN_ROOM, PLAIN_ROOM);
        for (times = 0; times < 16; times++) {
            draw_ditch(&s);
            insert_stroke(&s);
            if (one_in(3))
                ask_sheet();
            if (one_in(6))
                delete_handle(live_handle());
            if (one_in(12))
                ask_window();
        }
        ask_sheet();
    }
}
