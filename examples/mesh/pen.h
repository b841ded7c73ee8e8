/* A pen that draws lines of the sleeve into an SVG path. */
#ifndef PEN_H
#define PEN_H

#include <inttypes.h>
#include <stdio.h>
#include <stdlib.h>

#include "points.h"

/* A place on the sleeve laid flat, micrometres. */
struct spot {
    int64_t across, height;
};

/* Where the sleeve stands on the page: its middle and its foot in pixels, the height that stands at the foot, and tenths of a pixel to a
 * millimetre. The name chooses the widths of lines. */
struct view {
    const char *name;
    int middle, foot;
    int64_t bottom;
    int scale;
};

struct pen {
    FILE *file;
    struct view view;
    int down; /* set down before, and now at this spot: */
    struct spot at;
};

/* A number of tenths, as decimals without a locale. */
static void tenths(FILE *file, int64_t n)
{
    fprintf(file, "%s%" PRId64 ".%d", n < 0 ? "-" : "", n / 10 < 0 ? -(n / 10) : n / 10, abs((int)(n % 10)));
}

static int64_t page_x(const struct view *v, struct spot s)
{
    return 10 * v->middle + nearest(s.across * v->scale, 1000);
}

static int64_t page_y(const struct view *v, struct spot s)
{
    return 10 * v->foot - nearest((s.height - v->bottom) * v->scale, 1000);
}

static void pen_write(struct pen *pen, char command, struct spot s)
{
    putc(command, pen->file);
    tenths(pen->file, page_x(&pen->view, s));
    putc(' ', pen->file);
    tenths(pen->file, page_y(&pen->view, s));
}

/* A line. Where it begins at the end of the one before, the pen is not lifted, so that the file stays small and corners are round. */
static void pen_line(struct pen *pen, struct spot from, struct spot to)
{
    if (!pen->down || pen->at.across != from.across || pen->at.height != from.height)
        pen_write(pen, 'M', from);
    pen_write(pen, 'L', to);
    pen->down = 1;
    pen->at = to;
}

#endif
