/* The picture of a sleeve: the whole of it laid flat, its neck enlarged, and how many points each reading met. */
#ifndef DRAW_H
#define DRAW_H

#include <inttypes.h>
#include <stdio.h>
#include <string.h>

#include "type.h"

/* What is drawn. The mesh is the forward reading's; whole is the backward one's, in forward order, and tells what the forward one lacks. */
struct sheet {
    const char *key, *code; /* the bottle, and sign-on's answer */
    struct mesh mesh, whole;
    int swept;
};

static int refused(const struct sheet *s)
{
    return strcmp(s->code, "****") != 0;
}

/* Whether the RIP takes this point of the forward reading for another one. */
static int misplaced(const struct sheet *s, int number)
{
    return s->mesh.chain->record[number] != s->whole.chain->record[number];
}

static int lost(const struct sheet *s, int number)
{
    for (int i = 0; i < s->mesh.chain->count; i++)
        if (s->mesh.chain->record[i] == s->whole.chain->record[number])
            return 0;
    return 1;
}

static void edge(struct pen *pen, const struct sheet *s, int from, int to, int wrong)
{
    if (to < s->mesh.chain->count && (misplaced(s, from) || misplaced(s, to)) == wrong)
        pen_line(pen, node(&s->mesh, from), node(&s->mesh, to));
}

/* The lines of the mesh from this ring up, along the rings and then up the meridians: those between points in their places, or those
 * with a misplaced point. The strip from a ring's last point round to its first lies under the seam and is not drawn. */
static void lines(FILE *file, const struct sheet *s, struct view view, int ring, int wrong)
{
    struct pen pen = {file, view, 0, {0, 0}};
    int points = s->mesh.points, first = ring * points, end = s->mesh.rings * points;
    fprintf(file, "<path class=\"%s\" d=\"", wrong ? "wrong" : "line");
    for (int i = first; i < end; i++)
        if (i % points != points - 1)
            edge(&pen, s, i, i + 1, wrong);
    for (int place = 0; place < points; place++)
        for (int i = first + place; i + points < end; i += points)
            edge(&pen, s, i, i + points, wrong);
    fprintf(file, "\"/>\n");
}

/* Dots are lines of no length with round ends. */
static void dots(FILE *file, const struct sheet *s, struct view view, int ring)
{
    struct pen pen = {file, view, 0, {0, 0}};
    fprintf(file, "<path class=\"dot\" d=\"");
    for (int i = ring * s->mesh.points; i < s->mesh.chain->count; i++) {
        pen_write(&pen, 'M', node(&s->mesh, i));
        fprintf(file, "h0");
    }
    fprintf(file, "\"/>\n");
}

static void type(FILE *file, const struct sheet *s, struct view view)
{
    struct pen pen = {file, view, 0, {0, 0}};
    fprintf(file, "<path class=\"type\" d=\"");
    type_line(&pen, &s->mesh);
    fprintf(file, "\"/>\n");
}

static void lost_points(FILE *file, const struct sheet *s, struct view view)
{
    struct pen pen = {file, view, 0, {0, 0}};
    for (int i = 0; i < s->whole.chain->count; i++)
        if (lost(s, i)) {
            fprintf(file, "<path class=\"lost\" d=\"");
            pen_write(&pen, 'M', node(&s->whole, i));
            fprintf(file, "h0\"/>\n");
        }
}

/* The sleeve from this ring up. */
static void sleeve(FILE *file, const struct sheet *s, struct view view, int ring)
{
    fprintf(file, "<g class=\"%s\">\n", view.name);
    lines(file, s, view, ring, 0);
    if (refused(s))
        lines(file, s, view, ring, 1);
    dots(file, s, view, ring);
    type(file, s, view);
    lost_points(file, s, view);
    fprintf(file, "</g>\n");
}

/* A line from each lost point down to its record number, below the neck. */
static void lost_labels(FILE *file, const struct sheet *s, struct view view)
{
    struct pen pen = {file, view, 0, {0, 0}};
    for (int i = 0; i < s->whole.chain->count; i++)
        if (lost(s, i)) {
            fprintf(file, "<path class=\"leader\" d=\"");
            pen_write(&pen, 'M', node(&s->whole, i));
            fprintf(file, "V%d\"/>\n<text class=\"bad\" text-anchor=\"middle\" x=\"", view.foot + 8);
            tenths(file, page_x(&view, node(&s->whole, i)));
            fprintf(file, "\" y=\"%d\">record %" PRIu32 ", skipped</text>\n", view.foot + 23, s->whole.chain->record[i]);
        }
}

static void count(FILE *file, int x, int number, const char *reading, const char *ink)
{
    fprintf(file, "<text class=\"number%s\" x=\"%d\" y=\"358\">%d</text>\n", ink, x, number);
    fprintf(file, "<text x=\"%d\" y=\"380\">%s</text>\n", x, reading);
}

static void counts(FILE *file, const struct sheet *s)
{
    int forward = s->mesh.chain->count;
    count(file, 369, forward, "forward, READV", forward == s->swept ? "" : " bad");
    count(file, 520, s->whole.chain->count, "backward, READR", "");
    count(file, 674, s->swept, "sweep, RDNXT", "");
}

static void style(FILE *file)
{
    fprintf(file, "<style>\n"
                  "path { fill: none; stroke-linecap: round; stroke-linejoin: round }\n"
                  ".line { stroke: #8fa3b5 }\n"
                  ".wrong { stroke: #d98a63 }\n"
                  ".dot { stroke: #41607d }\n"
                  ".type { stroke: #1c2430 }\n"
                  ".lost, .leader { stroke: #c01f2e }\n"
                  ".small { stroke-width: 0.7 }\n"
                  ".small .dot { stroke-width: 2.2 }\n"
                  ".small .type { stroke-width: 1.2 }\n"
                  ".small .lost { stroke-width: 7 }\n"
                  ".large { stroke-width: 0.9 }\n"
                  ".large .dot { stroke-width: 4 }\n"
                  ".large .type { stroke-width: 3.4 }\n"
                  ".large .lost { stroke-width: 11 }\n"
                  "text { font-size: 15px; fill: #4a5561 }\n"
                  ".number { font-size: 30px; fill: #1c2430 }\n"
                  ".bad { fill: #c01f2e }\n"
                  ".banner { font-size: 20px; fill: #ffffff }\n"
                  "</style>\n");
}

/* The page, with everything in words. */
static void page(FILE *file, const struct sheet *s)
{
    fprintf(file, "<svg xmlns=\"http://www.w3.org/2000/svg\" width=\"800\" height=\"440\" viewBox=\"0 0 800 440\" "
                  "font-family=\"sans-serif\">\n");
    fprintf(file, "<title>Bottle %s: sign-on answers %s</title>\n", s->key, s->code);
    style(file);
    fprintf(file, "<rect width=\"800\" height=\"440\" fill=\"#fbfaf7\"/>\n");
    fprintf(file, "<rect width=\"800\" height=\"44\" fill=\"%s\"/>\n", refused(s) ? "#c01f2e" : "#2f4f6b");
    fprintf(file, "<text class=\"banner\" x=\"24\" y=\"29\">Bottle %s: sign-on answers %s, %s</text>\n", s->key, s->code,
            refused(s) ? "the base is refused" : "the base is sound");
    fprintf(file, "<text x=\"24\" y=\"72\">The sleeve, laid flat</text>\n");
    fprintf(file, "<text x=\"369\" y=\"72\">The neck, enlarged</text>\n");
    fprintf(file, "<text x=\"24\" y=\"422\">%s</text>\n",
            refused(s) ? "Without sign-on this would be printed: each point behind the lost one is taken for the one before."
                       : "Each dot is a measured point, a record in the chain of its bottle. The type keeps its shape.");
}

/* The picture. What is enlarged is the topmost rings, which every bottle has. */
static void draw(FILE *file, const struct sheet *s)
{
    enum { NECK_RINGS = 8 };
    _Static_assert((int)MIN_RINGS >= (int)NECK_RINGS, "every bottle has a neck to enlarge");
    int neck = s->mesh.rings - NECK_RINGS;
    const struct view all = {"small", 180, 388, node(&s->whole, 0).height, 16};
    const struct view near = {"large", 576, 290, node(&s->whole, neck * s->mesh.points).height, 48};
    page(file, s);
    sleeve(file, s, all, 0);
    lost_labels(file, s, near);
    sleeve(file, s, near, neck);
    counts(file, s);
    fprintf(file, "</svg>\n");
}

#endif
