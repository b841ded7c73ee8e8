/* The mesh as the RIP counts it, and the line of small type at the neck, bent with the mesh. */
#ifndef TYPE_H
#define TYPE_H

#include "pen.h"

/* A chain taken as so many points to a ring, whatever rings they come from. */
struct mesh {
    int rings, points;
    const struct chain *chain;
};

static struct spot node(const struct mesh *m, int number)
{
    const struct point *p = &m->chain->point[number];
    return (struct spot){p->across, p->height};
}

enum { PATCH = 1000, STEPS = 8, ADVANCE = 6, TYPE_RING = 6 };

/* Where the artwork's place u along the rings and v up them, in thousandths of a patch, comes to lie: bilinear between the four corners of
 * its patch. */
static struct spot through(const struct mesh *m, int u, int v)
{
    int first = v / PATCH * m->points + u / PATCH;
    int64_t right = u % PATCH, up = v % PATCH;
    const int corner[4] = {first, first + 1, first + m->points, first + m->points + 1};
    const int64_t share[4] = {(PATCH - right) * (PATCH - up), right * (PATCH - up), (PATCH - right) * up, right * up};
    struct spot sum = {0, 0};
    for (int i = 0; i < 4; i++) {
        struct spot s = node(m, corner[i]);
        sum.across += share[i] * s.across;
        sum.height += share[i] * s.height;
    }
    return (struct spot){nearest(sum.across, PATCH * PATCH), nearest(sum.height, PATCH * PATCH)};
}

/* The strokes of a letter on a grid 4 wide and 6 high: x and y of each corner, a blank where the pen is lifted. */
static const char *strokes(char letter)
{
    switch (letter) {
    case 'C':
        return "4536160501103041";
    case 'D':
        return "00062644422000";
    case 'E':
        return "46060040 0333";
    case 'K':
        return "0006 4602 1340";
    case 'L':
        return "060040";
    case 'O':
        return "160501103041453616";
    case 'P':
        return "00063645443303";
    default:
        return "";
    }
}

/* The spot of a corner that lies x and y eighths of the letters' grid from the type's lower left end. In the artwork the type is 52 grid
 * units wide, 16 thousandths of a ring each, in the middle; it stands across the fifth ring from the top. */
static struct spot type_spot(const struct mesh *m, int x, int y)
{
    return through(m, (m->points - 1) * (84 + 2 * x), (m->rings - TYPE_RING) * PATCH + 300 + 29 * y);
}

/* One straight stroke of the artwork, in steps short enough to follow the mesh. Its ends are two corners of a letter's grid. */
static void stroke(struct pen *pen, const struct mesh *m, int left, const char *from, const char *to)
{
    for (int i = 0; i < STEPS; i++) {
        struct spot end[2];
        for (int e = 0; e < 2; e++) {
            int far = i + e, near = STEPS - far;
            end[e] = type_spot(m, left * STEPS + (from[0] - '0') * near + (to[0] - '0') * far,
                               (from[1] - '0') * near + (to[1] - '0') * far);
        }
        pen_line(pen, end[0], end[1]);
    }
}

static void type_line(struct pen *pen, const struct mesh *m)
{
    static const char words[] = "KEEP COLD";
    for (int i = 0; words[i] != '\0'; i++)
        for (const char *s = strokes(words[i]); *s != '\0'; s += s[2] == ' ' ? 3 : 2)
            if (s[2] != ' ' && s[2] != '\0')
                stroke(pen, m, ADVANCE * i, s, s + 2);
}

#endif
