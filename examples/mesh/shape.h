/* The measured shape of a bottle, read from a text file: lines that begin with # are comments, the first other line is the bottle's key,
 * each one after it a ring: its height and its radii, micrometres, with blanks between. */
#ifndef SHAPE_H
#define SHAPE_H

#include <stdint.h>
#include <stdio.h>
#include <string.h>

enum { MIN_RINGS = 8, MAX_RINGS = 20, MIN_POINTS = 12, MAX_POINTS = 24, MAX_LENGTH = 1000000, LINE = 400 };

struct shape {
    char key[5];
    int rings, points; /* so many points to each ring */
    int32_t height[MAX_RINGS];
    int32_t radius[MAX_RINGS][MAX_POINTS];
};

/* Reads one length and the blanks before it. 0 where there is none, or one above MAX_LENGTH. */
static int length_read(const char **text, int32_t *length)
{
    const char *t = *text + strspn(*text, " ");
    int32_t value = 0;
    if (*t < '0' || *t > '9')
        return 0;
    for (; *t >= '0' && *t <= '9'; t++)
        if ((value = 10 * value + (*t - '0')) > MAX_LENGTH)
            return 0;
    *text = t;
    *length = value;
    return 1;
}

static const char *key_read(const char *line, struct shape *s)
{
    if (strspn(line, "ABCDEFGHIJKLMNOPQRSTUVWXYZ0123456789") != 4 || line[4] != '\0')
        return "a key is four capitals or digits";
    memcpy(s->key, line, 5);
    return NULL;
}

/* One more ring. Every ring has as many points as the first. */
static const char *ring_read(const char *line, struct shape *s)
{
    int points = 0, ring = s->rings;
    if (ring == MAX_RINGS)
        return "too many rings";
    if (!length_read(&line, &s->height[ring]))
        return "no height";
    while (points < MAX_POINTS && length_read(&line, &s->radius[ring][points]))
        if (s->radius[ring][points++] == 0)
            return "a radius is 0";
    if (line[strspn(line, " ")] != '\0')
        return "a radius is bad, or there are too many";
    if (points < MIN_POINTS)
        return "too few points in a ring";
    if (ring > 0 && points != s->points)
        return "not as many points as in the first ring";
    if (ring > 0 && s->height[ring] <= s->height[ring - 1])
        return "not higher than the ring before";
    s->points = points;
    s->rings++;
    return NULL;
}

/* Reads the whole file. NULL where it is good, else what is wrong with it, and in which line. */
static const char *shape_read(FILE *file, struct shape *s, int *line)
{
    char text[LINE];
    memset(s, 0, sizeof *s);
    for (*line = 1; fgets(text, sizeof text, file) != NULL; ++*line) {
        char *end = strchr(text, '\n');
        if (end == NULL)
            return "a line too long, or without its end";
        *end = '\0';
        if (text[0] == '#')
            continue;
        const char *wrong = s->key[0] == '\0' ? key_read(text, s) : ring_read(text, s);
        if (wrong != NULL)
            return wrong;
    }
    if (ferror(file))
        return "the file cannot be read";
    return s->rings < MIN_RINGS ? "too few rings" : NULL;
}

#endif
