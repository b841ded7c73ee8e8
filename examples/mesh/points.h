/* A measured point: the D bytes of a record of PNTS, and a chain of such records as it was read. */
#ifndef POINTS_H
#define POINTS_H

#include <stdint.h>

#include "shape.h"

enum { POINT_RECORDS = 600, POINT_DATA = 16 };

/* The D bytes are these four numbers in this order, each four bytes, big-endian, micrometres. Neither ring nor place in the ring is stored:
 * the RIP knows them by counting along the chain. */
struct point {
    int32_t displacement; /* the measured radius less the ring's mean */
    int32_t height;       /* of the ring */
    int32_t radius;       /* as measured */
    int32_t across;       /* along the ring laid flat, from its middle; the seam is at both ends */
};

struct chain {
    int count;
    uint32_t record[POINT_RECORDS];
    struct point point[POINT_RECORDS];
};

/* The nearest whole number to n / d, halves away from zero; d is above 0. */
static int64_t nearest(int64_t n, int64_t d)
{
    return n < 0 ? -((-n + d / 2) / d) : (n + d / 2) / d;
}

/* The arc from the ring's first point to this one. Between neighbours the radius is the mean of theirs, so their arc is the sum of both
 * radii times pi over the ring's points. Pi in whole millionths errs by less than a micrometre, and the same on every machine. */
static int64_t arc(const struct shape *s, int ring, int place)
{
    int64_t sum = 0;
    for (int i = 0; i < place; i++)
        sum += s->radius[ring][i] + s->radius[ring][i + 1];
    return nearest(sum * 3141593, (int64_t)1000000 * s->points);
}

static struct point point_of(const struct shape *s, int ring, int place)
{
    int64_t sum = 0, width = arc(s, ring, s->points - 1);
    for (int i = 0; i < s->points; i++)
        sum += s->radius[ring][i];
    struct point p;
    p.height = s->height[ring];
    p.radius = s->radius[ring][place];
    p.displacement = (int32_t)(p.radius - nearest(sum, s->points));
    p.across = (int32_t)(arc(s, ring, place) - nearest(width, 2));
    return p;
}

static void number_put(uint8_t *at, uint32_t number)
{
    for (int i = 0; i < 4; i++)
        at[i] = (uint8_t)(number >> (24 - 8 * i));
}

static uint32_t number_get(const uint8_t *at)
{
    return (uint32_t)at[0] << 24 | (uint32_t)at[1] << 16 | (uint32_t)at[2] << 8 | at[3];
}

static void point_put(uint8_t *data, struct point p)
{
    number_put(data, (uint32_t)p.displacement);
    number_put(data + 4, (uint32_t)p.height);
    number_put(data + 8, (uint32_t)p.radius);
    number_put(data + 12, (uint32_t)p.across);
}

static struct point point_get(const uint8_t *data)
{
    struct point p;
    p.displacement = (int32_t)number_get(data);
    p.height = (int32_t)number_get(data + 4);
    p.radius = (int32_t)number_get(data + 8);
    p.across = (int32_t)number_get(data + 12);
    return p;
}

#endif
