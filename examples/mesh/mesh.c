/* The mesh of a shrink sleeve, as a warp-correction RIP builds it from the store: the bottle's chain of points is read forward, checked
 * backward and counted by a sweep, after sign-on has accepted the base. Then one pointer of a copy is damaged: sign-on refuses it, and
 * the same readings, made all the same, show what would have been printed.
 *
 *   mesh BOTTLE SOUND DAMAGED    reads the bottle's shape, writes two pictures
 */
#include <inttypes.h>
#include <stdio.h>
#include <stdlib.h>
#include <string.h>

#include "../schema.h"
#include "draw.h"
#include "yarugota.h"

enum { KEY = 4, BOTTLE_DATA = 8, BOTTLE_RECORDS = 7, POINTS_ENTRY = 1 };
enum { BOTTLE_AREA = KEY + BOTTLE_DATA, POINT_AREA = KEY + POINT_DATA };

struct store {
    uint8_t schema[YARUGOTA_BLOCK];
    uint8_t *base;
    size_t length;
};

static uint64_t call(struct store *s, const char *op, const char *set, uint32_t reference, const char *key, uint8_t *area, size_t length)
{
    return yarugota_call((const uint8_t *)op, (const uint8_t *)set, reference, (const uint8_t *)"BOTLLKPT", (const uint8_t *)key, KEY,
                         area, length, s->schema, YARUGOTA_BLOCK, s->base, s->length);
}

/* A call that this program has no answer to when it is refused. Gives the reference. */
static uint32_t must(struct store *s, const char *op, const char *set, uint32_t reference, const char *key, uint8_t *area, size_t length)
{
    uint64_t answer = call(s, op, set, reference, key, area, length);
    if (YARUGOTA_STATUS(answer) != YARUGOTA_DONE) {
        fprintf(stderr, "%s %s %s: %s\n", op, set, key, yarugota_code(YARUGOTA_STATUS(answer)));
        exit(1);
    }
    return YARUGOTA_REFERENCE(answer);
}

static const char *sign_on(struct store *s)
{
    uint8_t none = 0;
    return yarugota_code(YARUGOTA_STATUS(call(s, "SINON", "    ", 0, "    ", &none, 0)));
}

/* The bottle's D bytes: how many rings it has, and how many points to a ring. */
static void add_bottle(struct store *s, const char *key, int rings, int points)
{
    uint8_t area[BOTTLE_AREA];
    memcpy(area, key, KEY);
    number_put(area + KEY, (uint32_t)rings);
    number_put(area + KEY + 4, (uint32_t)points);
    must(s, "ADD-M", "BOTL", 0, key, area, sizeof area);
}

static void add_point(struct store *s, const char *key, struct point p)
{
    uint8_t area[POINT_AREA];
    memcpy(area, key, KEY);
    point_put(area + KEY, p);
    must(s, "ADDVC", "PNTS", 0, key, area, sizeof area);
}

static uint8_t *room(size_t length)
{
    uint8_t *bytes = malloc(length);
    if (bytes == NULL) {
        fprintf(stderr, "no room for %zu bytes\n", length);
        exit(1);
    }
    return bytes;
}

static void format(struct store *s)
{
    uint8_t none = 0;
    schema_begin(s->schema);
    schema_master(s->schema, "BOTL", KEY, BOTTLE_DATA, BOTTLE_RECORDS);
    schema_variable(s->schema, "PNTS", POINT_DATA, POINT_RECORDS);
    schema_path(s->schema, "PT", 0);
    schema_end(s->schema);
    s->length = (size_t)YARUGOTA_BLOCK * yarugota_schema_blocks(s->schema, YARUGOTA_BLOCK);
    s->base = room(s->length);
    must(s, "FORMT", "    ", 0, "    ", &none, 0);
}

/* The bottle's points in ring order. After each ring comes a point of another bottle, so that a bottle's records are not all neighbours
 * and the sweep meets points of three. The others' keys have a small letter, which no key of a file has. */
static void fill(struct store *s, const struct shape *shape)
{
    static const char *const others[] = {"b002", "k117"};
    add_bottle(s, shape->key, shape->rings, shape->points);
    for (int i = 0; i < 2; i++)
        add_bottle(s, others[i], (shape->rings + 1 - i) / 2, 1);
    for (int ring = 0; ring < shape->rings; ring++) {
        for (int place = 0; place < shape->points; place++)
            add_point(s, shape->key, point_of(shape, ring, place));
        add_point(s, others[ring % 2], point_of(shape, ring, 0));
    }
}

/* Reads the path from one end to the other: READV forward, READR backward. A damaged path may run in a circle, so more points than the
 * set has are not read. */
static void read_path(struct store *s, const char *op, const char *key, struct chain *c)
{
    uint8_t area[POINT_AREA];
    uint32_t at = must(s, op, "PNTS", YARUGOTA_LK('P', 'T'), key, area, sizeof area);
    for (c->count = 0; at != YARUGOTA_END && c->count < POINT_RECORDS; c->count++) {
        c->record[c->count] = at;
        c->point[c->count] = point_get(area + KEY);
        at = must(s, op, "PNTS", at, key, area, sizeof area);
    }
}

static void turn_round(struct chain *c)
{
    struct chain old = *c;
    for (int i = 0; i < c->count; i++) {
        c->record[i] = old.record[c->count - 1 - i];
        c->point[i] = old.point[c->count - 1 - i];
    }
}

static int same(const struct chain *a, const struct chain *b)
{
    return a->count == b->count && memcmp(a->record, b->record, (size_t)a->count * sizeof a->record[0]) == 0 &&
           memcmp(a->point, b->point, (size_t)a->count * sizeof a->point[0]) == 0;
}

/* Counts the live points of a key over the whole set, whatever the chains say; all is how many points there are. */
static int sweep(struct store *s, const char *key, int *all)
{
    uint8_t area[POINT_AREA];
    int count = 0;
    *all = 0;
    for (uint32_t at = must(s, "RDNXT", "PNTS", 0, key, area, sizeof area); at != YARUGOTA_END;
         at = must(s, "RDNXT", "PNTS", at, key, area, sizeof area)) {
        ++*all;
        count += memcmp(area, key, KEY) == 0;
    }
    return count;
}

/* The picture of what the forward reading gives. */
static void picture(const char *name, const struct sheet *sheet)
{
    FILE *file = fopen(name, "w");
    if (file != NULL)
        draw(file, sheet);
    if (file == NULL || fclose(file) != 0) {
        fprintf(stderr, "%s: not written\n", name);
        exit(1);
    }
    printf("  picture   %s\n", name);
}

/* The three readings, told line by line, and drawn. */
static void show(struct store *s, const char *key, const char *code, const char *name)
{
    struct chain forward = {0}, backward = {0};
    uint8_t area[BOTTLE_AREA];
    int all, swept = sweep(s, key, &all);
    must(s, "READM", "BOTL", 0, key, area, sizeof area);
    int rings = (int)number_get(area + KEY), points = (int)number_get(area + KEY + 4);
    read_path(s, "READV", key, &forward);
    read_path(s, "READR", key, &backward);
    turn_round(&backward);
    printf("  forward   %d points\n", forward.count);
    printf("  backward  %d points, %s\n", backward.count, same(&forward, &backward) ? "the same in reverse" : "not the same");
    printf("  sweep     %d points, %s; %d of other bottles\n", swept, swept == forward.count ? "as many" : "not as many", all - swept);
    picture(name, &(struct sheet){key, code, {rings, points, &forward}, {rings, points, &backward}, swept});
}

static struct store copied(const struct store *s)
{
    struct store copy = *s;
    copy.base = room(s->length);
    memcpy(copy.base, s->base, s->length);
    return copy;
}

/* The byte of the base at which a point's record begins. */
static uint64_t place_of(const struct store *s, uint32_t record)
{
    uint64_t place = yarugota_record_place(s->schema, YARUGOTA_BLOCK, POINTS_ENTRY, record);
    if (place == YARUGOTA_NOWHERE) {
        fprintf(stderr, "there is no point %" PRIu32 "\n", record);
        exit(1);
    }
    return place;
}

/* Lets the point before this one skip it, and sets the block's check anew: only the chain is wrong, no block is. The point stands in a
 * ring of the neck, under the type. */
static void skip(struct store *s, const struct shape *shape)
{
    enum { NEXT = 12 }; /* four bytes each: state and zeros, key, prior, next */
    struct chain c;
    int ring = shape->rings - TYPE_RING + 1, place = shape->points / 2, number = ring * shape->points + place;
    read_path(s, "READV", shape->key, &c);
    uint64_t record = place_of(s, c.record[number - 1]), block = record / YARUGOTA_BLOCK;
    number_put(s->base + record + NEXT, c.record[number + 1]);
    yarugota_block_seal(s->base + block * YARUGOTA_BLOCK, YARUGOTA_BLOCK, (uint32_t)block);
    printf("a copy, where next of record %" PRIu32 " skips record %" PRIu32 ": ring %d, point %d\n", c.record[number - 1],
           c.record[number], ring + 1, place + 1);
}

static int shape_open(const char *name, struct shape *shape)
{
    int line;
    FILE *file = fopen(name, "r");
    if (file == NULL) {
        fprintf(stderr, "%s: not there\n", name);
        return 0;
    }
    const char *wrong = shape_read(file, shape, &line);
    fclose(file);
    if (wrong != NULL)
        fprintf(stderr, "%s, line %d: %s\n", name, line, wrong);
    return wrong == NULL;
}

int main(int argc, char **argv)
{
    struct shape shape;
    struct store store;
    if (argc != 4) {
        fprintf(stderr, "mesh BOTTLE SOUND DAMAGED\n");
        return 1;
    }
    if (!shape_open(argv[1], &shape))
        return 1;
    format(&store);
    fill(&store, &shape);
    const char *code = sign_on(&store);
    printf("bottle %s: %d rings of %d points\n  sign-on   %s\n", shape.key, shape.rings, shape.points, code);
    if (strcmp(code, "****") != 0)
        return 1;
    show(&store, shape.key, code, argv[2]);

    struct store copy = copied(&store);
    skip(&copy, &shape);
    code = sign_on(&copy);
    printf("  sign-on   %s\nthe same readings of the copy, as if nobody had signed on\n", code);
    show(&copy, shape.key, code, argv[3]);
    free(copy.base);
    free(store.base);
    return 0;
}
