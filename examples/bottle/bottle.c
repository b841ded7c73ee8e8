/* A bottle and three measured points: added, read forward and backward, and a call refused. */
#include <inttypes.h>
#include <stdio.h>
#include <stdlib.h>

#include "../schema.h"
#include "yarugota.h"

static uint8_t schema[YARUGOTA_BLOCK], base[2 * YARUGOTA_BLOCK]; /* one block of bottles, one of points */

/* One call for bottle B001 and the path of its points. An area is a record's key and data. */
static uint64_t call(const char *op, const char *set, uint32_t reference, char *area)
{
    return yarugota_call((const uint8_t *)op, (const uint8_t *)set, reference,
                         (const uint8_t *)"BOTLLKPT", (const uint8_t *)"B001", 4,
                         (uint8_t *)area, 8, schema, sizeof schema, base, sizeof base);
}

/* A call that must succeed: gives its reference. A refusal ends the program. */
static uint32_t done(const char *op, const char *set, uint32_t reference, char *area)
{
    uint64_t answer = call(op, set, reference, area);
    if (YARUGOTA_STATUS(answer) != YARUGOTA_DONE) {
        fprintf(stderr, "%s: %s\n", op, yarugota_code(YARUGOTA_STATUS(answer)));
        exit(1);
    }
    return YARUGOTA_REFERENCE(answer);
}

/* Reads the bottle's points along the path: LKPT to begin, END. when there are no more. */
static void read_points(const char *op)
{
    char area[9] = "";
    uint32_t point = done(op, "PNTS", YARUGOTA_LK('P', 'T'), area);
    while (point != YARUGOTA_END) {
        printf("%s: record %" PRIu32 ", radius %s mm\n", op, point, area + 4);
        point = done(op, "PNTS", point, area);
    }
}

int main(void)
{
    char bottle[] = "B001NECK", points[][9] = {"B00114.1", "B00114.6", "B00114.3"};

    schema_begin(schema);
    schema_master(schema, "BOTL", 4, 4, 5); /* keys of 4 bytes, 4 bytes of data, 5 records */
    schema_variable(schema, "PNTS", 4, 6);  /* 4 bytes of data, 6 records */
    schema_path(schema, "PT", 0);           /* path BOTLLKPT, to entry 0: the bottles */
    schema_end(schema);

    done("FORMT", "    ", 0, bottle); /* an empty data base */
    done("ADD-M", "BOTL", 0, bottle);
    done("ADDVC", "PNTS", 0, points[0]);
    uint32_t last = done("ADDVC", "PNTS", 0, points[1]); /* behind the first */
    done("ADDVB", "PNTS", last, points[2]);              /* before the last */

    read_points("READV");
    read_points("READR");
    uint64_t answer = call("DEL-M", "BOTL", 0, bottle); /* refused: the bottle has points */
    printf("DEL-M: %s\n", yarugota_code(YARUGOTA_STATUS(answer)));
    return 0;
}
