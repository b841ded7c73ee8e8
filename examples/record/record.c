/* Control key and area key in one place, as 004 (6.5.3) advises: there is one area, and every call takes its key out of
 * it. So a sweep that reads a bottle has set the key for reading that bottle's points. */
#include <stdio.h>
#include <stdlib.h>
#include <string.h>

#include "../schema.h"
#include "yarugota.h"

static uint8_t schema[YARUGOTA_BLOCK], base[2 * YARUGOTA_BLOCK]; /* one block of bottles, one of points */

/* The area of a bottle, and of a point: 004's IO, with CTRL in front. */
static struct {
    uint8_t key[4], data[4];
} io;

/* A call that must succeed, with the key that the area has: gives its reference. */
static uint32_t call(const char *op, const char *set, uint32_t reference)
{
    uint64_t answer = yarugota_call_key_in_area((const uint8_t *)op, (const uint8_t *)set, reference,
                                                (const uint8_t *)"BOTLLKPT", io.key, sizeof io.key, (uint8_t *)&io,
                                                sizeof io, schema, sizeof schema, base, sizeof base);
    if (YARUGOTA_STATUS(answer) != YARUGOTA_DONE) {
        fprintf(stderr, "%s: %s\n", op, yarugota_code(YARUGOTA_STATUS(answer)));
        exit(1);
    }
    return YARUGOTA_REFERENCE(answer);
}

static void add(const char *op, const char *set, const char *record)
{
    memcpy(&io, record, sizeof io);
    call(op, set, 0);
}

int main(void)
{
    schema_begin(schema);
    schema_master(schema, "BOTL", 4, 4, 5); /* keys of 4 bytes, 4 bytes of data, 5 records */
    schema_variable(schema, "PNTS", 4, 6);  /* 4 bytes of data, 6 records */
    schema_path(schema, "PT", 0);           /* path BOTLLKPT, to entry 0: the bottles */
    schema_end(schema);

    call("FORMT", "    ", 0);
    add("ADD-M", "BOTL", "B001NECK");
    add("ADD-M", "BOTL", "B002FOOT");
    add("ADDVC", "PNTS", "B00114.1");
    add("ADDVC", "PNTS", "B00230.2");
    add("ADDVC", "PNTS", "B00114.6");

    uint32_t bottle = 0, point;
    while ((bottle = call("RDNXT", "BOTL", bottle)) != YARUGOTA_END) {
        printf("%.4s %.4s:", (const char *)io.key, (const char *)io.data);
        for (point = YARUGOTA_LK('P', 'T'); (point = call("READV", "PNTS", point)) != YARUGOTA_END;)
            printf(" %.4s", (const char *)io.data);
        printf(" mm\n");
    }
    return 0;
}
