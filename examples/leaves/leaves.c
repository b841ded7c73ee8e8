/* What a program can ask without a call, on the small store of document 01: whether a schema keeps the rules and how
 * many blocks its data base has, where records begin, and whether a block's check is true. */
#include <inttypes.h>
#include <stdio.h>

#include "../schema.h"
#include "yarugota.h"

/* BOTL with K 4, D 4, R 5, and PNTS with D 4 and the one path BOTLLKPT. */
static void small_store(uint8_t *schema, uint32_t points)
{
    schema_begin(schema);
    schema_master(schema, "BOTL", 4, 4, 5);
    schema_variable(schema, "PNTS", 4, points);
    schema_path(schema, "PT", 0);
    schema_end(schema);
}

static void judge(const char *what, const uint8_t *schema, size_t length)
{
    uint32_t blocks = yarugota_schema_blocks(schema, length);
    if (blocks == 0)
        printf("%s: SCHM\n", what);
    else
        printf("%s: T is %" PRIu32 "\n", what, blocks);
}

static void place(const uint8_t *schema, uint32_t entry, uint32_t record)
{
    uint64_t at = yarugota_record_place(schema, YARUGOTA_BLOCK, entry, record);
    if (at == YARUGOTA_NOWHERE)
        printf("entry %" PRIu32 " has no record %" PRIu32 "\n", entry, record);
    else
        printf("entry %" PRIu32 ", record %" PRIu32 " begins at byte %" PRIu64 "\n", entry, record, at);
}

static void places(const uint8_t *schema)
{
    for (uint32_t entry = 0; entry < 2; entry++)
        for (uint32_t record = 1; record <= 3; record++)
            place(schema, entry, record);
    place(schema, 1, 7);
}

/* Schemas that break a rule, and the largest that keeps them all. */
static void edges(uint8_t *schema)
{
    judge("a buffer of 511 bytes", schema, YARUGOTA_BLOCK - 1);
    schema[16] = 'b';
    judge("a letter changed, the check left", schema, YARUGOTA_BLOCK);
    schema_end(schema);
    judge("the check set right, a small letter in a name", schema, YARUGOTA_BLOCK);
    small_store(schema, 65535);
    judge("65,535 points", schema, YARUGOTA_BLOCK);
    small_store(schema, 65536);
    judge("65,536 points", schema, YARUGOTA_BLOCK);
}

/* A block's number is part of its check. */
static void checks(void)
{
    uint8_t block[YARUGOTA_BLOCK] = {0};
    yarugota_block_seal(block, YARUGOTA_BLOCK, 1);
    printf("an empty block 1 ends %02x %02x %02x %02x\n", block[508], block[509], block[510], block[511]);
    printf("its check is true as block 1: %" PRIu32, yarugota_block_sealed(block, YARUGOTA_BLOCK, 1));
    printf(", as block 2: %" PRIu32 "\n", yarugota_block_sealed(block, YARUGOTA_BLOCK, 2));
}

int main(void)
{
    uint8_t schema[YARUGOTA_BLOCK];
    small_store(schema, 6);
    judge("the small store", schema, YARUGOTA_BLOCK);
    places(schema);
    edges(schema);
    checks();
    return 0;
}
