/* Writes a schema's block set by set, for the examples and for any program that would rather not place bytes itself.
 * It is not proved; the store judges what it makes, and answers YARUGOTA_SCHM where a rule is broken.
 *
 * In this order: schema_begin; each master set; each variable set, followed by its paths; schema_end. A name has 4
 * characters, the letters of a path are 2. There is room for four master sets, four variable sets and four paths of
 * each of these; one more is a fault of the program, which ends it. */
#ifndef SCHEMA_H
#define SCHEMA_H

#include <stdint.h>
#include <stdio.h>
#include <stdlib.h>
#include <string.h>

#include "yarugota.h"

enum {
    SCHEMA_MASTERS = 1, /* the byte that counts the master sets */
    SCHEMA_VARIABLES = 2,
    SCHEMA_ENTRIES = 16, /* where the first entry begins */
    SCHEMA_ENTRY = 48,
    SCHEMA_PATHS = 5, /* within an entry, the byte that counts its paths */
    SCHEMA_KEY = 12,
    SCHEMA_SLOTS = 16, /* within an entry, where the first path begins */
    SCHEMA_SLOT = 8,
    SCHEMA_MOST = 4
};

/* A fault of the program ends it, in every build: the next byte to be written might lie behind the block. */
static inline void schema_must(int kept, const char *rule)
{
    if (kept)
        return;
    fprintf(stderr, "schema.h: %s\n", rule);
    abort();
}

/* A block with no set in it. */
static inline void schema_begin(uint8_t *schema)
{
    memset(schema, 0, YARUGOTA_BLOCK);
    schema[0] = 1;
}

/* Where an entry begins; entries are counted from 0. */
static inline uint8_t *schema_entry(uint8_t *schema, int number)
{
    return schema + SCHEMA_ENTRIES + number * SCHEMA_ENTRY;
}

/* What entries of both kinds have. All numbers are big-endian. */
static inline void schema_set(uint8_t *entry, const char *name, uint8_t kind, uint16_t data, uint32_t records)
{
    memcpy(entry, name, 4);
    entry[4] = kind;
    entry[6] = (uint8_t)(data >> 8);
    entry[7] = (uint8_t)data;
    for (int i = 0; i < 4; i++)
        entry[8 + i] = (uint8_t)(records >> (24 - 8 * i));
}

/* One more master set: keys of `key` bytes (4, 8, 12 or 16), `data` bytes of data, room for `records` of them. */
static inline void schema_master(uint8_t *schema, const char *name, uint8_t key, uint16_t data, uint32_t records)
{
    schema_must(schema[SCHEMA_MASTERS] < SCHEMA_MOST, "at most four master sets");
    schema_must(schema[SCHEMA_VARIABLES] == 0, "master sets come first");
    uint8_t *entry = schema_entry(schema, schema[SCHEMA_MASTERS]++);
    schema_set(entry, name, 1, data, records);
    entry[SCHEMA_KEY] = key;
}

/* One more variable set. It wants at least one path. */
static inline void schema_variable(uint8_t *schema, const char *name, uint16_t data, uint32_t records)
{
    schema_must(schema[SCHEMA_VARIABLES] < SCHEMA_MOST, "at most four variable sets");
    uint8_t *entry = schema_entry(schema, schema[SCHEMA_MASTERS] + schema[SCHEMA_VARIABLES]++);
    schema_set(entry, name, 2, data, records);
}

/* One more path of the last variable set, with the letters xx, to the master set of this entry number. */
static inline void schema_path(uint8_t *schema, const char *xx, uint8_t master)
{
    schema_must(schema[SCHEMA_VARIABLES] > 0, "a path comes after its variable set");
    uint8_t *entry = schema_entry(schema, schema[SCHEMA_MASTERS] + schema[SCHEMA_VARIABLES] - 1);
    schema_must(entry[SCHEMA_PATHS] < SCHEMA_MOST, "at most four paths of a variable set");
    uint8_t *slot = entry + SCHEMA_SLOTS + entry[SCHEMA_PATHS]++ * SCHEMA_SLOT;
    memcpy(slot, xx, 2);
    slot[2] = master;
}

/* The check, last: whatever is changed afterwards makes it false. */
static inline void schema_end(uint8_t *schema)
{
    yarugota_block_seal(schema, YARUGOTA_BLOCK, 0);
}

#endif
