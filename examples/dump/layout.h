/* What a schema's block says, by docs/FORMAT.md alone: every rule that it must keep, and where its sets lie. */
#ifndef LAYOUT_H
#define LAYOUT_H

#include <stdbool.h>
#include <stddef.h>
#include <stdint.h>
#include <stdio.h>
#include <string.h>

enum { BLOCK = 512, CHECK = 508, MOST_BLOCKS = 4096, MOST_RECORDS = 65535 };
enum { HEAD = 16, ENTRY = 48, SETS = 8, SLOT = 8, SLOTS = 4 }; /* of the schema's block */

struct path {
    char name[9];     /* mmmmLKxx */
    unsigned master;  /* the entry number of its masters */
    unsigned key_len; /* their K */
};

struct set {
    char name[5];
    bool master;
    unsigned data, key, paths; /* D, K and the path count */
    uint32_t records;          /* R */
    struct path path[SLOTS];
    unsigned length, per, first, blocks; /* L, records to a block, first block, how many blocks */
};

struct store {
    unsigned sets, blocks; /* M + V, and T */
    struct set set[SETS];
};

static uint32_t word_at(const uint8_t *at)
{
    return (uint32_t)at[0] << 24 | (uint32_t)at[1] << 16 | (uint32_t)at[2] << 8 | at[3];
}

static bool all_zero(const uint8_t *at, size_t length)
{
    while (length > 0 && at[length - 1] == 0)
        length--;
    return length == 0;
}

/* The check is the sum of the block's number and its first 127 words, and wraps as C's unsigned numbers do. */
static bool sealed(const uint8_t *block, uint32_t number)
{
    uint32_t sum = number;
    for (unsigned at = 0; at < CHECK; at += 4)
        sum += word_at(block + at);
    return sum == word_at(block + CHECK);
}

static bool capital(uint8_t c)
{
    return c >= 'A' && c <= 'Z';
}

static bool capital_or_digit(uint8_t c)
{
    return capital(c) || (c >= '0' && c <= '9');
}

/* A rule that is not kept is told, once: what stands behind it is not looked at. */
static bool rule(bool kept, const char *words)
{
    if (!kept)
        fprintf(stderr, "schema breaks a rule: %s\n", words);
    return kept;
}

static bool entry_rule(bool kept, unsigned number, const char *words)
{
    if (!kept)
        fprintf(stderr, "schema breaks a rule: entry %u: %s\n", number, words);
    return kept;
}

static bool head_kept(const uint8_t *schema)
{
    return rule(sealed(schema, 0), "its check is true for block 0")
        && rule(schema[0] == 1, "byte 0 is 1")
        && rule(schema[1] >= 1 && schema[1] <= 4, "M is 1..4")
        && rule(schema[2] <= 4, "V is 0..4")
        && rule(all_zero(schema + 3, HEAD - 3), "bytes 3..15 are zero");
}

static bool slot_kept(const uint8_t *slot, unsigned masters)
{
    return capital_or_digit(slot[0]) && capital_or_digit(slot[1]) && slot[2] < masters && all_zero(slot + 3, SLOT - 3);
}

static bool slots_kept(const uint8_t *slots, unsigned paths, unsigned masters)
{
    for (unsigned j = 0; j < paths; j++)
        if (!slot_kept(slots + j * SLOT, masters))
            return false;
    return all_zero(slots + paths * SLOT, (SLOTS - paths) * SLOT);
}

static bool entry_kept(const uint8_t *e, unsigned number, unsigned masters)
{
    bool master = number < masters;
    bool name = capital(e[0]) && capital_or_digit(e[1]) && capital_or_digit(e[2]) && capital_or_digit(e[3]);
    return entry_rule(name, number, "its name is a capital letter, then three capitals or digits")
        && entry_rule(e[4] == (master ? 1 : 2), number, "its kind is 1 for the first M entries, 2 for the others")
        && entry_rule(master ? e[5] == 0 : e[5] >= 1 && e[5] <= SLOTS, number,
                      "its path count is 0 (master) or 1..4 (variable)")
        && entry_rule(word_at(e + 8) >= 1 && word_at(e + 8) <= MOST_RECORDS, number, "R is 1..65535")
        && entry_rule(master ? e[12] >= 4 && e[12] <= 16 && e[12] % 4 == 0 : e[12] == 0, number,
                      "K is 4, 8, 12 or 16 (master) or 0 (variable)")
        && entry_rule(all_zero(e + 13, 3), number, "bytes 13..15 are zero")
        && entry_rule(slots_kept(e + 16, e[5], masters), number,
                      "a used slot is xx in capitals or digits, a master's entry number and zeros; an unused one is zero");
}

static void read_entry(struct set *set, const uint8_t *schema, unsigned number)
{
    const uint8_t *e = schema + HEAD + number * ENTRY;
    memcpy(set->name, e, 4);
    set->master = e[4] == 1;
    set->paths = e[5];
    set->data = (unsigned)e[6] << 8 | e[7];
    set->records = word_at(e + 8);
    set->key = e[12];
    for (unsigned j = 0; j < set->paths; j++) {
        const uint8_t *slot = e + 16 + j * SLOT;
        const uint8_t *master = schema + HEAD + slot[2] * ENTRY;
        set->path[j] = (struct path){.master = slot[2], .key_len = master[12]};
        memcpy(set->path[j].name, master, 4);
        memcpy(set->path[j].name + 4, "LK", 2);
        memcpy(set->path[j].name + 6, slot, 2);
    }
}

/* Two paths of one set may not share xx, nor may two to one master. */
static bool paths_clash(const struct store *s, unsigned k, unsigned i)
{
    for (unsigned q = 0; q < s->set[k].paths; q++)
        for (unsigned p = 0; p < (i == k ? q : s->set[i].paths); p++) {
            const struct path *a = &s->set[k].path[q], *b = &s->set[i].path[p];
            if ((i == k || a->master == b->master) && memcmp(a->name + 6, b->name + 6, 2) == 0)
                return true;
        }
    return false;
}

static bool names_kept(const struct store *s)
{
    for (unsigned k = 0; k < s->sets; k++)
        for (unsigned i = 0; i <= k; i++)
            if (!entry_rule(i == k || strcmp(s->set[i].name, s->set[k].name) != 0, k, "its name is no other set's")
                || !entry_rule(!paths_clash(s, k, i), k, "no two paths of one set, and no two to one master, share xx"))
                return false;
    return true;
}

/* L: the fields in front of the D bytes, and those. */
static unsigned record_length(const struct store *s, unsigned number)
{
    const struct set *set = &s->set[number];
    unsigned length = (set->master ? 12 + set->key : 4) + set->data;
    for (unsigned j = 0; j < set->paths; j++)
        length += set->path[j].key_len + 8;
    for (unsigned i = 0; i < s->sets; i++)
        for (unsigned j = 0; j < s->set[i].paths; j++)
            if (s->set[i].path[j].master == number)
                length += 8;
    return length;
}

static bool lay_out(struct store *s)
{
    for (unsigned i = 0; i < s->sets; i++) {
        struct set *set = &s->set[i];
        set->length = record_length(s, i);
        if (!entry_rule(set->length <= CHECK, i, "L is at most 508"))
            return false;
        set->per = CHECK / set->length;
        set->first = s->blocks;
        set->blocks = (set->records + set->per - 1) / set->per;
        s->blocks += set->blocks;
    }
    return rule(s->blocks <= MOST_BLOCKS, "T is at most 4096");
}

/* Reads a schema's block of 512 bytes; false where it breaks a rule, which is told. */
static bool read_schema(struct store *s, const uint8_t *schema)
{
    *s = (struct store){0};
    if (!head_kept(schema))
        return false;
    s->sets = schema[1] + schema[2];
    for (unsigned i = 0; i < s->sets; i++)
        if (!entry_kept(schema + HEAD + i * ENTRY, i, schema[1]))
            return false;
    const unsigned end = HEAD + s->sets * ENTRY;
    if (!rule(all_zero(schema + end, CHECK - end), "bytes behind the last used entry, up to 507, are zero"))
        return false;
    for (unsigned i = 0; i < s->sets; i++)
        read_entry(&s->set[i], schema, i);
    return names_kept(s) && lay_out(s);
}

#endif
