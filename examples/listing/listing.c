/* listing [SCHEMA BASE]: the listing of "Small store, worked" in document 01, by calls of the store. Eight calls on a
 * formatted data base are printed as the document prints them. Where two files are named, the schema and the data base
 * after the last call are written to them. */
#include <inttypes.h>
#include <stdio.h>
#include <string.h>

#include "../schema.h"
#include "yarugota.h"

enum { BLOCKS = 2, AREA = 8 };

static uint8_t schema[YARUGOTA_BLOCK], base[BLOCKS * YARUGOTA_BLOCK];

struct line {
    const char *op, *set;
    uint32_t reference;
    const char *path, *key, *area; /* no area: the program lends its own */
};

static const struct line listing[] = {
    {"ADD-M", "BOTL", 0, "        ", "B001", "B001NECK"},
    {"ADDVC", "PNTS", YARUGOTA_LK('P', 'T'), "BOTLLKPT", "B001", "B001p001"},
    {"ADDVB", "PNTS", 1, "BOTLLKPT", "B001", "B001p002"},
    {"READV", "PNTS", YARUGOTA_LK('P', 'T'), "BOTLLKPT", "B001", NULL},
    {"READV", "PNTS", 2, "BOTLLKPT", "B001", NULL},
    {"READV", "PNTS", 1, "BOTLLKPT", "B001", NULL},
    {"READV", "PNTS", YARUGOTA_END, "BOTLLKPT", "B001", NULL},
    {"DEL-M", "BOTL", 0, "        ", "B001", NULL},
};

/* BOTL with K 4, D 4, R 5, and PNTS with D 4, R 6 and the one path BOTLLKPT. */
static void small_store(void)
{
    schema_begin(schema);
    schema_master(schema, "BOTL", 4, 4, 5);
    schema_variable(schema, "PNTS", 4, 6);
    schema_path(schema, "PT", 0);
    schema_end(schema);
}

static uint64_t call(const struct line *l, uint8_t *area)
{
    memcpy(area, l->area != NULL ? l->area : "........", AREA);
    return yarugota_call((const uint8_t *)l->op, (const uint8_t *)l->set, l->reference, (const uint8_t *)l->path,
                         (const uint8_t *)l->key, strlen(l->key), area, AREA, schema, sizeof schema, base, sizeof base);
}

/* Line number, code, reference, and the area of a read that gave a record. */
static void print(size_t number, const struct line *l, uint64_t answer, const uint8_t *area)
{
    uint32_t reference = YARUGOTA_REFERENCE(answer);
    int done = YARUGOTA_STATUS(answer) == YARUGOTA_DONE;
    printf("%zu %s ", number, yarugota_code(YARUGOTA_STATUS(answer)));
    if (reference == YARUGOTA_END)
        printf("END. ");
    else
        printf("%" PRIu32 " ", reference);
    if (done && reference != YARUGOTA_END && memcmp(l->op, "READ", 4) == 0)
        printf("%.*s\n", AREA, (const char *)area);
    else
        printf("-\n");
}

/* Writes a file whole; 0 where that fails. */
static int write_file(const char *name, const uint8_t *bytes, size_t length)
{
    FILE *file = fopen(name, "wb");
    if (file == NULL)
        return 0;
    size_t written = fwrite(bytes, 1, length, file);
    return fclose(file) == 0 && written == length;
}

int main(int count, char **words)
{
    static const struct line format = {"FORMT", "    ", 0, "        ", "", NULL};
    uint8_t area[AREA];
    small_store();
    if (YARUGOTA_STATUS(call(&format, area)) != YARUGOTA_DONE)
        return 1;
    for (size_t i = 0; i < sizeof listing / sizeof listing[0]; i++) {
        uint64_t answer = call(&listing[i], area);
        print(i + 1, &listing[i], answer, area);
    }
    if (count != 3)
        return count == 1 ? 0 : 2;
    return write_file(words[1], schema, sizeof schema) && write_file(words[2], base, sizeof base) ? 0 : 1;
}
