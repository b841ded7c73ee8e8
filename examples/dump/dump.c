/* dump SCHEMA BASE: prints a schema's block and the blocks of its data base, field by field: where in the block, which
 * bytes, what they mean. It stands for a program that reads blocks on its own: it is written from docs/FORMAT.md and is
 * not linked with the library. Files of a wrong length, a schema that breaks a rule and a block with a false check are
 * refused, with exit status 1; whatever else the bytes say is shown. What it cannot read or print gives exit status 2.
 */
#include <inttypes.h>
#include <stdarg.h>
#include <stdlib.h>

#include "layout.h"

enum { ROW = 8 }; /* bytes shown on one line */

/* One line: the bytes from `at` on, and what they mean. What is longer than a row must be zero. */
__attribute__((format(printf, 4, 5)))
static void line(const uint8_t *block, unsigned at, unsigned length, const char *meaning, ...)
{
    char bytes[3 * ROW + 1] = "";
    va_list arguments;
    if (length > ROW)
        snprintf(bytes, sizeof bytes, "%u zero bytes", length);
    for (unsigned i = 0; length <= ROW && i < length; i++)
        snprintf(bytes + 3 * i, 4, "%02X ", block[at + i]);
    if (length == 1)
        printf("%5u       ", at);
    else
        printf("%5u..%-5u", at, at + length - 1);
    printf("%-*s ", 3 * ROW, bytes);
    va_start(arguments, meaning);
    vprintf(meaning, arguments);
    va_end(arguments);
    putchar('\n');
}

/* Bytes that may be characters, in rows; zeros alone are one line. */
static void run(const uint8_t *block, unsigned at, unsigned length, const char *name)
{
    if (length > 0 && all_zero(block + at, length)) {
        line(block, at, length, "%s", name);
        return;
    }
    for (unsigned end = at + length; at < end; at += ROW) {
        char text[ROW + 1] = "";
        unsigned row = end - at < ROW ? end - at : ROW;
        for (unsigned i = 0; i < row; i++)
            text[i] = block[at + i] >= ' ' && block[at + i] <= '~' ? (char)block[at + i] : '.';
        line(block, at, row, "%s \"%s\"", name, text);
    }
}

static void pointer(const uint8_t *block, unsigned at, const char *name, const char *path)
{
    uint32_t record = word_at(block + at);
    if (record == 0)
        line(block, at, 4, "%s%s: none", name, path);
    else
        line(block, at, 4, "%s%s: record %" PRIu32, name, path, record);
}

static void dump_entry(const struct set *set, const uint8_t *schema, unsigned number)
{
    unsigned at = HEAD + number * ENTRY;
    line(schema, at, 4, "entry %u: name %s", number, set->name);
    line(schema, at + 4, 1, "kind %u: %s", schema[at + 4], set->master ? "master" : "variable");
    line(schema, at + 5, 1, "paths: %u", set->paths);
    line(schema, at + 6, 2, "D: %u", set->data);
    line(schema, at + 8, 4, "R: %" PRIu32, set->records);
    line(schema, at + 12, 1, "K: %u", set->key);
    line(schema, at + 13, 3, "filler");
    for (unsigned j = 0; j < set->paths; j++) {
        unsigned slot = at + 16 + j * SLOT;
        line(schema, slot, 2, "slot %u: xx %s", j, set->path[j].name + 6);
        line(schema, slot + 2, 1, "master: entry %u, so the path is %s", set->path[j].master, set->path[j].name);
        line(schema, slot + 3, 5, "filler");
    }
    if (set->paths < SLOTS)
        line(schema, at + 16 + set->paths * SLOT, (SLOTS - set->paths) * SLOT, "unused slots");
}

static void dump_schema(const struct store *s, const uint8_t *schema)
{
    unsigned end = HEAD + s->sets * ENTRY;
    printf("schema: one block, its number is 0\n");
    line(schema, 0, 1, "always 1");
    line(schema, 1, 1, "M: %u", schema[1]);
    line(schema, 2, 1, "V: %u", schema[2]);
    line(schema, 3, HEAD - 3, "filler");
    for (unsigned i = 0; i < s->sets; i++)
        dump_entry(&s->set[i], schema, i);
    line(schema, end, CHECK - end, "unused entries and the rest");
    line(schema, CHECK, 4, "check");
    printf("\nlayout: T %u\n", s->blocks);
    for (unsigned i = 0; i < s->sets; i++)
        printf("    %s: L %u, records to a block %u, first block %u, blocks %u\n", s->set[i].name, s->set[i].length,
               s->set[i].per, s->set[i].first, s->set[i].blocks);
}

/* First and last of each path to the master set, in schema order; answers where the D bytes begin. */
static unsigned dump_ends(const struct store *s, const struct set *set, const uint8_t *block, unsigned at)
{
    for (unsigned i = 0; i < s->sets; i++)
        for (unsigned j = 0; j < s->set[i].paths; j++) {
            const struct path *path = &s->set[i].path[j];
            if (&s->set[path->master] != set)
                continue;
            pointer(block, at, "first on ", path->name);
            pointer(block, at + 4, "last on ", path->name);
            at += 8;
        }
    return at;
}

/* Key, prior and next on each path of the variable set; answers where the D bytes begin. */
static unsigned dump_links(const struct set *set, const uint8_t *block, unsigned at)
{
    for (unsigned j = 0; j < set->paths; j++) {
        const struct path *path = &set->path[j];
        char key[sizeof "key on " + sizeof path->name];
        snprintf(key, sizeof key, "key on %s", path->name);
        run(block, at, path->key_len, key);
        pointer(block, at + path->key_len, "prior on ", path->name);
        pointer(block, at + path->key_len + 4, "next on ", path->name);
        at += path->key_len + 8;
    }
    return at;
}

static void dump_record(const struct store *s, const struct set *set, const uint8_t *block, unsigned at, uint32_t record)
{
    const char *state = block[at] == 1 ? "live" : "free, but not all zero";
    unsigned body;
    line(block, at, 1, "record %" PRIu32 ": state %u, %s", record, block[at], state);
    line(block, at + 1, 3, "filler");
    if (set->master) {
        pointer(block, at + 4, "ROOT next", "");
        pointer(block, at + 8, "ROOT prior", "");
        run(block, at + 12, set->key, "key");
        body = dump_ends(s, set, block, at + 12 + set->key);
    } else {
        body = dump_links(set, block, at + 4);
    }
    run(block, body, set->data, "data");
}

/* How many of the records from `at` on, of `most`, are all zero. */
static unsigned free_records(const struct set *set, const uint8_t *block, unsigned at, unsigned most)
{
    unsigned count = 0;
    while (count < most && all_zero(block + at + count * set->length, set->length))
        count++;
    return count;
}

/* Block k of a set: its records, what is left over behind them, its check. */
static void dump_block(const struct store *s, const struct set *set, unsigned k, const uint8_t *block)
{
    uint32_t before = k * set->per;
    unsigned count = set->records - before < set->per ? set->records - before : set->per, at = 0;
    printf("\ndata base, block %u: %s, records %" PRIu32 "..%" PRIu32 "\n", set->first + k, set->name, before + 1, before + count);
    for (unsigned i = 0; i < count; at = i * set->length) {
        unsigned zeros = free_records(set, block, at, count - i);
        uint32_t record = before + i + 1;
        if (zeros == 0)
            dump_record(s, set, block, at, record);
        else if (zeros == 1)
            line(block, at, set->length, "record %" PRIu32 ": free", record);
        else
            line(block, at, zeros * set->length, "records %" PRIu32 "..%" PRIu32 ": free", record, record + zeros - 1);
        i += zeros == 0 ? 1 : zeros;
    }
    run(block, at, CHECK - at, "leftover");
    line(block, CHECK, 4, "check");
}

/* The bytes of a file, which must be exactly as many; the buffer has room for one more, to notice a longer file. */
static void load(const char *name, uint8_t *buffer, size_t length)
{
    FILE *file = fopen(name, "rb");
    if (file == NULL) {
        fprintf(stderr, "%s: cannot be opened\n", name);
        exit(2);
    }
    size_t got = fread(buffer, 1, length + 1, file);
    if (ferror(file) || fclose(file) != 0) {
        fprintf(stderr, "%s: cannot be read\n", name);
        exit(2);
    }
    if (got != length) {
        fprintf(stderr, "%s: not %zu bytes\n", name, length);
        exit(1);
    }
}

int main(int argc, char **argv)
{
    static uint8_t schema[BLOCK + 1], base[MOST_BLOCKS * BLOCK + 1];
    struct store store;
    if (argc != 3) {
        fprintf(stderr, "usage: dump SCHEMA BASE\n");
        return 2;
    }
    load(argv[1], schema, BLOCK);
    if (!read_schema(&store, schema))
        return 1;
    load(argv[2], base, (size_t)store.blocks * BLOCK);
    for (unsigned b = 0; b < store.blocks; b++)
        if (!sealed(base + b * BLOCK, b)) {
            fprintf(stderr, "%s: block %u has a false check\n", argv[2], b);
            return 1;
        }
    dump_schema(&store, schema);
    for (unsigned i = 0; i < store.sets; i++)
        for (unsigned k = 0; k < store.set[i].blocks; k++)
            dump_block(&store, &store.set[i], k, base + (size_t)(store.set[i].first + k) * BLOCK);
    return fflush(stdout) == 0 ? 0 : 2;
}
