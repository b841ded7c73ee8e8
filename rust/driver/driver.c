/* driver [MISTAKE]: calls the store for a program on the other end of a pipe: a batch of requests in, their answers out, until the input
 * ends.
 *
 * Batch: its length (4 bytes), then the requests. Numbers are big-endian.
 *   S length schema     the schema from here on; no answer
 *   B length base       the data base from here on, kept for R; no answer
 *   R                   the data base as the last B gave it; no answer
 *   K offset            the key of the next call lies in its area, from there on; no answer
 *   C op set reference path length key length area
 *                       a call. Answer: what went wrong beside the call itself (1 byte, 0 for nothing), status and reference (4 each), the
 *                       area after the call, and what the call changed in the data base: the number of runs (4), then each run's offset,
 *                       length (4 each) and bytes. A run is as long as neighbouring bytes differ from what they were.
 * A batch is read whole before its first answer is written, so the two ends never wait for each other.
 *
 * Every buffer goes over between guard bytes and at an odd address. After each call the guards are looked at, and the buffers that should
 * only be read are compared with what was given. To try that, the driver can be told to do itself what a store in C might do beside its
 * answer: one of those mistakes of rust/model/src/fault.rs which the model cannot make. */
#include <stdio.h>
#include <stdlib.h>
#include <string.h>

#include "yarugota.h"

enum { GUARD = 67, FILL = 0xC3, BLOCK = 512 };
enum { FINE = 0, BESIDE = 1, READ_ONLY = 2 };
#define ELSEWHERE SIZE_MAX

/* Bytes between their guards. */
struct guarded {
    uint8_t *room;
    size_t length, most;
};

static struct guarded op, set, path, key, area, schema, base;

/* Where in the area the next call's key lies. */
static size_t key_at = ELSEWHERE;

/* The data base before a call, and as the last B gave it. */
static uint8_t *before, *kept;

static void stop(const char *why)
{
    fprintf(stderr, "driver: %s\n", why);
    exit(1);
}

static void *room_for(void *old, size_t length)
{
    void *room = realloc(old, length + 1);
    if (room == NULL)
        stop("no memory");
    return room;
}

static uint8_t *inside(const struct guarded *g)
{
    return g->room + GUARD;
}

static void place(struct guarded *g, const uint8_t *bytes, size_t length)
{
    if (g->room == NULL || length > g->most) {
        g->room = room_for(g->room, length + 2 * GUARD);
        g->most = length;
    }
    g->length = length;
    memset(g->room, FILL, GUARD);
    memcpy(inside(g), bytes, length);
    memset(inside(g) + length, FILL, GUARD);
}

static int guards_hold(const struct guarded *g)
{
    static uint8_t fill[GUARD];
    memset(fill, FILL, GUARD);
    return memcmp(g->room, fill, GUARD) == 0 && memcmp(inside(g) + g->length, fill, GUARD) == 0;
}

static int unchanged(const struct guarded *g, const uint8_t *given)
{
    return memcmp(inside(g), given, g->length) == 0;
}

/* The batch, read from front to back. */
static uint8_t *batch;
static size_t batch_length, at;
static uint8_t *given_schema;

static const uint8_t *take(size_t length)
{
    if (length > batch_length - at)
        stop("a request ends too early");
    at += length;
    return batch + at - length;
}

static uint32_t number(const uint8_t *four)
{
    return (uint32_t)four[0] << 24 | (uint32_t)four[1] << 16 | (uint32_t)four[2] << 8 | four[3];
}

static void put(const void *bytes, size_t length)
{
    if (fwrite(bytes, 1, length, stdout) != length)
        stop("nobody reads");
}

static void put_number(uint32_t n)
{
    uint8_t four[4] = {(uint8_t)(n >> 24), (uint8_t)(n >> 16), (uint8_t)(n >> 8), (uint8_t)n};
    put(four, 4);
}

/* The next run of changed bytes from an offset on; its length is 0 where there is none. */
static size_t next_run(size_t *offset)
{
    const uint8_t *now = inside(&base);
    while (*offset < base.length && now[*offset] == before[*offset]) {
        size_t block = *offset % BLOCK == 0 && base.length - *offset >= BLOCK;
        *offset += block && memcmp(now + *offset, before + *offset, BLOCK) == 0 ? BLOCK : 1;
    }
    size_t end = *offset;
    while (end < base.length && now[end] != before[end])
        end++;
    return end - *offset;
}

/* Tells the runs, and takes them over into `before`. */
static void put_changes(void)
{
    uint32_t runs = 0;
    size_t offset = 0, length;
    while ((length = next_run(&offset)) != 0) {
        runs++;
        offset += length;
    }
    put_number(runs);
    for (offset = 0; runs > 0; runs--) {
        length = next_run(&offset);
        put_number((uint32_t)offset);
        put_number((uint32_t)length);
        put(inside(&base) + offset, length);
        memcpy(before + offset, inside(&base) + offset, length);
        offset += length;
    }
}

static void load_base(const uint8_t *bytes, size_t length)
{
    place(&base, bytes, length);
    before = room_for(before, length);
    memcpy(before, bytes, length);
}

/* The mistake that is made after calls that are done, if any. */
static const char *mistake = "";

static int makes(const char *name, const char *after)
{
    return strcmp(mistake, name) == 0 && memcmp(inside(&op), after, strlen(after)) == 0;
}

static void make_mistake(uint64_t answer)
{
    if (YARUGOTA_STATUS(answer) != YARUGOTA_DONE)
        return;
    if ((makes("BesideTheArea", "READ") || makes("BesideTheArea", "RDNXT")) && YARUGOTA_REFERENCE(answer) != YARUGOTA_END)
        inside(&area)[area.length] = 0;
    if (makes("KeyWritten", "DEL-M"))
        memset(inside(&key), 0, key.length);
    if (makes("BroughtDown", "WRITV"))
        abort();
}

/* The entry for a key that lies in the area is called with that one, the other with the key's own buffer. */
static uint64_t call_store(uint32_t reference)
{
    size_t from = key_at;
    key_at = ELSEWHERE;
    if (from == ELSEWHERE)
        return yarugota_call(inside(&op), inside(&set), reference, inside(&path), inside(&key), key.length, inside(&area), area.length,
                             inside(&schema), schema.length, inside(&base), base.length);
    if (from > area.length || key.length > area.length - from || !unchanged(&key, inside(&area) + from))
        stop("the key does not lie there");
    return yarugota_call_key_in_area(inside(&op), inside(&set), reference, inside(&path), inside(&area) + from, key.length, inside(&area),
                                     area.length, inside(&schema), schema.length, inside(&base), base.length);
}

static void serve_call(void)
{
    const uint8_t *given_op = take(5), *given_set = take(4);
    uint32_t reference = number(take(4));
    const uint8_t *given_path = take(8);
    size_t key_length = number(take(4));
    const uint8_t *given_key = take(key_length);
    size_t area_length = number(take(4));
    const uint8_t *given_area = take(area_length);
    place(&op, given_op, 5);
    place(&set, given_set, 4);
    place(&path, given_path, 8);
    place(&key, given_key, key_length);
    place(&area, given_area, area_length);

    uint64_t answer = call_store(reference);
    make_mistake(answer);

    uint8_t wrong = FINE;
    if (!unchanged(&op, given_op) || !unchanged(&set, given_set) || !unchanged(&path, given_path) || !unchanged(&key, given_key)
        || !unchanged(&schema, given_schema))
        wrong = READ_ONLY;
    if (!guards_hold(&op) || !guards_hold(&set) || !guards_hold(&path) || !guards_hold(&key) || !guards_hold(&area) || !guards_hold(&schema)
        || !guards_hold(&base))
        wrong = BESIDE;
    put(&wrong, 1);
    put_number((uint32_t)(answer >> 32));
    put_number((uint32_t)answer);
    put(inside(&area), area_length);
    put_changes();
}

static void serve(void)
{
    switch (*take(1)) {
    case 'S': {
        size_t length = number(take(4));
        const uint8_t *bytes = take(length);
        place(&schema, bytes, length);
        given_schema = room_for(given_schema, length);
        memcpy(given_schema, bytes, length);
        return;
    }
    case 'B': {
        size_t length = number(take(4));
        const uint8_t *bytes = take(length);
        kept = room_for(kept, length);
        memcpy(kept, bytes, length);
        load_base(bytes, length);
        return;
    }
    case 'R':
        load_base(kept, base.length);
        return;
    case 'K':
        key_at = number(take(4));
        return;
    case 'C':
        serve_call();
        return;
    default:
        stop("no such request");
    }
}

int main(int count, char **words)
{
    uint8_t head[4];
    const uint8_t nothing = 0;
    if (count > 1)
        mistake = words[1];
    given_schema = room_for(NULL, 0);
    kept = room_for(NULL, 0);
    place(&schema, &nothing, 0);
    load_base(&nothing, 0);
    while (fread(head, 1, sizeof head, stdin) == sizeof head) {
        batch_length = number(head);
        batch = room_for(batch, batch_length);
        if (fread(batch, 1, batch_length, stdin) != batch_length)
            stop("a batch ends too early");
        for (at = 0; at < batch_length;)
            serve();
        if (fflush(stdout) != 0)
            stop("nobody reads");
    }
    return 0;
}
