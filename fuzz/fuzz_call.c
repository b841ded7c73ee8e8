/* One input of the fuzzer: a run of calls on the store and on the model, which must answer alike.
 *
 * Every buffer of the store stands against a page that nobody may touch. After each call the answer, the area and every byte of the base
 * are compared with the model's, and what a refused call must leave alone with what was given. Each run ends with SINON. */
#include <stdbool.h>
#include <stdio.h>
#include <stdlib.h>
#include <string.h>

#include "guarded.h"
#include "input.h"
#include "yarugota.h"

/* Where `wrong`, with the mistake that YARUGOTA_FAULT names. */
uint64_t model_call(bool wrong, const uint8_t *op, const uint8_t *set, uint32_t reference, const uint8_t *path, const uint8_t *key,
                    size_t key_len, uint8_t *area, size_t area_len, const uint8_t *schema, size_t schema_len, uint8_t *base,
                    size_t base_len);

#ifdef MODEL_AS_STORE
#define yarugota_call(...) model_call(true, __VA_ARGS__)
#endif

int LLVMFuzzerTestOneInput(const uint8_t *data, size_t size);

/* libFuzzer takes these for coverage too: which operation has answered which status. */
__attribute__((section("__libfuzzer_extra_counters"))) static uint8_t met[17][17];

/* The same over all runs, to be told at the end. */
static uint8_t ever[17][17];
static uint64_t calls;

static struct guarded op, set, path, key, area, schema, base;

/* What the store should leave. */
static uint8_t area_after[MOST_AREA + 1], base_after[(MOST_BLOCKS + 1) * BLOCK + 1];

static void open_buffers(void)
{
    guarded_open(&op, 5);
    guarded_open(&set, 4);
    guarded_open(&path, 8);
    guarded_open(&key, MOST_KEY);
    guarded_open(&area, sizeof area_after);
    guarded_open(&schema, BLOCK + 1);
    guarded_open(&base, sizeof base_after);
}

static void tell_calls(void)
{
    unsigned pairs = 0;
    for (size_t at = 0; at < sizeof ever; at++)
        pairs += ((const uint8_t *)ever)[at];
    fprintf(stderr, "calls: %llu, with %u pairs of operation and status\n", (unsigned long long)calls, pairs);
}

static void put_bytes(const char *name, const uint8_t *bytes, size_t length)
{
    fprintf(stderr, "  %s %zu:", name, length);
    for (size_t at = 0; at < length; at++)
        fprintf(stderr, " %02x", bytes[at]);
    fputc('\n', stderr);
}

/* Each call in a line, where FUZZ_TELL is set. */
static void tell(const struct call *call, uint64_t answer)
{
    static int wanted = -1;
    if (wanted < 0)
        wanted = getenv("FUZZ_TELL") != NULL;
    if (wanted)
        fprintf(stderr, "%.5s %.4s %u %.8s: status %u reference %u\n", (const char *)call->op, (const char *)call->set, call->reference,
                (const char *)call->path, (unsigned)(answer >> 32), (unsigned)answer);
}

static void fail(const char *what, const struct call *call, uint64_t answer, uint64_t expected)
{
    fprintf(stderr, "%s: %.5s %.4s reference %u path %.8s, base %zu bytes\n", what, (const char *)call->op, (const char *)call->set,
            call->reference, (const char *)call->path, call->base_length);
    put_bytes("key", call->key, call->key_length);
    put_bytes("area", call->area, call->area_length);
    fprintf(stderr, "  store: status %u reference %u\n", (unsigned)(answer >> 32), (unsigned)answer);
    fprintf(stderr, "  model: status %u reference %u\n", (unsigned)(expected >> 32), (unsigned)expected);
    abort();
}

/* The store's buffers of one call. */
struct given {
    const uint8_t *op, *set, *path, *key, *schema;
    uint8_t *area, *base;
};

static struct given place(const struct run *run, const struct call *call)
{
    int at_end = run->at_end;
    return (struct given){
        .op = guarded_place(&op, call->op, 5, at_end),
        .set = guarded_place(&set, call->set, 4, at_end),
        .path = guarded_place(&path, call->path, 8, at_end),
        .key = guarded_place(&key, call->key, call->key_length, at_end),
        .schema = guarded_place(&schema, run->schema, call->schema_length, at_end),
        .area = guarded_place(&area, call->area, call->area_length, at_end),
        .base = guarded_place(&base, run->base, call->base_length, at_end),
    };
}

/* What must hold of every call, and that it has come to what the model says. */
static void judge(const struct run *run, const struct call *call, const struct given *given, uint64_t answer, uint64_t expected)
{
    if (memcmp(given->op, call->op, 5) != 0 || memcmp(given->set, call->set, 4) != 0 || memcmp(given->path, call->path, 8) != 0
        || memcmp(given->key, call->key, call->key_length) != 0 || memcmp(given->schema, run->schema, call->schema_length) != 0)
        fail("a buffer that should only be read was changed", call, answer, expected);
    if (answer >> 32 > YARUGOTA_DAMG)
        fail("no such status", call, answer, expected);
    if (answer >> 32 != 0
        && ((uint32_t)answer != call->reference || memcmp(given->area, call->area, call->area_length) != 0
            || memcmp(given->base, run->base, call->base_length) != 0))
        fail("a refused call has changed something", call, answer, expected);
    if (answer != expected)
        fail("the answers differ", call, answer, expected);
    if (memcmp(given->area, area_after, call->area_length) != 0 || memcmp(given->base, base_after, call->base_length) != 0)
        fail("the bytes differ", call, answer, expected);
}

/* Makes a call on both sides; the run's base is then as the call has left it. */
static void make_call(struct run *run, const struct call *call)
{
    struct given given = place(run, call);
    memcpy(area_after, call->area, call->area_length);
    memcpy(base_after, run->base, call->base_length);
    uint64_t expected = model_call(false, call->op, call->set, call->reference, call->path, call->key, call->key_length, area_after,
                                   call->area_length, run->schema, call->schema_length, base_after, call->base_length);
    uint64_t answer = yarugota_call(given.op, given.set, call->reference, given.path, given.key, call->key_length, given.area,
                                    call->area_length, given.schema, call->schema_length, given.base, call->base_length);
    tell(call, answer);
    judge(run, call, &given, answer, expected);
    memcpy(run->base, given.base, call->base_length);
    run->last_reference = (uint32_t)answer;
    unsigned number = operation_number(call->op);
    met[number][answer >> 32]++;
    ever[number][answer >> 32] = 1;
    calls++;
}

static void make_plain_call(struct run *run, const char *name)
{
    struct call call;
    plain_call(run, name, &call);
    make_call(run, &call);
}

/* The head's second byte also fills the base; where it is even, the base is formatted. */
int LLVMFuzzerTestOneInput(const uint8_t *data, size_t size)
{
    static struct run run;
    struct call call;
    if (base.room == NULL) {
        open_buffers();
        atexit(tell_calls);
    }
    if (size < HEAD || size > MOST_INPUT)
        return 0;
    run_begin(&run, data);
    if (data[1] % 2 == 0)
        make_plain_call(&run, "FORMT");
    for (size_t at = HEAD; at + COMMAND <= size; at += COMMAND) {
        if (command_damages(&run, data + at)) {
            make_plain_call(&run, "SINON");
        } else {
            command_call(&run, data + at, &call);
            make_call(&run, &call);
        }
    }
    make_plain_call(&run, "SINON");
    return 0;
}
