#include "input.h"

#include <string.h>

#include "yarugota.h"

enum { ENTRIES = 16, ENTRY = 48, SETS = 8, SLOTS = 16, SLOT = 8, BLANK = 0x20 };

static const char operations[16][6] = {"FORMT", "SINON", "ADD-M", "DEL-M", "READM", "WRITM", "RQLOC", "RDNXT",
                                       "READV", "READR", "READD", "WRITV", "ADDVC", "ADDVB", "ADDVA", "DELVD"};

/* A command's operation by its first byte, where that is no damage: each once, and the adds some times more, so that sets fill up. */
static const uint8_t operation_of[32] = {0, 1, 2, 3, 4, 5, 6, 7, 8, 9, 10, 11, 12, 13, 14, 15,
                                         0, 0, 0, 0, 2, 2, 2, 2, 2, 3, 12, 12, 12, 13, 14, 15};

unsigned operation_number(const uint8_t op[5])
{
    unsigned number = 0;
    while (number < 16 && memcmp(op, operations[number], 5) != 0)
        number++;
    return number;
}

static uint32_t word(const uint8_t *at)
{
    return (uint32_t)at[0] << 24 | (uint32_t)at[1] << 16 | (uint32_t)at[2] << 8 | at[3];
}

static void put_word(uint8_t *at, uint32_t value)
{
    at[0] = (uint8_t)(value >> 24);
    at[1] = (uint8_t)(value >> 16);
    at[2] = (uint8_t)(value >> 8);
    at[3] = (uint8_t)value;
}

static void seal(uint8_t *block, uint32_t number)
{
    for (size_t at = 0; at < CHECK; at += 4)
        number += word(block + at);
    put_word(block + CHECK, number);
}

/* ---- the schema ---- */

/* Small numbers mostly, so that sets fill up; some far larger, so that records or bases are too long. */
static uint32_t size_of(uint8_t byte, uint32_t small)
{
    return byte < 0xF0 ? byte % small : (uint32_t)(byte - 0xEF) * 97;
}

static uint8_t *begin_entry(uint8_t *schema, unsigned number, const char *name, uint8_t letter)
{
    uint8_t *entry = schema + ENTRIES + ENTRY * number;
    memcpy(entry, name, 3);
    entry[3] = letter;
    return entry;
}

static void make_master(uint8_t *schema, unsigned number, const uint8_t given[2])
{
    uint8_t *entry = begin_entry(schema, number, "BOT", (uint8_t)('A' + number));
    entry[4] = 1;
    put_word(entry + 8, 1 + size_of(given[0], 12));
    uint32_t data = size_of((uint8_t)(given[1] & 0xFC), 36) / 4;
    entry[6] = (uint8_t)(data >> 8);
    entry[7] = (uint8_t)data;
    entry[12] = (uint8_t)(4 + 4 * (given[1] & 3));
}

/* Two bits of a path's nibble are its master, the others now and then give it letters that another path may have. */
static void make_variable(uint8_t *schema, unsigned number, unsigned masters, const uint8_t given[4])
{
    uint8_t *entry = begin_entry(schema, number, "PNT", (uint8_t)('0' + number));
    entry[4] = 2;
    entry[5] = (uint8_t)(1 + (given[1] & 3));
    put_word(entry + 8, 1 + size_of(given[0], 12));
    uint32_t data = size_of((uint8_t)(given[1] & 0xFC), 36) / 4;
    entry[6] = (uint8_t)(data >> 8);
    entry[7] = (uint8_t)data;
    for (unsigned slot = 0; slot < entry[5]; slot++) {
        unsigned nibble = given[2 + slot / 2] >> (slot % 2 * 4) & 15;
        uint8_t *path = entry + SLOTS + SLOT * slot;
        path[0] = nibble >= 14 ? 'A' : (uint8_t)('A' + number);
        path[1] = nibble >= 14 ? 'A' : (uint8_t)('0' + slot);
        path[2] = (uint8_t)((nibble & 3) % masters);
    }
}

static void fit_base(struct run *run)
{
    uint32_t blocks = model_blocks(run->schema, BLOCK);
    run->base_length = (size_t)BLOCK * (blocks > MOST_BLOCKS ? MOST_BLOCKS : blocks);
}

/* Head: where buffers stand; the base's bytes; M; V; two bytes a master; four a variable set. */
void run_begin(struct run *run, const uint8_t head[HEAD])
{
    unsigned masters = 1 + head[2] % 4, variables = head[3] % 5;
    memset(run->schema, 0, sizeof run->schema);
    run->schema[0] = 1;
    run->schema[1] = (uint8_t)masters;
    run->schema[2] = (uint8_t)variables;
    for (unsigned number = 0; number < masters; number++)
        make_master(run->schema, number, head + 4 + 2 * number);
    for (unsigned number = 0; number < variables; number++)
        make_variable(run->schema, masters + number, masters, head + 12 + 4 * number);
    seal(run->schema, 0);
    memset(run->base, head[1], sizeof run->base);
    fit_base(run);
    run->last_reference = 0;
    run->at_end = !(head[0] & 1);
}

/* ---- damage ---- */

static void damage_schema(struct run *run, const uint8_t command[COMMAND])
{
    size_t at = command[1] | (size_t)(command[2] & 1) << 8;
    run->schema[at] = command[2] & 2 ? command[3] : run->schema[at] ^ (uint8_t)(1 << (command[3] & 7));
    if (command[4] & 7)
        seal(run->schema, 0);
    fit_base(run);
}

/* Mostly one of the first so many; now and then any. */
static unsigned one_of(uint8_t which, unsigned count, unsigned most)
{
    return which < 0xF0 && count >= 1 && count <= most ? which % count : which % most;
}

/* Where the damage is: in one of the first words of some record, or anywhere. */
static size_t damaged_byte(const struct run *run, const uint8_t command[COMMAND])
{
    if (command[0] & 3) {
        unsigned number = one_of(command[1], run->schema[1] + run->schema[2], SETS);
        size_t place = model_place(run->schema, BLOCK, number, 1 + command[2] % 14);
        if (place < run->base_length)
            return (place + command[3] % 48) % run->base_length;
    }
    size_t block = command[1] % (run->base_length / BLOCK);
    return block * BLOCK + (command[2] | (size_t)(command[3] & 1) << 8) % CHECK;
}

/* Kinds: a bit, a byte, a small pointer, no pointer or one to the record itself, words of one byte (half of them blank keys), words copied
 * from elsewhere in the block, a block of one byte, a block from elsewhere. */
static void damage_block(struct run *run, uint8_t *block, size_t at, const uint8_t command[COMMAND])
{
    size_t start = at & ~(size_t)3;
    switch (command[4] % 8) {
    case 0:
        block[at] ^= (uint8_t)(1 << (command[5] & 7));
        return;
    case 1:
        block[at] = command[5];
        return;
    case 2:
        put_word(block + start, command[5] % 14);
        return;
    case 3:
        put_word(block + start, command[5] & 1 ? 1 + command[2] % 14 : 0);
        return;
    case 4:
        memset(block + start, command[5] & 0x80 ? BLANK : command[5], CHECK - start < 16 ? 4 : 4 + command[7] % 4 * 4);
        return;
    case 5:
        memmove(block + start, block + command[5] / 4 * 4, CHECK - start < 64 ? CHECK - start : 64);
        return;
    case 6:
        memset(block, command[5], CHECK);
        return;
    default:
        memmove(block, run->base + command[5] * (size_t)BLOCK % run->base_length, BLOCK);
    }
}

static void damage_base(struct run *run, const uint8_t command[COMMAND])
{
    if (run->base_length == 0)
        return;
    size_t at = damaged_byte(run, command), number = at / BLOCK;
    uint8_t *block = run->base + number * BLOCK;
    damage_block(run, block, at % BLOCK, command);
    if (command[6] & 3)
        seal(block, (uint32_t)number);
}

int command_damages(struct run *run, const uint8_t command[COMMAND])
{
    switch (command[0] & 31) {
    case 16:
    case 17:
    case 18:
        damage_base(run, command);
        return 1;
    case 19:
        damage_schema(run, command);
        return 1;
    default:
        return 0;
    }
}

/* ---- calls ---- */

static const uint8_t *entry_of(const struct run *run, unsigned number)
{
    return run->schema + ENTRIES + ENTRY * (number % SETS);
}

static size_t key_length_of(const struct run *run, unsigned number)
{
    size_t length = entry_of(run, number)[12];
    return length > 16 ? 16 : length;
}

/* Few keys, so that they come again; blank ones and large words among them. */
static void make_key(uint8_t *key, size_t length, uint8_t which)
{
    memset(key, which >= 0xFC ? BLANK : which >= 0xF0 ? 0xFF : 0, length);
    if (length != 0 && which < 0xFC)
        key[length - 1] = which & 31;
    if (length > 4 && which < 0xF0)
        key[0] = which >> 5;
}

static uint32_t make_reference(const struct run *run, const uint8_t *entry, const uint8_t *letters, uint8_t which)
{
    if (which < 0xA0)
        return which % 16;
    if (which < 0xC8)
        return YARUGOTA_LK(letters[0], letters[1]);
    if (which < 0xE0)
        return run->last_reference;
    if (which < 0xE8)
        return word(entry + 8) + (which & 1);
    return which < 0xF0 ? YARUGOTA_END : which < 0xF8 ? YARUGOTA_LK('A', 'A') : UINT32_MAX - which % 8;
}

/* Keys in path order and D bytes, or key and D bytes. The named path has the control key, the others what two bits each say. */
static void make_area(const struct run *run, const uint8_t *entry, unsigned named, const uint8_t command[COMMAND], struct call *call)
{
    size_t data = (size_t)entry[6] << 8 | entry[7], length = 0;
    if (entry[4] == 2) {
        for (unsigned slot = 0; slot < 4 && slot < entry[5]; slot++) {
            uint8_t which = slot == named ? command[3] : command[4] >> (2 * slot) & 3;
            size_t key = key_length_of(run, entry[SLOTS + SLOT * slot + 2]);
            make_key(call->area + length, key, which);
            length += key;
        }
    } else {
        memcpy(call->area, call->key, call->key_length);
        length = call->key_length;
    }
    data = data > MOST_AREA - length ? MOST_AREA - length : data;
    memset(call->area + length, command[7], data);
    call->area_length = length + data;
}

/* Another length for key or area, where there is room for it. */
static size_t other_length(size_t length, size_t most, uint8_t with)
{
    switch (with % 5) {
    case 0:
        return 0;
    case 1:
    case 2:
        return length < most ? length + 1 : length;
    default:
        return length > 0 ? length - 1 : 0;
    }
}

/* Spoils one parameter, which the number from 0 to 9 says. */
static void spoil(struct call *call, unsigned fault, uint8_t with)
{
    switch (fault) {
    case 0:
        call->key_length = other_length(call->key_length, MOST_KEY, with);
        return;
    case 1:
        call->area_length = other_length(call->area_length, MOST_AREA, with);
        return;
    case 2:
        call->area[with % (call->area_length + 1)] ^= 1;
        return;
    case 3:
        memset(call->area, BLANK, with % (call->area_length + 1));
        return;
    case 4:
        call->op[with % 5] ^= (uint8_t)(1 << with / 5 % 8);
        return;
    case 5:
        call->set[with % 4] ^= (uint8_t)(1 << with / 4 % 8);
        return;
    case 6:
        call->path[with % 8] ^= (uint8_t)(1 << with / 8 % 8);
        return;
    case 7:
        call->schema_length = with & 1 ? BLOCK + 1 : BLOCK - with;
        return;
    case 8:
        call->base_length -= call->base_length > with ? with : 0;
        return;
    case 9:
        if (call->base_length <= (size_t)MOST_BLOCKS * BLOCK)
            call->base_length += with & 1 ? BLOCK : 1;
    }
}

void plain_call(const struct run *run, const char *op, struct call *call)
{
    memset(call, 0, sizeof *call);
    memcpy(call->op, op, 5);
    call->reference = 7;
    call->schema_length = BLOCK;
    call->base_length = run->base_length;
}

/* Command: operation, set, path, key, other keys, reference, faults (two at most, for the order of the tests), D byte. */
void command_call(const struct run *run, const uint8_t command[COMMAND], struct call *call)
{
    unsigned number = one_of(command[1], run->schema[1] + run->schema[2], SETS);
    const uint8_t *entry = entry_of(run, number);
    unsigned slot = one_of(command[2], entry[5], 4);
    const uint8_t *path = entry + SLOTS + SLOT * slot;
    plain_call(run, operations[operation_of[command[0] & 31]], call);
    memcpy(call->set, entry, 4);
    memcpy(call->path, entry_of(run, path[2]), 4);
    memcpy(call->path + 4, "LK", 2);
    memcpy(call->path + 6, path, 2);
    call->reference = make_reference(run, entry, path, command[5]);
    call->key_length = key_length_of(run, entry[4] == 2 ? path[2] : number);
    make_key(call->key, call->key_length, command[3]);
    make_area(run, entry, slot, command, call);
    if (command[6] >= 0xC0)
        spoil(call, command[6] % 10, command[7]);
    if (command[6] >= 0xE0)
        spoil(call, command[7] % 10, command[6]);
}
