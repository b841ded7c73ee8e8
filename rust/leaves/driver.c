/* Calls the C entries for a test on the other end of a pipe: a request in, an answer out, until the input ends.
 *
 * Request: entry (1 byte), two numbers (4 bytes each), the buffer's length (4), the buffer. Numbers are big-endian.
 * Answer: what was wrong (1 byte, 0 for nothing), the entry's answer (8 bytes), and for a buffer that may be written the buffer.
 *
 * Every buffer goes over between guard bytes and at an odd address, and one that should only be read is compared afterwards. */
#include <stdio.h>
#include <stdlib.h>
#include <string.h>

#include "yarugota.h"

enum { GUARD = 67, FILL = 0xC3, MOST = 1 << 24 };
enum { SCHEMA_BLOCKS = 1, RECORD_PLACE = 2, BLOCK_SEALED = 3, BLOCK_SEAL = 4 };
enum { FINE = 0, BESIDE = 1, READ_ONLY = 2, NO_ENTRY = 3 };

static uint32_t number(const uint8_t *at)
{
    return (uint32_t)at[0] << 24 | (uint32_t)at[1] << 16 | (uint32_t)at[2] << 8 | at[3];
}

static int guards_hold(const uint8_t *room, size_t length)
{
    for (size_t i = 0; i < GUARD; i++)
        if (room[i] != FILL || room[GUARD + length + i] != FILL)
            return 0;
    return 1;
}

/* Calls one entry on the buffer between the guards. */
static uint8_t call(uint8_t entry, uint32_t a, uint32_t b, uint8_t *room, size_t length, uint64_t *answer)
{
    uint8_t *buffer = room + GUARD;
    switch (entry) {
    case SCHEMA_BLOCKS:
        *answer = yarugota_schema_blocks(buffer, length);
        return FINE;
    case RECORD_PLACE:
        *answer = yarugota_record_place(buffer, length, a, b);
        return FINE;
    case BLOCK_SEALED:
        *answer = yarugota_block_sealed(buffer, length, a);
        return FINE;
    case BLOCK_SEAL:
        *answer = yarugota_block_seal(buffer, length, a);
        return FINE;
    default:
        return NO_ENTRY;
    }
}

/* Serves one request; 0 at the end of the input. */
static int serve(void)
{
    uint8_t head[13], reply[9];
    if (fread(head, 1, sizeof head, stdin) != sizeof head)
        return 0;
    size_t length = number(head + 9);
    if (length > MOST)
        return 0;
    uint8_t *room = malloc(length + 2 * GUARD);
    uint8_t *copy = malloc(length + 1);
    if (room == NULL || copy == NULL || fread(copy, 1, length, stdin) != length)
        return 0;
    memset(room, FILL, length + 2 * GUARD);
    memcpy(room + GUARD, copy, length);

    uint64_t answer = 0;
    reply[0] = call(head[0], number(head + 1), number(head + 5), room, length, &answer);
    if (!guards_hold(room, length))
        reply[0] = BESIDE;
    else if (head[0] != BLOCK_SEAL && memcmp(room + GUARD, copy, length) != 0)
        reply[0] = READ_ONLY;
    for (int i = 0; i < 8; i++)
        reply[1 + i] = (uint8_t)(answer >> (56 - 8 * i));
    fwrite(reply, 1, sizeof reply, stdout);
    if (head[0] == BLOCK_SEAL)
        fwrite(room + GUARD, 1, length, stdout);
    free(room);
    free(copy);
    return fflush(stdout) == 0;
}

int main(void)
{
    while (serve()) {
    }
    return 0;
}
