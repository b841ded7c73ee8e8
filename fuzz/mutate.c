/* How libFuzzer changes an input: mostly by whole commands, so that a change in one leaves the others where they are. */
#include <string.h>

#include "input.h"

size_t LLVMFuzzerMutate(uint8_t *data, size_t size, size_t most);
size_t LLVMFuzzerCustomMutator(uint8_t *data, size_t size, size_t most, unsigned seed);
size_t LLVMFuzzerCustomCrossOver(const uint8_t *first, size_t first_size, const uint8_t *second, size_t second_size, uint8_t *out,
                                 size_t most, unsigned seed);

static uint32_t state;

static uint32_t below(uint32_t bound)
{
    state = state * 1664525 + 1013904223;
    return (state >> 8) % bound;
}

static size_t commands_in(size_t size)
{
    return size < HEAD ? 0 : (size - HEAD) / COMMAND;
}

static uint8_t *command_at(uint8_t *data, size_t number)
{
    return data + HEAD + COMMAND * number;
}

/* Any command; the last two bytes are mostly such that no parameter is spoilt. */
static void make_command(uint8_t *command)
{
    for (size_t at = 0; at < COMMAND; at++)
        command[at] = (uint8_t)below(256);
    command[3] &= below(8) ? 15 : 0xFF;
    command[6] &= below(4) ? 0x3F : 0xFF;
}

static size_t insert(uint8_t *data, size_t commands, size_t most, const uint8_t *command)
{
    if (commands >= commands_in(most))
        return commands;
    uint8_t *at = command_at(data, below((uint32_t)commands + 1));
    memmove(at + COMMAND, at, (size_t)(command_at(data, commands) - at));
    memcpy(at, command, COMMAND);
    return commands + 1;
}

static size_t drop(uint8_t *data, size_t commands)
{
    uint8_t *at = command_at(data, below((uint32_t)commands));
    memmove(at, at + COMMAND, (size_t)(command_at(data, commands) - at) - COMMAND);
    return commands - 1;
}

/* LLVMFuzzerMutate on a part that keeps its length. */
static void mutate_part(uint8_t *part, size_t length)
{
    uint8_t copy[HEAD];
    memcpy(copy, part, length);
    LLVMFuzzerMutate(copy, length, length);
    memcpy(part, copy, length);
}

static size_t change(uint8_t *data, size_t commands, size_t most)
{
    uint8_t command[COMMAND];
    switch (commands == 0 ? 0 : below(8)) {
    case 0:
    case 1:
        make_command(command);
        return insert(data, commands, most, command);
    case 2:
        memcpy(command, command_at(data, below((uint32_t)commands)), COMMAND);
        return insert(data, commands, most, command);
    case 3:
        return drop(data, commands);
    case 4:
        mutate_part(command_at(data, below((uint32_t)commands)), COMMAND);
        return commands;
    case 5:
        mutate_part(data, HEAD);
        return commands;
    default:
        command_at(data, below((uint32_t)commands))[below(COMMAND)] = (uint8_t)below(256);
        return commands;
    }
}

size_t LLVMFuzzerCustomMutator(uint8_t *data, size_t size, size_t most, unsigned seed)
{
    state = seed;
    if (size < HEAD || most < HEAD + COMMAND || below(16) == 0)
        return LLVMFuzzerMutate(data, size, most);
    size_t commands = commands_in(size);
    for (uint32_t times = 1 + below(4); times > 0; times--)
        commands = change(data, commands, most);
    return HEAD + COMMAND * commands;
}

/* The head and the first commands of one input, then the last commands of another. */
size_t LLVMFuzzerCustomCrossOver(const uint8_t *first, size_t first_size, const uint8_t *second, size_t second_size, uint8_t *out,
                                 size_t most, unsigned seed)
{
    if (first_size < HEAD || second_size < HEAD || most < HEAD)
        return 0;
    state = seed;
    size_t kept = below((uint32_t)commands_in(first_size) + 1), from = below((uint32_t)commands_in(second_size) + 1);
    size_t room = commands_in(most), taken = commands_in(second_size) - from;
    kept = kept > room ? room : kept;
    taken = taken > room - kept ? room - kept : taken;
    memcpy(out, first, HEAD + COMMAND * kept);
    memcpy(out + HEAD + COMMAND * kept, second + HEAD + COMMAND * from, COMMAND * taken);
    return HEAD + COMMAND * (kept + taken);
}
