/* What the fuzzer's bytes stand for: a head of HEAD bytes, from which a schema is made, then commands of COMMAND bytes each. */
#ifndef INPUT_H
#define INPUT_H

#include <stddef.h>
#include <stdint.h>

enum { BLOCK = 512, CHECK = 508, MOST_BLOCKS = 96, MOST_AREA = 1024, MOST_KEY = 40 };
enum { HEAD = 32, COMMAND = 8, MOST_COMMANDS = 64, MOST_INPUT = HEAD + COMMAND * MOST_COMMANDS };

/* The schema and data base of a run. A base has room for one byte and one block more than it should have. */
struct run {
    uint8_t schema[BLOCK + 1];
    uint8_t base[(MOST_BLOCKS + 1) * BLOCK + 1];
    size_t base_length;
    uint32_t last_reference;
    int at_end;
};

/* A call's parameters; the lengths of schema and base may be wrong ones. */
struct call {
    uint8_t op[5], set[4], path[8];
    uint32_t reference;
    uint8_t key[MOST_KEY];
    size_t key_length;
    uint8_t area[MOST_AREA + 1];
    size_t area_length, schema_length, base_length;
};

/* A run with its schema, and a base whose bytes are all alike. */
void run_begin(struct run *run, const uint8_t head[HEAD]);

/* Does what a command says to schema or base and answers 1, or makes a call of it and answers 0. */
int command_damages(struct run *run, const uint8_t command[COMMAND]);
void command_call(const struct run *run, const uint8_t command[COMMAND], struct call *call);

/* A call that names an operation and nothing else. */
void plain_call(const struct run *run, const char *op, struct call *call);

/* The number of an operation, or 16 for one that is not known. */
unsigned operation_number(const uint8_t op[5]);

/* T of a schema, or 0; the model's. */
uint32_t model_blocks(const uint8_t *schema, size_t schema_length);

/* The byte of the base where a record begins, or SIZE_MAX; the model's. */
size_t model_place(const uint8_t *schema, size_t schema_length, size_t entry, uint32_t record);

#endif
