/* Buffers between pages that nobody may touch: a read or a write beside such a buffer ends the program. */
#ifndef GUARDED_H
#define GUARDED_H

#include <stddef.h>
#include <stdint.h>

/* Room of whole pages, with a forbidden page before and after it. */
struct guarded {
    uint8_t *room;
    size_t length;
};

/* Makes a room for so many bytes at most. */
void guarded_open(struct guarded *guarded, size_t most);

/* Puts bytes there, so that they end where the forbidden page begins (at_end), or begin where the one before ends. */
uint8_t *guarded_place(const struct guarded *guarded, const void *bytes, size_t length, int at_end);

#endif
