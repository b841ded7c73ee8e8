#include "guarded.h"

#include <stdio.h>
#include <stdlib.h>
#include <string.h>
#include <sys/mman.h>
#include <unistd.h>

void guarded_open(struct guarded *guarded, size_t most)
{
    size_t page = (size_t)sysconf(_SC_PAGESIZE);
    guarded->length = (most + page - 1) / page * page;
    uint8_t *pages = mmap(NULL, guarded->length + 2 * page, PROT_NONE, MAP_PRIVATE | MAP_ANONYMOUS, -1, 0);
    if (pages == MAP_FAILED || mprotect(pages + page, guarded->length, PROT_READ | PROT_WRITE) != 0) {
        perror("no guarded pages");
        exit(1);
    }
    guarded->room = pages + page;
}

uint8_t *guarded_place(const struct guarded *guarded, const void *bytes, size_t length, int at_end)
{
    uint8_t *at = guarded->room + (at_end ? guarded->length - length : 0);
    memcpy(at, bytes, length);
    return at;
}
