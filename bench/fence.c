#define _DEFAULT_SOURCE
#include "fence.h"

#include <stdio.h>
#include <stdlib.h>
#include <string.h>
#include <sys/mman.h>
#include <unistd.h>

enum { GUARD_BYTES = 64 };

struct fence fence_new(size_t most)
{
    size_t page = (size_t)sysconf(_SC_PAGESIZE);
    size_t size = (most + GUARD_BYTES + page - 1) / page * page;
    uint8_t *all = mmap(NULL, size + page, PROT_NONE, MAP_PRIVATE | MAP_ANONYMOUS, -1, 0);
    if (all == MAP_FAILED || mprotect(all, size, PROT_READ | PROT_WRITE) != 0) {
        perror("memory");
        exit(1);
    }
    return (struct fence){all + size, most};
}

uint8_t *fence_lend(const struct fence *f, size_t length)
{
    if (length > f->most) {
        fprintf(stderr, "fence: %zu bytes asked, %zu there\n", length, f->most);
        exit(1);
    }
    memset(f->end - length - GUARD_BYTES, FENCE_FILL, length + GUARD_BYTES);
    return f->end - length;
}

bool fence_filled(const uint8_t *bytes, size_t length)
{
    for (size_t i = 0; i < length; i++)
        if (bytes[i] != FENCE_FILL)
            return false;
    return true;
}

bool fence_intact(const struct fence *f, size_t length)
{
    const uint8_t *guard = f->end - length - GUARD_BYTES;
    /* Each byte is as the one before it. */
    return guard[0] == FENCE_FILL && memcmp(guard, guard + 1, GUARD_BYTES - 1) == 0;
}
