/* The heap of the library: the three calls that it makes, by the C library's own. A program may give three of its own instead. */
#include <stdbool.h>
#include <stddef.h>
#include <stdlib.h>

/* What the C library aligns every block to, on 64-bit machines. The library never asks for more. */
#define ALIGNMENT 16

/* Whether there is memory, and where. The place is never null, so it is this byte where there is none. */
struct rattle_memory {
    bool granted;
    void *at;
};

static char nowhere;

static struct rattle_memory granted(void *at)
{
    struct rattle_memory memory = { at != NULL, at != NULL ? at : &nowhere };
    return memory;
}

/* (a block of no bytes is one of some, so that it has a place of its own) */
static size_t at_least_one(size_t size)
{
    return size != 0 ? size : 1;
}

struct rattle_memory rattle_alloc(size_t size, size_t alignment);
struct rattle_memory rattle_realloc(void *at, size_t kept, size_t size, size_t alignment);
void rattle_dealloc(void *at);

struct rattle_memory rattle_alloc(size_t size, size_t alignment)
{
    return granted(alignment <= ALIGNMENT ? malloc(at_least_one(size)) : NULL);
}

/* Of the old block, this many first bytes are kept. */
struct rattle_memory rattle_realloc(void *at, size_t kept, size_t size, size_t alignment)
{
    (void)kept;
    return granted(alignment <= ALIGNMENT ? realloc(at, at_least_one(size)) : NULL);
}

void rattle_dealloc(void *at)
{
    free(at);
}
