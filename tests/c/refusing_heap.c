/* A heap that refuses one allocation: that of a number which the test sets. */
#include "refusing_heap.h"
#include <stdbool.h>
#include <stdlib.h>

struct rattle_memory {
    bool granted;
    void *at;
};

long allocations = 0;
long refused_allocation = -1;

static char nowhere;

static bool is_refused(void)
{
    return allocations++ == refused_allocation;
}

static struct rattle_memory granted(void *at)
{
    struct rattle_memory memory = { at != NULL, at != NULL ? at : &nowhere };
    return memory;
}

struct rattle_memory rattle_alloc(size_t size, size_t alignment);
struct rattle_memory rattle_realloc(void *at, size_t kept, size_t size, size_t alignment);
void rattle_dealloc(void *at);

struct rattle_memory rattle_alloc(size_t size, size_t alignment)
{
    (void)alignment;
    return granted(is_refused() ? NULL : malloc(size != 0 ? size : 1));
}

struct rattle_memory rattle_realloc(void *at, size_t kept, size_t size, size_t alignment)
{
    (void)kept;
    (void)alignment;
    return granted(is_refused() ? NULL : realloc(at, size != 0 ? size : 1));
}

void rattle_dealloc(void *at)
{
    free(at);
}
