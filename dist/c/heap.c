/*
 * The program's heap, over malloc. What each function is asked and has to answer stands in the kit, in rattle/libc/src/heap.rt and
 * rattle/libc/specs/Heap.antt, which the proofs take as given; nothing proves this file.
 */
#include <stdbool.h>
#include <stddef.h>
#include <stdlib.h>

/* `Tried` of rattle/libc/src/types.rt. */
struct tried {
    bool ok;
    void *at;
};

void rattle_dealloc(void *block);
struct tried rattle_alloc(size_t size, size_t align);
struct tried rattle_realloc(void *block, size_t kept, size_t size, size_t align);

/* The contract's pointer is never null, not even where there is no block. */
static char nothing;

static struct tried tried(void *block)
{
    return (struct tried){block != NULL, block != NULL ? block : &nothing};
}

/*
 * A block of no bytes is one too, and malloc(0) may be null. A size is a multiple of the alignment, which is at most 16, so malloc
 * aligns each block as asked if it has at least as many bytes.
 */
static size_t room(size_t size, size_t align)
{
    return size != 0 ? size : align;
}

struct tried rattle_alloc(size_t size, size_t align)
{
    return tried(malloc(room(size, align)));
}

/* The first `kept` bytes have to stay; realloc keeps all that there were. Where it fails, the block is as it was. */
struct tried rattle_realloc(void *block, size_t kept, size_t size, size_t align)
{
    (void)kept;
    return tried(realloc(block, room(size, align)));
}

void rattle_dealloc(void *block)
{
    free(block);
}
