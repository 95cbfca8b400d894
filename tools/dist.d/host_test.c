/*
 * Tries what dist/c/ defines, as the kit's contracts have it (rattle/os/src/c.rt, rattle/libc/src/heap.rt). It is run with the words
 * `` (empty) and `four`, and with TRIED=four among its variables; it ends with the number of the line where something isn't so.
 */
#include <errno.h>
#include <stdbool.h>
#include <stddef.h>
#include <stdint.h>
#include <string.h>

struct tried {
    bool ok;
    void *at;
};

struct tried rattle_alloc(size_t size, size_t align);
struct tried rattle_realloc(void *block, size_t kept, size_t size, size_t align);
void rattle_dealloc(void *block);
ptrdiff_t rattle_arg(size_t at, unsigned char *buffer, size_t room);
ptrdiff_t rattle_env(const char *name, unsigned char *buffer, size_t room);
int rattle_errno(void);
void rattle_set_errno(int error);

#define SO(holds) do { if (!(holds)) return __LINE__; } while (0)

static unsigned char buffer[8];

/* Whether the buffer begins with a text, and has nothing behind it. */
static bool has(const char *text)
{
    size_t length = strlen(text);
    bool is_so = memcmp(buffer, text, length) == 0;
    for (size_t at = length; at < sizeof buffer; at++)
        is_so = is_so && buffer[at] == 0;
    memset(buffer, 0, sizeof buffer);
    return is_so;
}

static int words(void)
{
    SO(rattle_arg(1, buffer, 8) == 0 && has(""));
    SO(rattle_arg(1, buffer, 0) == 0 && has(""));
    SO(rattle_arg(2, buffer, 8) == 4 && has("four"));
    SO(rattle_arg(2, buffer, 4) == 4 && has("four"));
    SO(rattle_arg(2, buffer, 3) == -2 && has("fou"));
    SO(rattle_arg(2, buffer, 0) == -2 && has(""));
    SO(rattle_arg(3, buffer, 8) == -1 && has(""));
    SO(rattle_arg(SIZE_MAX, buffer, 8) == -1 && has(""));
    SO(rattle_env("TRIED", buffer, 4) == 4 && has("four"));
    SO(rattle_env("TRIED", buffer, 3) == -2 && has("fou"));
    SO(rattle_env("NOT_TRIED", buffer, 8) == -1 && has(""));
    rattle_set_errno(EINTR);
    SO(errno == EINTR && rattle_errno() == EINTR);
    return 0;
}

static int blocks(void)
{
    for (size_t align = 1; align <= 16; align *= 2)
        for (size_t size = 0; size <= 64; size += align) {
            struct tried made = rattle_alloc(size, align);
            SO(made.ok && (uintptr_t)made.at % align == 0);
            memset(made.at, 7, size);
            made = rattle_realloc(made.at, size, 4 * size, align);
            SO(made.ok && (uintptr_t)made.at % align == 0);
            for (size_t at = 0; at < size; at++)
                SO(((unsigned char *)made.at)[at] == 7);
            rattle_dealloc(made.at);
        }
    struct tried kept = rattle_alloc(4, 1), refused = rattle_alloc(SIZE_MAX / 2, 1);
    SO(kept.ok && !refused.ok && refused.at != NULL);
    memcpy(kept.at, "four", 4);
    refused = rattle_realloc(kept.at, 4, SIZE_MAX / 2, 1);
    SO(!refused.ok && refused.at != NULL && memcmp(kept.at, "four", 4) == 0);
    rattle_dealloc(kept.at);
    return 0;
}

int main(void)
{
    int line = words();
    return line != 0 ? line : blocks();
}
