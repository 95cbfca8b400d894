/*
 * What the program asks of its process: arguments, environment variables, errno, and directories to be listed. What each function is asked
 * and has to answer stands in the kit, in rattle/os/src/c.rt, which the proofs take as given; nothing proves this file. Of the functions
 * that stand there these are the ones that the program calls; if it comes to call another one, the linker names it.
 */
#define _POSIX_C_SOURCE 200809L
#include <errno.h>
#include <fcntl.h>
#include <stddef.h>
#include <stdlib.h>

int rattle_errno(void);
void rattle_set_errno(int error);
ptrdiff_t rattle_arg(size_t at, unsigned char *buffer, size_t room);
ptrdiff_t rattle_env(const char *name, unsigned char *buffer, size_t room);
int rattle_open_dir_at(int dir, const char *name);

enum { MISSING = -1, TOO_LONG = -2 };

static size_t count;
static char **words;

/* The program has a `main` without parameters, and glibc gives those of main to each constructor too. */
__attribute__((constructor)) static void keep_words(int argc, char **argv)
{
    count = (size_t)argc;
    words = argv;
}

/* Copies a text without the 0 that ends it. One that is too long fills the buffer, as the contract says. */
static ptrdiff_t copied(const char *text, unsigned char *buffer, size_t room)
{
    if (text == NULL)
        return MISSING;
    size_t length = 0;
    for (; text[length] != 0; length++) {
        if (length == room)
            return TOO_LONG;
        buffer[length] = (unsigned char)text[length];
    }
    return (ptrdiff_t)length;
}

ptrdiff_t rattle_arg(size_t at, unsigned char *buffer, size_t room)
{
    return copied(at < count ? words[at] : NULL, buffer, room);
}

ptrdiff_t rattle_env(const char *name, unsigned char *buffer, size_t room)
{
    return copied(getenv(name), buffer, room);
}

int rattle_errno(void)
{
    return errno;
}

void rattle_set_errno(int error)
{
    errno = error;
}

int rattle_open_dir_at(int dir, const char *name)
{
    return openat(dir, name, O_RDONLY | O_DIRECTORY | O_NOFOLLOW | O_CLOEXEC);
}
