/* A shim that is loaded before a program (LD_PRELOAD) and refuses allocations of it: a malloc, calloc or realloc that asks for
   bytes. It has two ways.

   By command. A program of the script language says by the size of a block where a command begins and ends, while its
   refusals are on. Asked for BEGIN bytes, the shim counts allocations from then on; asked for END bytes, it stops, and grants
   these only where it refused nothing, so that the program can tell. It refuses a command's first allocation, and where one
   was refused in the try before, the next one: so the same command, given again and again, has each of its allocations
   refused, and at last none. REFUSE_FIRST is the allocation that is refused first of all (1 where it is left out).

   By process. REFUSE_AT=N refuses the Nth allocation of the whole process, and tells so by making the file REFUSE_LOG.

   The real calls are those that the C library gives under another name, so that nothing is looked up here. */
#define _GNU_SOURCE
#include <errno.h>
#include <fcntl.h>
#include <stdlib.h>
#include <unistd.h>

/* The same two sizes stand in the programs. No call of theirs asks for as much. */
#define BEGIN 999979
#define END 999983

extern void *__libc_malloc(size_t size);
extern void *__libc_calloc(size_t count, size_t size);
extern void *__libc_realloc(void *block, size_t size);

static int is_whole_process, is_counting;
/* Which allocation is refused, of those since the counting began. */
static unsigned long refused_number, allocations;
/* Whether one was refused in this try. */
static int was_refused;

static unsigned long number_of(const char *name, unsigned long otherwise) {
    const char *text = getenv(name);
    return text ? strtoul(text, NULL, 10) : otherwise;
}

__attribute__((constructor)) static void start(void) {
    refused_number = number_of("REFUSE_AT", 0);
    is_whole_process = is_counting = refused_number != 0;
    if (!is_whole_process)
        refused_number = number_of("REFUSE_FIRST", 1);
}

static void tell_refusal(void) {
    const char *name = getenv("REFUSE_LOG");
    int file = name ? open(name, O_WRONLY | O_CREAT, 0600) : -1;
    if (file < 0)
        abort();
    close(file);
}

static void begin(void) {
    is_counting = 1;
    allocations = 0;
    was_refused = 0;
}

/* A command without an allocation changes nothing. */
static void end(void) {
    is_counting = 0;
    if (allocations == 0)
        return;
    refused_number = was_refused ? refused_number + 1 : 1;
}

/* Whether this allocation is refused. Blocks of BEGIN and END bytes are no allocations of the command. */
static int is_refused(size_t size) {
    if (!is_whole_process && size == BEGIN) {
        begin();
        return 0;
    }
    if (!is_whole_process && size == END) {
        end();
        return was_refused;
    }
    if (!is_counting || size == 0)
        return 0;
    allocations++;
    if (allocations != refused_number)
        return 0;
    was_refused = 1;
    if (is_whole_process)
        tell_refusal();
    return 1;
}

static void *refused(void) {
    errno = ENOMEM;
    return NULL;
}

void *malloc(size_t size) { return is_refused(size) ? refused() : __libc_malloc(size); }

void *realloc(void *block, size_t size) { return is_refused(size) ? refused() : __libc_realloc(block, size); }

void *calloc(size_t count, size_t size) {
    size_t whole;
    if (__builtin_mul_overflow(count, size, &whole))
        return refused();
    return is_refused(whole) ? refused() : __libc_calloc(count, size);
}
