/* Refuses a program's requests for memory, or makes its reads or writes fail or move little. tests/run/hostile loads it before the C library,
   by LD_PRELOAD.

   Calls are counted from the start of `main` on, each kind for itself and the C library's own among them: what the loader and the
   C library ask for before `main` is not the program's. Two settings of the environment say what happens:

     REFUSING       'KIND FIRST LAST HOW': the calls FIRST to LAST of a KIND, which is memory, read or write. HOW is 0 for memory; for
                    a read or a write, below 0 it is the error with which the call fails, else the most bytes that it moves
     REFUSING_TELL  the file descriptor to which it is told in one line, when the process ends, what there was: how many requests
                    for memory, reads and writes, how many of them were met by REFUSING, and the file descriptor of the first such, or -1 */

#define _GNU_SOURCE
#include <dlfcn.h>
#include <errno.h>
#include <stdio.h>
#include <stdlib.h>
#include <string.h>
#include <sys/socket.h>
#include <sys/syscall.h>
#include <unistd.h>

enum kind { MEMORY, READ, WRITE, KINDS };

typedef int start_of_program(int, char **, char **);
typedef int start_of_process(start_of_program *, int, char **, void (*)(void), void (*)(void), void (*)(void), void *);

extern void *__libc_malloc(size_t size);
extern void *__libc_calloc(size_t count, size_t size);
extern void *__libc_realloc(void *old, size_t size);
extern void *__libc_memalign(size_t alignment, size_t size);

static const char *const names[KINDS] = {"memory", "read", "write"};
static start_of_program *program;
static int counting;
static int chosen = KINDS;
static long first, last, how;
static long seen[KINDS], met;
static int where = -1;

/* Counts a call, and says whether REFUSING meets it. */
static int meets(enum kind kind, int file)
{
    if (!counting)
        return 0;
    seen[kind]++;
    if ((int)kind != chosen || seen[kind] < first || seen[kind] > last)
        return 0;
    if (met++ == 0)
        where = file;
    return 1;
}

static int refused(void)
{
    int is_refused = meets(MEMORY, -1);
    if (is_refused)
        errno = ENOMEM;
    return is_refused;
}

void *malloc(size_t size)
{
    return refused() ? NULL : __libc_malloc(size);
}

void *calloc(size_t count, size_t size)
{
    return refused() ? NULL : __libc_calloc(count, size);
}

void *realloc(void *old, size_t size)
{
    return refused() ? NULL : __libc_realloc(old, size);
}

void *memalign(size_t alignment, size_t size)
{
    return refused() ? NULL : __libc_memalign(alignment, size);
}

void *aligned_alloc(size_t alignment, size_t size)
{
    return memalign(alignment, size);
}

int posix_memalign(void **made, size_t alignment, size_t size)
{
    void *place = memalign(alignment, size);
    if (!place)
        return ENOMEM;
    *made = place;
    return 0;
}

/* Counts a read or a write. Answers whether it fails, else leaves the most bytes that it may move. */
static int fails(enum kind kind, int file, size_t *count)
{
    if (!meets(kind, file))
        return 0;
    if (how < 0)
        errno = (int)-how;
    else if ((size_t)how < *count)
        *count = (size_t)how;
    return how < 0;
}

ssize_t read(int file, void *bytes, size_t count)
{
    return fails(READ, file, &count) ? -1 : syscall(SYS_read, file, bytes, count);
}

ssize_t recv(int file, void *bytes, size_t count, int flags)
{
    return fails(READ, file, &count) ? -1 : syscall(SYS_recvfrom, file, bytes, count, flags, NULL, NULL);
}

ssize_t write(int file, const void *bytes, size_t count)
{
    return fails(WRITE, file, &count) ? -1 : syscall(SYS_write, file, bytes, count);
}

ssize_t send(int file, const void *bytes, size_t count, int flags)
{
    return fails(WRITE, file, &count) ? -1 : syscall(SYS_sendto, file, bytes, count, flags, NULL, 0);
}

static int counted(int count, char **words, char **settings)
{
    const char *wish = getenv("REFUSING");
    char name[8] = "";
    if (wish && sscanf(wish, "%7s %ld %ld %ld", name, &first, &last, &how) == 4)
        for (int kind = 0; kind < KINDS; kind++)
            if (!strcmp(name, names[kind]))
                chosen = kind;
    counting = 1;
    return program(count, words, settings);
}

/* The process starts as it would, with `counted` in the place of `main`. */
int __libc_start_main(start_of_program *main, int count, char **words, void (*init)(void), void (*fini)(void), void (*end)(void), void *stack)
{
    start_of_process *start = (start_of_process *)dlsym(RTLD_NEXT, "__libc_start_main");
    program = main;
    return start(counted, count, words, init, fini, end, stack);
}

__attribute__((destructor)) static void told(void)
{
    const char *place = getenv("REFUSING_TELL");
    counting = 0;
    if (place)
        dprintf(atoi(place), "%ld %ld %ld %ld %d\n", seen[MEMORY], seen[READ], seen[WRITE], met, where);
}
