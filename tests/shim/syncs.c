/* Counts a program's syncs of files, for tests/measure/scale, which loads it before the C library, by LD_PRELOAD. The environment's SYNCS names
   a file of eight bytes, which all processes that count together share: a number in the machine's order. */

#define _GNU_SOURCE
#include <fcntl.h>
#include <stdint.h>
#include <stdlib.h>
#include <sys/mman.h>
#include <sys/syscall.h>
#include <unistd.h>

static uint64_t *count;

__attribute__((constructor)) static void settle(void)
{
    const char *path = getenv("SYNCS");
    int file = path ? open(path, O_RDWR) : -1;
    void *at = file < 0 ? MAP_FAILED : mmap(0, sizeof *count, PROT_READ | PROT_WRITE, MAP_SHARED, file, 0);
    if (file >= 0)
        close(file);
    count = at == MAP_FAILED ? 0 : at;
}

static long counted(long number, int file)
{
    if (count)
        __atomic_add_fetch(count, 1, __ATOMIC_RELAXED);
    return syscall(number, file);
}

int fsync(int file)
{
    return (int)counted(SYS_fsync, file);
}

int fdatasync(int file)
{
    return (int)counted(SYS_fdatasync, file);
}
