/* Makes a program's calls at its state files fail, or the program die at one of them. tests/run/state_faults loads it before the C library, by
   LD_PRELOAD.

   Those are the files that are opened by a path with `.db` in it, and only calls at these are counted, each kind for itself. Two settings
   of the environment say what happens:

     DISK       'KIND FIRST LAST HOW': the calls FIRST to LAST of a KIND, which is open, read, write, sync, other (to give a file another
                length, owner, or mode, or to lock it) or any. HOW below 0 is the error with which the call fails; 0 kills the program
                before the call, 1 after it, a write after half of its bytes; 2 lets a read or a write move half of its bytes
     DISK_TELL  the file descriptor to which it is told in one line, when the process ends, how many calls there were of each kind, in that
                order, and how many of them were met by DISK */

#define _GNU_SOURCE
#include <errno.h>
#include <fcntl.h>
#include <signal.h>
#include <stdarg.h>
#include <stdio.h>
#include <stdlib.h>
#include <string.h>
#include <sys/syscall.h>
#include <unistd.h>

enum kind { OPEN, READ, WRITE, SYNC, OTHER, ANY, KINDS };
enum { FILES = 1024, KILL_BEFORE = 0, KILL_AFTER = 1, HALF = 2 };

static const char *const names[KINDS] = {"open", "read", "write", "sync", "other", "any"};
static char is_ours[FILES];
static int chosen = KINDS, was_read;
static long first, last, how;
static long seen[KINDS], met;

static void settle(void)
{
    const char *wish = getenv("DISK");
    char name[8] = "";
    was_read = 1;
    if (wish && sscanf(wish, "%7s %ld %ld %ld", name, &first, &last, &how) == 4)
        for (int kind = 0; kind < KINDS; kind++)
            if (!strcmp(name, names[kind]))
                chosen = kind;
}

static int ours(int file)
{
    return file >= 0 && file < FILES && is_ours[file];
}

/* Counts a call, and says whether DISK meets it. */
static int meets(enum kind kind)
{
    if (!was_read)
        settle();
    seen[kind]++;
    seen[ANY]++;
    if (chosen != (int)kind && chosen != ANY)
        return 0;
    if (seen[chosen] < first || seen[chosen] > last)
        return 0;
    met++;
    if (how == KILL_BEFORE)
        kill(getpid(), SIGKILL);
    return 1;
}

static long failed(void)
{
    errno = (int)-how;
    return -1;
}

/* What is left to do of a call that was met, after it. */
static long after(long result)
{
    if (how == KILL_AFTER)
        kill(getpid(), SIGKILL);
    return result;
}

static long moved(enum kind kind, long number, int file, void *bytes, size_t count, off_t place)
{
    if (!ours(file) || !meets(kind))
        return syscall(number, file, bytes, count, place);
    if (how < 0)
        return failed();
    if (how == HALF || (how == KILL_AFTER && kind == WRITE))
        count = (count + 1) / 2;
    return after(syscall(number, file, bytes, count, place));
}

ssize_t pread(int file, void *bytes, size_t count, off_t place)
{
    return moved(READ, SYS_pread64, file, bytes, count, place);
}

ssize_t pread64(int file, void *bytes, size_t count, off_t place)
{
    return moved(READ, SYS_pread64, file, bytes, count, place);
}

ssize_t pwrite(int file, const void *bytes, size_t count, off_t place)
{
    return moved(WRITE, SYS_pwrite64, file, (void *)bytes, count, place);
}

ssize_t pwrite64(int file, const void *bytes, size_t count, off_t place)
{
    return moved(WRITE, SYS_pwrite64, file, (void *)bytes, count, place);
}

/* A call of one file and one or two numbers. */
static long done(enum kind kind, long number, int file, long one, long other)
{
    if (!ours(file) || !meets(kind))
        return syscall(number, file, one, other);
    return how < 0 ? failed() : after(syscall(number, file, one, other));
}

int fsync(int file)
{
    return (int)done(SYNC, SYS_fsync, file, 0, 0);
}

int fdatasync(int file)
{
    return (int)done(SYNC, SYS_fdatasync, file, 0, 0);
}

int ftruncate(int file, off_t length)
{
    return (int)done(OTHER, SYS_ftruncate, file, length, 0);
}

int ftruncate64(int file, off_t length)
{
    return (int)done(OTHER, SYS_ftruncate, file, length, 0);
}

int fchmod(int file, mode_t mode)
{
    return (int)done(OTHER, SYS_fchmod, file, mode, 0);
}

int fchown(int file, uid_t owner, gid_t group)
{
    return (int)done(OTHER, SYS_fchown, file, owner, group);
}

static int opened(const char *path, int flags, mode_t mode)
{
    int is_state = strstr(path, ".db") != NULL, is_met = is_state && meets(OPEN);
    if (is_met && how < 0)
        return (int)failed();
    int file = (int)syscall(SYS_openat, AT_FDCWD, path, flags, mode);
    if (file >= 0 && file < FILES)
        is_ours[file] = (char)is_state;
    return is_met ? (int)after(file) : file;
}

int open(const char *path, int flags, ...)
{
    va_list rest;
    va_start(rest, flags);
    mode_t mode = flags & (O_CREAT | O_TMPFILE) ? va_arg(rest, mode_t) : 0;
    va_end(rest);
    return opened(path, flags, mode);
}

int open64(const char *path, int flags, ...)
{
    va_list rest;
    va_start(rest, flags);
    mode_t mode = flags & (O_CREAT | O_TMPFILE) ? va_arg(rest, mode_t) : 0;
    va_end(rest);
    return opened(path, flags | O_LARGEFILE, mode);
}

int close(int file)
{
    if (file >= 0 && file < FILES)
        is_ours[file] = 0;
    return (int)syscall(SYS_close, file);
}

__attribute__((destructor)) static void told(void)
{
    const char *place = getenv("DISK_TELL");
    if (place)
        dprintf(atoi(place), "%ld %ld %ld %ld %ld %ld\n", seen[OPEN], seen[READ], seen[WRITE], seen[SYNC], seen[OTHER], met);
}
