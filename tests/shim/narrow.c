/* Leaves a program's connections as little room for what it writes as the system allows, so that a peer that takes nothing soon makes its
   writes wait. tests/run/connections loads it before the C library, by LD_PRELOAD. */

#define _GNU_SOURCE
#include <sys/socket.h>
#include <sys/syscall.h>
#include <unistd.h>

int connect(int file, const struct sockaddr *address, socklen_t length)
{
    int room = 1;
    setsockopt(file, SOL_SOCKET, SO_SNDBUF, &room, sizeof room);
    return (int)syscall(SYS_connect, file, address, length);
}
