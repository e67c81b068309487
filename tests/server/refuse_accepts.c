// Preloaded into a program, refuses it accepts, as a rule of a firewall may: at the port that stands in the file whose path is
// in REFUSE_ACCEPTS, from when it is there.
#define _GNU_SOURCE
#include <arpa/inet.h>
#include <errno.h>
#include <stdio.h>
#include <stdlib.h>
#include <sys/socket.h>
#include <sys/syscall.h>
#include <unistd.h>

static int is_refused(int listener) {
    const char *sign = getenv("REFUSE_ACCEPTS");
    FILE *file = sign ? fopen(sign, "r") : NULL;
    struct sockaddr_in own = {0};
    socklen_t length = sizeof own;
    int port = 0;
    if (!file)
        return 0;
    int is_read = fscanf(file, "%d", &port) == 1;
    fclose(file);
    return is_read && getsockname(listener, (struct sockaddr *)&own, &length) == 0 && ntohs(own.sin_port) == port;
}

int accept4(int listener, struct sockaddr *address, socklen_t *length, int flags) {
    if (is_refused(listener)) {
        errno = EPERM;
        return -1;
    }
    return syscall(SYS_accept4, listener, address, length, flags);
}
