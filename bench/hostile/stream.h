/* A connection that a run makes leads to nobody, and is sent the bytes that are given for it, and then its end. */
#include <sys/socket.h>
#include <sys/syscall.h>
#include <unistd.h>

static const char *stream_bytes;
static long stream_length = -1;

int connect(int descriptor, const struct sockaddr *to, socklen_t bytes) {
    int pair[2], room = 2 << 20;
    if (stream_length < 0) return syscall(SYS_connect, descriptor, to, bytes);
    if (socketpair(AF_UNIX, SOCK_STREAM, 0, pair)) return -1;
    setsockopt(pair[1], SOL_SOCKET, SO_SNDBUFFORCE, &room, sizeof room);
    if (send(pair[1], stream_bytes, stream_length, MSG_DONTWAIT) != stream_length) _exit(99);
    shutdown(pair[1], SHUT_WR);
    dup2(pair[0], descriptor);
    syscall(SYS_close, pair[0]);
    return 0;
}
