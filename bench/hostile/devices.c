/* Makes the N-th call of one kind fail, be interrupted or be short in the program it is loaded before.
   CALL is its name (read, recv, write, open, statx, fsync, rename, fchmod, .., or out, a write to the standard outlets), CALL_AT is N,
   CALL_HOW fail, interrupt or short, COUNTS the file of one number: how many such calls were made. OUT_BYTES is how many bytes the
   standard output takes. */
#define _GNU_SOURCE
#include "forks.h"
#include <errno.h>
#include <stdarg.h>
#include <stdatomic.h>
#include <sys/epoll.h>
#include <sys/stat.h>

static atomic_long own_count;
static atomic_long *made = &own_count;
static const char *named = "", *how = "";
static long at, out_left = -1;

__attribute__((constructor)) static void start(void) {
    serve_forks();
    const char *path = getenv("COUNTS"), *number = getenv("CALL_AT"), *bytes = getenv("OUT_BYTES");
    int file = path ? syscall(SYS_openat, AT_FDCWD, path, O_RDWR) : -1;
    if (file >= 0) {
        void *page = (void *)syscall(SYS_mmap, 0, sizeof(long), PROT_READ | PROT_WRITE, MAP_SHARED, file, 0);
        if (page != MAP_FAILED) made = page;
        syscall(SYS_close, file);
    }
    named = getenv("CALL") ? getenv("CALL") : "";
    how = getenv("CALL_HOW") ? getenv("CALL_HOW") : "";
    at = number ? atol(number) : 0;
    out_left = bytes ? atol(bytes) : -1;
}

/* Whether a call of this name is the one, and is to end so: 'f'ails, 'i'nterrupted, 's'hort; 0 where it is made. */
static char met(const char *name) {
    if (strcmp(name, named) != 0 || atomic_fetch_add(made, 1) + 1 != at) return 0;
    errno = how[0] == 'i' ? EINTR : strcmp(name, "write") == 0 || strcmp(name, "out") == 0 ? ENOSPC : strcmp(name, "open") == 0 ? EACCES : EIO;
    return how[0];
}

#define FAILS(name) \
    char end = met(name); \
    if (end == 'f' || end == 'i') return -1;

ssize_t read(int file, void *place, size_t size) {
    FAILS("read")
    return syscall(SYS_read, file, place, end == 's' && size > 1 ? 1 : size);
}

ssize_t recv(int file, void *place, size_t size, int flags) {
    FAILS("recv")
    return syscall(SYS_recvfrom, file, place, end == 's' && size > 1 ? 1 : size, flags, 0, 0);
}

ssize_t send(int file, const void *bytes, size_t size, int flags) {
    FAILS("send")
    return syscall(SYS_sendto, file, bytes, end == 's' && size > 1 ? 1 : size, flags, 0, 0);
}

int accept4(int file, struct sockaddr *from, socklen_t *size, int flags) { FAILS("accept4") return syscall(SYS_accept4, file, from, size, flags); }
int socket(int kind, int type, int protocol) { FAILS("socket") return syscall(SYS_socket, kind, type, protocol); }
int bind(int file, const struct sockaddr *to, socklen_t size) { FAILS("bind") return syscall(SYS_bind, file, to, size); }
int listen(int file, int most) { FAILS("listen") return syscall(SYS_listen, file, most); }
int epoll_create1(int flags) { FAILS("epoll_create1") return syscall(SYS_epoll_create1, flags); }
int epoll_ctl(int file, int how, int of, struct epoll_event *event) { FAILS("epoll_ctl") return syscall(SYS_epoll_ctl, file, how, of, event); }
int epoll_wait(int file, struct epoll_event *events, int most, int wait) { FAILS("epoll_wait") return syscall(SYS_epoll_wait, file, events, most, wait); }

ssize_t write(int file, const void *bytes, size_t size) {
    if (file == 1 && out_left >= 0) {
        if (out_left == 0 && size > 0) return errno = ENOSPC, -1;
        if ((long)size > out_left) size = out_left;
        out_left -= size;
    }
    FAILS(file == 1 || file == 2 ? "out" : "write")
    return syscall(SYS_write, file, bytes, end == 's' && size > 1 ? 1 : size);
}
ssize_t __write(int file, const void *bytes, size_t size) { return write(file, bytes, size); }

int open(const char *path, int flags, ...) {
    va_list rest;
    va_start(rest, flags);
    int mode = va_arg(rest, int);
    va_end(rest);
    // which the program opens before anything else, to see that its standard descriptors are open
    if (strcmp(path, "/dev/null") == 0) return syscall(SYS_openat, AT_FDCWD, path, flags, mode);
    FAILS("open")
    return syscall(SYS_openat, AT_FDCWD, path, flags, mode);
}

int statx(int folder, const char *restrict path, int flags, unsigned mask, struct statx *restrict found) {
    FAILS("statx")
    return syscall(SYS_statx, folder, path, flags, mask, found);
}

int close(int file) {
    char end = met("close");
    int closed = syscall(SYS_close, file);
    return end ? (errno = EIO, -1) : closed;
}

int fsync(int file) { FAILS("fsync") return syscall(SYS_fsync, file); }
int fdatasync(int file) { FAILS("fdatasync") return syscall(SYS_fdatasync, file); }
int fchmod(int file, mode_t mode) { FAILS("fchmod") return syscall(SYS_fchmod, file, mode); }
int ftruncate(int file, off_t size) { FAILS("ftruncate") return syscall(SYS_ftruncate, file, size); }
int rename(const char *from, const char *to) { FAILS("rename") return syscall(SYS_rename, from, to); }
int unlink(const char *path) { FAILS("unlink") return syscall(SYS_unlink, path); }
ssize_t readlink(const char *restrict path, char *restrict place, size_t size) { FAILS("readlink") return syscall(SYS_readlink, path, place, size); }
