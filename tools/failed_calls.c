/* Lets calls of the system fail, or move few bytes; it is loaded before the C library, by LD_PRELOAD.
 *
 * The calls are of these kinds: reads of the standard input (1), writes of the standard output (2) and of standard error
 * (3), sends (4) and receives (5) by a socket, and waits for sockets (6). The file that FAILED_CALLS names has six numbers
 * of 64 bits: the kind that is counted, how many calls of it there were, which is written here as they come, the first and
 * the last of them that fail, the error that they give, or 0 where they move no byte, and how many bytes each other call of
 * the kind moves at most, or 0 where it moves all that it can. A datagram is moved whole.
 */
#define _GNU_SOURCE
#include <errno.h>
#include <fcntl.h>
#include <stdint.h>
#include <stdlib.h>
#include <sys/epoll.h>
#include <sys/mman.h>
#include <sys/socket.h>
#include <sys/stat.h>
#include <sys/syscall.h>
#include <sys/uio.h>
#include <unistd.h>

enum kind { NONE, INPUT, OUTPUT, TRACE, SEND, RECEIVE, WAIT };

struct calls {
    uint64_t kind, count, first, last, error, most;
};

static struct calls *calls;

__attribute__((constructor)) static void begin(void) {
    const char *path = getenv("FAILED_CALLS");
    int file = path ? open(path, O_RDWR | O_CLOEXEC) : -1;
    void *shared = mmap(NULL, sizeof(struct calls), PROT_READ | PROT_WRITE, MAP_SHARED, file, 0);
    if (shared == MAP_FAILED)
        abort();
    close(file);
    calls = shared;
}

/* Counts a call, and says whether it fails. */
static int fails(enum kind kind) {
    uint64_t number;
    if (calls == NULL || calls->kind != kind)
        return 0;
    number = ++calls->count;
    return number >= calls->first && number <= calls->last;
}

/* What a call gives that fails. */
static ssize_t failure(void) {
    if (calls->error == 0)
        return 0;
    errno = (int)calls->error;
    return -1;
}

static int is_datagram(int file) {
    int type = 0;
    socklen_t size = sizeof type;
    return getsockopt(file, SOL_SOCKET, SO_TYPE, &type, &size) == 0 && type == SOCK_DGRAM;
}

/* How many of these bytes a call moves. */
static size_t moved(enum kind kind, int file, size_t bytes) {
    if (calls == NULL || calls->kind != kind || calls->most == 0 || bytes <= calls->most)
        return bytes;
    if ((kind == SEND || kind == RECEIVE) && is_datagram(file))
        return bytes;
    return calls->most;
}

/* This kind where the file is a socket. */
static enum kind if_socket(int file, enum kind kind) {
    struct stat status;
    return fstat(file, &status) == 0 && S_ISSOCK(status.st_mode) ? kind : NONE;
}

static enum kind kind_of_read(int file) {
    return file == STDIN_FILENO ? INPUT : if_socket(file, RECEIVE);
}

static enum kind kind_of_write(int file) {
    return file == STDOUT_FILENO ? OUTPUT : file == STDERR_FILENO ? TRACE : if_socket(file, SEND);
}

ssize_t read(int file, void *room, size_t bytes) {
    enum kind kind = kind_of_read(file);
    return fails(kind) ? failure() : syscall(SYS_read, file, room, moved(kind, file, bytes));
}

ssize_t write(int file, const void *piece, size_t bytes) {
    enum kind kind = kind_of_write(file);
    return fails(kind) ? failure() : syscall(SYS_write, file, piece, moved(kind, file, bytes));
}

ssize_t writev(int file, const struct iovec *pieces, int count) {
    enum kind kind = kind_of_write(file);
    if (fails(kind))
        return failure();
    if (count > 0 && calls != NULL && calls->kind == kind && calls->most != 0)
        return syscall(SYS_write, file, pieces[0].iov_base, moved(kind, file, pieces[0].iov_len));
    return syscall(SYS_writev, file, pieces, count);
}

ssize_t sendto(int file, const void *piece, size_t bytes, int flags, const struct sockaddr *to, socklen_t size) {
    return fails(SEND) ? failure() : syscall(SYS_sendto, file, piece, moved(SEND, file, bytes), flags, to, size);
}

ssize_t send(int file, const void *piece, size_t bytes, int flags) {
    return sendto(file, piece, bytes, flags, NULL, 0);
}

ssize_t sendmsg(int file, const struct msghdr *message, int flags) {
    return fails(SEND) ? failure() : syscall(SYS_sendmsg, file, message, flags);
}

// A wait looks at the sender of what came, and takes nothing by that: such a look is no receive.
ssize_t recvfrom(int file, void *room, size_t bytes, int flags, struct sockaddr *from, socklen_t *size) {
    if (flags & MSG_PEEK) {
        return syscall(SYS_recvfrom, file, room, bytes, flags, from, size);
    }
    return fails(RECEIVE) ? failure() : syscall(SYS_recvfrom, file, room, moved(RECEIVE, file, bytes), flags, from, size);
}

ssize_t recv(int file, void *room, size_t bytes, int flags) {
    return recvfrom(file, room, bytes, flags, NULL, NULL);
}

int epoll_wait(int set, struct epoll_event *events, int most, int milliseconds) {
    return fails(WAIT) ? (int)failure() : (int)syscall(SYS_epoll_pwait, set, events, most, milliseconds, NULL, 8);
}
