/* A library for LD_PRELOAD that refuses memory, writes and reads of the program that it is loaded into.
 *
 * FAULT_GROWTH=N      the Nth call that asks for memory is refused
 * FAULT_LASTS=1       and so are all calls after it
 * FAULT_ROOM=FD:N     writes to FD are taken up to N bytes in all; then they fail
 * FAULT_WRITE=N       each write takes at most N bytes
 * FAULT_READ=N        the Nth read fails, of any file
 * FAULT_INPUT=N       reads of standard input give at most N bytes in all; then they fail
 * FAULT_PIECE=N       each read gives at most N bytes
 * FAULT_REPORTED=FILE a file that is made when something is refused
 * FAULT_LEFT=FILE     a file that says at the end how many blocks of memory were not given back
 */
#define _GNU_SOURCE
#include <errno.h>
#include <fcntl.h>
#include <malloc.h>
#include <stddef.h>
#include <stdlib.h>
#include <string.h>
#include <sys/mman.h>
#include <sys/syscall.h>
#include <sys/uio.h>
#include <unistd.h>

extern void *__libc_malloc(size_t);
extern void *__libc_calloc(size_t, size_t);
extern void *__libc_realloc(void *, size_t);
extern void *__libc_memalign(size_t, size_t);
extern void __libc_free(void *);

static long growth = -1, room = -1, most_written = -1, bad_read = -1, input = -1, piece = -1;
static int room_fd = -1, lasts = 0;
static long blocks = 0;
static const char *reported, *left;

static long number(const char *name) {
    const char *text = getenv(name);
    return text ? atol(text) : -1;
}

__attribute__((constructor)) static void begin(void) {
    const char *text = getenv("FAULT_ROOM");
    if (text) {
        room_fd = atoi(text);
        room = strchr(text, ':') ? atol(strchr(text, ':') + 1) : 0;
    }
    most_written = number("FAULT_WRITE");
    bad_read = number("FAULT_READ");
    input = number("FAULT_INPUT");
    piece = number("FAULT_PIECE");
    reported = getenv("FAULT_REPORTED");
    left = getenv("FAULT_LEFT");
    blocks = 0;
    lasts = getenv("FAULT_LASTS") != NULL;
    growth = number("FAULT_GROWTH");
}

static void refused(void) {
    if (reported) {
        long fd = syscall(SYS_openat, AT_FDCWD, reported, O_CREAT | O_WRONLY, 0600);
        if (fd >= 0)
            syscall(SYS_close, fd);
    }
}

static int may_grow(void) {
    if (growth <= 0 || --growth > 0)
        return 1;
    growth = lasts ? 1 : 0;
    refused();
    errno = ENOMEM;
    return 0;
}

/* Counts a block that was given. */
static void *given(void *block) {
    blocks += block != NULL;
    return block;
}

void *malloc(size_t size) { return may_grow() ? given(__libc_malloc(size)) : NULL; }

void *calloc(size_t count, size_t size) { return may_grow() ? given(__libc_calloc(count, size)) : NULL; }

/* A block that becomes smaller is no growth. It has less than 24 bytes more than were asked for. */
void *realloc(void *old, size_t size) {
    if (!old)
        return malloc(size);
    return size + 24 <= malloc_usable_size(old) || may_grow() ? __libc_realloc(old, size) : NULL;
}

void free(void *block) {
    blocks -= block != NULL;
    __libc_free(block);
}

void *memalign(size_t align, size_t size) { return may_grow() ? given(__libc_memalign(align, size)) : NULL; }

void *aligned_alloc(size_t align, size_t size) { return memalign(align, size); }

int posix_memalign(void **to, size_t align, size_t size) {
    if (!may_grow())
        return ENOMEM;
    *to = given(__libc_memalign(align, size));
    return *to || !size ? 0 : ENOMEM;
}

__attribute__((destructor)) static void end(void) {
    char text[24];
    int at = sizeof text;
    long n = blocks < 0 ? -blocks : blocks;
    if (!left)
        return;
    do
        text[--at] = '0' + n % 10;
    while (n /= 10);
    if (blocks < 0)
        text[--at] = '-';
    long fd = syscall(SYS_openat, AT_FDCWD, left, O_CREAT | O_WRONLY | O_TRUNC, 0600);
    if (fd >= 0) {
        syscall(SYS_write, fd, text + at, sizeof text - at);
        syscall(SYS_close, fd);
    }
}

void *mmap(void *at, size_t size, int prot, int flags, int fd, off_t offset) {
    if ((flags & MAP_ANONYMOUS) && !may_grow())
        return MAP_FAILED;
    return (void *)syscall(SYS_mmap, at, size, prot, flags, fd, offset);
}

ssize_t write(int fd, const void *from, size_t count) {
    if (most_written >= 0 && count > (size_t)most_written)
        count = most_written;
    if (fd == room_fd) {
        if (count > (size_t)room)
            count = room;
        if (room == 0) {
            refused();
            errno = ENOSPC;
            return -1;
        }
        room -= count;
    }
    return syscall(SYS_write, fd, from, count);
}

ssize_t __write(int fd, const void *from, size_t count) { return write(fd, from, count); }

ssize_t writev(int fd, const struct iovec *parts, int count) {
    for (int i = 0; i < count; i++)
        if (parts[i].iov_len)
            return write(fd, parts[i].iov_base, parts[i].iov_len);
    return 0;
}

ssize_t read(int fd, void *to, size_t count) {
    if (bad_read > 0 && --bad_read == 0) {
        refused();
        errno = EIO;
        return -1;
    }
    if (piece >= 0 && count > (size_t)piece)
        count = piece;
    if (fd == 0 && input >= 0) {
        if (input == 0) {
            refused();
            errno = EIO;
            return -1;
        }
        if (count > (size_t)input)
            count = input;
    }
    ssize_t got = syscall(SYS_read, fd, to, count);
    if (fd == 0 && input > 0 && got > 0)
        input -= got;
    return got;
}

ssize_t readv(int fd, const struct iovec *parts, int count) {
    for (int i = 0; i < count; i++)
        if (parts[i].iov_len)
            return read(fd, parts[i].iov_base, parts[i].iov_len);
    return 0;
}
