/* Faults of the system, put in front of the C library's functions by LD_PRELOAD, for test_faults.py.
 *
 * SN_DISK_FAULT=N: of the calls that change a file's bytes or wait for them, the one of this number, from 0, fails.
 * SN_DISK_PART: how much of a write that fails is done: 0 nothing, 1 the first half of its bytes, 2 all.
 * SN_MEMORY_FAULT=N: behind the first connection that is taken the N-th allocation fails, from 0; behind the third one
 * the next, and so on, each once. Behind the others none does.
 *
 * Each fault that is made is told by a line on standard error.
 */
#define _GNU_SOURCE
#include <errno.h>
#include <stdlib.h>
#include <sys/socket.h>
#include <sys/syscall.h>
#include <sys/types.h>
#include <unistd.h>

extern void *__libc_malloc(size_t size);
extern void *__libc_realloc(void *at, size_t size);

static long disk_calls, connections, left = -1;

static long number_of(const char *name) {
    const char *text = getenv(name);
    return text == NULL ? -1 : atol(text);
}

static void tell(void) {
    if (write(2, "fault\n", 6) < 0) _exit(99);
}

static int disk_fails(void) {
    if (disk_calls++ != number_of("SN_DISK_FAULT")) return 0;
    tell();
    errno = EIO;
    return 1;
}

ssize_t pwrite(int file, const void *bytes, size_t count, off_t at) {
    if (!disk_fails()) return syscall(SYS_pwrite64, file, bytes, count, at);
    if (syscall(SYS_pwrite64, file, bytes, count * number_of("SN_DISK_PART") / 2, at) < 0) _exit(99);
    errno = EIO;
    return -1;
}

int fdatasync(int file) {
    return disk_fails() ? -1 : syscall(SYS_fdatasync, file);
}

int ftruncate(int file, off_t length) {
    return disk_fails() ? -1 : syscall(SYS_ftruncate, file, length);
}

int accept4(int listener, struct sockaddr *peer, socklen_t *size, int flags) {
    int taken = syscall(SYS_accept4, listener, peer, size, flags);
    long first = number_of("SN_MEMORY_FAULT");
    left = first >= 0 && connections % 2 == 0 ? first + connections / 2 : -1;
    connections++;
    return taken;
}

static int memory_fails(void) {
    if (left < 0 || left-- > 0) return 0;
    tell();
    errno = ENOMEM;
    return 1;
}

void *malloc(size_t size) {
    return memory_fails() ? NULL : __libc_malloc(size);
}

void *realloc(void *at, size_t size) {
    return memory_fails() ? NULL : __libc_realloc(at, size);
}
