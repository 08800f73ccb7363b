/* Loaded before the C library by checks/failing.py: it counts the calls of one kind that the
   program makes, and fails one of them, or all from one on, or ends the process in place of one,
   or lets each read give one byte, or lets NUMBER bytes pass in all and then fails. FAILING is
   KIND:HOW:NUMBER, and FAILING_COUNT a file for the count. Calls of the kind `room` fail as on a
   disk that is full. Under `clock:fast:NUMBER` none fails: the clock runs so many times as fast,
   a call waits for a peer as long by that clock, and a connection holds few bytes that its peer
   has not taken. */
#define _GNU_SOURCE
#include <errno.h>
#include <fcntl.h>
#include <stdarg.h>
#include <stdio.h>
#include <stdlib.h>
#include <string.h>
#include <sys/socket.h>
#include <sys/syscall.h>
#include <sys/time.h>
#include <sys/types.h>
#include <time.h>
#include <unistd.h>

extern void *__libc_malloc(size_t);
extern void *__libc_calloc(size_t, size_t);
extern void *__libc_realloc(void *, size_t);

static char kind[16], how[16];
static long wanted, met;

__attribute__((constructor)) static void read_words(void)
{
    const char *words = getenv("FAILING");
    if (!words || sscanf(words, "%15[a-z]:%15[a-z]:%ld", kind, how, &wanted) != 3)
        kind[0] = 0;
    met = 0;
}

__attribute__((destructor)) static void tell_count(void)
{
    const char *path = getenv("FAILING_COUNT");
    char digits[32];
    int file, length = snprintf(digits, sizeof digits, "%ld\n", met);
    kind[0] = 0;
    if (!path)
        return;
    file = syscall(SYS_openat, AT_FDCWD, path, O_WRONLY | O_CREAT | O_TRUNC, 0644);
    syscall(SYS_write, file, digits, length);
    syscall(SYS_close, file);
}

/* Whether bytes are counted in place of calls of this kind. */
static int takes(const char *called)
{
    return strcmp(kind, called) == 0 && strcmp(how, "take") == 0;
}

/* Whether this call of the kind is to fail. */
static int fails(const char *called)
{
    if (!kind[0] || strcmp(kind, called) != 0)
        return 0;
    if (takes(called))
        return met >= wanted;
    met++;
    if (met != wanted && !(met > wanted && strcmp(how, "on") == 0))
        return 0;
    if (strcmp(how, "stop") == 0)
        syscall(SYS_exit_group, 137);
    return 1;
}

static long failed(int error)
{
    errno = error;
    return -1;
}

/* How many bytes of a call may pass. */
static size_t passing(const char *called, size_t size)
{
    return takes(called) && size > (size_t)(wanted - met) ? (size_t)(wanted - met) : size;
}

/* What the system answered, with its bytes counted. */
static ssize_t passed(const char *called, ssize_t size)
{
    if (takes(called) && size > 0)
        met += size;
    return size;
}

static void *refused(void)
{
    errno = ENOMEM;
    return NULL;
}

void *malloc(size_t size) { return fails("memory") ? refused() : __libc_malloc(size); }

void *calloc(size_t count, size_t size)
{
    return fails("memory") ? refused() : __libc_calloc(count, size);
}

void *realloc(void *block, size_t size)
{
    return fails("memory") ? refused() : __libc_realloc(block, size);
}

ssize_t read(int file, void *bytes, size_t size)
{
    if (strcmp(how, "drip") == 0 && size > 1)
        size = 1;
    else if (fails("input"))
        return failed(EIO);
    return passed("input", syscall(SYS_read, file, bytes, passing("input", size)));
}

ssize_t write(int file, const void *bytes, size_t size)
{
    const char *called = file == 1 ? "output" : file == 2 ? "none" : "disk";
    if (file > 2 && fails("room"))
        return failed(ENOSPC);
    if (fails(called))
        return failed(file == 1 ? ENOSPC : EIO);
    return passed(called, syscall(SYS_write, file, bytes, passing(called, size)));
}

ssize_t __write(int file, const void *bytes, size_t size) { return write(file, bytes, size); }

int socket(int domain, int type, int protocol)
{
    return fails("socket") ? failed(EMFILE) : syscall(SYS_socket, domain, type, protocol);
}

int setsockopt(int file, int level, int name, const void *value, socklen_t size)
{
    struct timeval wait;
    long micros;
    if (strcmp(kind, "clock") == 0 && level == SOL_SOCKET && size == sizeof wait
        && (name == SO_RCVTIMEO || name == SO_SNDTIMEO)) {
        memcpy(&wait, value, sizeof wait);
        micros = wait.tv_sec * 1000000 + wait.tv_usec;
        /* A wait of none would last for ever. */
        micros = micros && micros < wanted ? 1 : micros / wanted;
        wait.tv_sec = micros / 1000000;
        wait.tv_usec = micros % 1000000;
        value = &wait;
    }
    return syscall(SYS_setsockopt, file, level, name, value, size);
}

int accept4(int file, struct sockaddr *address, socklen_t *length, int flags)
{
    int few = 1;
    int found = fails("accept") ? failed(EMFILE)
                                : syscall(SYS_accept4, file, address, length, flags);
    if (found >= 0 && strcmp(kind, "clock") == 0)
        setsockopt(found, SOL_SOCKET, SO_SNDBUF, &few, sizeof few);
    return found;
}

int clock_gettime(clockid_t clock, struct timespec *told)
{
    long found = syscall(SYS_clock_gettime, clock, told);
    __int128 fast;
    if (found == 0 && clock == CLOCK_MONOTONIC && strcmp(kind, "clock") == 0) {
        fast = ((__int128)told->tv_sec * 1000000000 + told->tv_nsec) * wanted;
        told->tv_sec = (time_t)(fast / 1000000000);
        told->tv_nsec = (long)(fast % 1000000000);
    }
    return found;
}

ssize_t recv(int file, void *bytes, size_t size, int flags)
{
    if (fails("peer"))
        return failed(ECONNRESET);
    size = passing("peer", size);
    return passed("peer", syscall(SYS_recvfrom, file, bytes, size, flags, NULL, NULL));
}

ssize_t send(int file, const void *bytes, size_t size, int flags)
{
    if (fails("peer"))
        return failed(ECONNRESET);
    return passed("peer", syscall(SYS_sendto, file, bytes, passing("peer", size), flags, NULL, 0));
}

ssize_t pread(int file, void *bytes, size_t size, off_t place)
{
    return fails("disk") ? failed(EIO) : syscall(SYS_pread64, file, bytes, size, place);
}

ssize_t pread64(int file, void *bytes, size_t size, off_t place)
{
    return pread(file, bytes, size, place);
}

ssize_t pwrite(int file, const void *bytes, size_t size, off_t place)
{
    if (fails("room"))
        return failed(ENOSPC);
    return fails("disk") ? failed(EIO) : syscall(SYS_pwrite64, file, bytes, size, place);
}

ssize_t pwrite64(int file, const void *bytes, size_t size, off_t place)
{
    return pwrite(file, bytes, size, place);
}

int fsync(int file) { return fails("disk") ? failed(EIO) : syscall(SYS_fsync, file); }

int fdatasync(int file) { return fails("disk") ? failed(EIO) : syscall(SYS_fdatasync, file); }

int ftruncate(int file, off_t size)
{
    return fails("disk") ? failed(EIO) : syscall(SYS_ftruncate, file, size);
}

int ftruncate64(int file, off_t size) { return ftruncate(file, size); }

int unlink(const char *path) { return fails("disk") ? failed(EIO) : syscall(SYS_unlink, path); }

int open(const char *path, int flags, ...)
{
    va_list words;
    mode_t mode;
    va_start(words, flags);
    mode = flags & O_CREAT ? va_arg(words, mode_t) : 0;
    va_end(words);
    return fails("disk") ? failed(EMFILE) : syscall(SYS_openat, AT_FDCWD, path, flags, mode);
}

int open64(const char *path, int flags, ...)
{
    va_list words;
    mode_t mode;
    va_start(words, flags);
    mode = flags & O_CREAT ? va_arg(words, mode_t) : 0;
    va_end(words);
    return open(path, flags, mode);
}
