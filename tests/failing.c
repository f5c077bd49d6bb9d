/* Preloaded into the program. One call of the C library fails, whose number is in the environment.
 *
 * FAIL_KIND is `memory`, `read` or `write`, and FAIL_AT is the call's number, counted from 1. When the call has failed,
 * the file FAIL_TOLD is created. So a test can distinguish a run with its fault from one that ended before. Calls on
 * standard error don't fail.
 *
 * If FAIL_KIND is `short`, no read or write moves more than FAIL_AT bytes. If it is `interrupted`, every second one is
 * interrupted before it moves any. These aren't faults. */
#define _GNU_SOURCE
#include <dlfcn.h>
#include <errno.h>
#include <fcntl.h>
#include <stdlib.h>
#include <string.h>
#include <sys/syscall.h>
#include <sys/uio.h>
#include <unistd.h>

enum kind { NOTHING, MEMORY, READ, WRITE };

static enum kind kind_of_fault(void)
{
    const char *kind = getenv("FAIL_KIND");
    if (kind == NULL)
        return NOTHING;
    if (strcmp(kind, "memory") == 0)
        return MEMORY;
    if (strcmp(kind, "read") == 0)
        return READ;
    return strcmp(kind, "write") == 0 ? WRITE : NOTHING;
}

/* Whether this call is the one that fails. */
static int is_due(enum kind kind)
{
    static long count[4];
    if (kind_of_fault() != kind)
        return 0;
    const char *at = getenv("FAIL_AT");
    if (at == NULL || ++count[kind] != atol(at))
        return 0;
    const char *told = getenv("FAIL_TOLD");
    if (told != NULL) {
        long file = syscall(SYS_openat, AT_FDCWD, told, O_CREAT | O_WRONLY, 0644);
        if (file >= 0)
            syscall(SYS_close, file);
    }
    return 1;
}

#define NEXT(name, type) ((type)dlsym(RTLD_NEXT, name))

extern void *__libc_malloc(size_t);
extern void *__libc_calloc(size_t, size_t);
extern void *__libc_realloc(void *, size_t);
extern void *__libc_memalign(size_t, size_t);

static void *refused(void)
{
    errno = ENOMEM;
    return NULL;
}

void *malloc(size_t size) { return is_due(MEMORY) ? refused() : __libc_malloc(size); }
void *calloc(size_t count, size_t size) { return is_due(MEMORY) ? refused() : __libc_calloc(count, size); }
void *realloc(void *old, size_t size) { return is_due(MEMORY) ? refused() : __libc_realloc(old, size); }
void *aligned_alloc(size_t align, size_t size) { return is_due(MEMORY) ? refused() : __libc_memalign(align, size); }

int posix_memalign(void **block, size_t align, size_t size)
{
    if (is_due(MEMORY))
        return ENOMEM;
    *block = __libc_memalign(align, size);
    return *block == NULL ? ENOMEM : 0;
}

static ssize_t failed(int why)
{
    errno = why;
    return -1;
}

static int is_kind(const char *name)
{
    const char *kind = getenv("FAIL_KIND");
    return kind != NULL && strcmp(kind, name) == 0;
}

/* The number of bytes that a call may move. */
static size_t moved(size_t size)
{
    const char *at = getenv("FAIL_AT");
    size_t most = at != NULL && is_kind("short") ? (size_t)atol(at) : size;
    return size < most ? size : most;
}

/* Whether this call is interrupted. */
static int is_interrupted(void)
{
    static int turn;
    return is_kind("interrupted") && (turn = !turn);
}

ssize_t read(int file, void *into, size_t size)
{
    if (is_interrupted())
        return failed(EINTR);
    return is_due(READ) ? failed(EIO) : syscall(SYS_read, file, into, moved(size));
}

ssize_t pread64(int file, void *into, size_t size, off64_t at)
{
    if (is_interrupted())
        return failed(EINTR);
    return is_due(READ) ? failed(EIO) : syscall(SYS_pread64, file, into, moved(size), at);
}

ssize_t pread(int file, void *into, size_t size, off_t at) { return pread64(file, into, size, at); }

ssize_t write(int file, const void *from, size_t size)
{
    if (file == 2)
        return syscall(SYS_write, file, from, size);
    if (is_interrupted())
        return failed(EINTR);
    return is_due(WRITE) ? failed(EIO) : syscall(SYS_write, file, from, moved(size));
}

ssize_t __write(int file, const void *from, size_t size) { return write(file, from, size); }

ssize_t writev(int file, const struct iovec *from, int count)
{
    if (file == 2)
        return syscall(SYS_writev, file, from, count);
    if (is_interrupted())
        return failed(EINTR);
    if (is_due(WRITE))
        return failed(EIO);
    return count > 0 && is_kind("short") ? write(file, from->iov_base, from->iov_len) : syscall(SYS_writev, file, from, count);
}
