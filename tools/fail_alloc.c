/* Makes one call of a process fail: the allocation, the read of standard input or the write of
   standard output whose number, from 1, the variable FAIL_ALLOC, FAIL_READ or FAIL_WRITE has. Says
   so on standard error. Where FAIL_COUNT is set, so many of these calls in a row fail, from that one
   on; where FAIL_STRIDE is set, so do those that begin at each so-manyth call after it. Where PIECE
   is set, reads and writes of these two move at most so many bytes. Loaded before the C library, by
   tools/fail-alloc. */
#define _GNU_SOURCE
#include <errno.h>
#include <stddef.h>
#include <stdlib.h>
#include <string.h>
#include <sys/syscall.h>
#include <sys/uio.h>
#include <unistd.h>

extern void *__libc_malloc(size_t);
extern void *__libc_calloc(size_t, size_t);
extern void *__libc_realloc(void *, size_t);

static unsigned long allocated, reads, writes;

/* The number that the variable has, or this one where it is not set. */
static unsigned long number_of(const char *variable, unsigned long unset) {
    const char *text = getenv(variable);
    return text == NULL ? unset : strtoul(text, NULL, 10);
}

/* Whether the call of this number is one of those that are to fail, of which this is the first. */
static int is_wanted(unsigned long number, unsigned long first) {
    unsigned long stride = number_of("FAIL_STRIDE", 0);
    if (number < first)
        return 0;
    return (stride == 0 ? number - first : (number - first) % stride) < number_of("FAIL_COUNT", 1);
}

static int fails(const char *variable, unsigned long *made, int cause) {
    static const char line[] = "fail-alloc: one call failed\n";
    const char *wanted = getenv(variable);
    if (wanted == NULL || !is_wanted(++*made, strtoul(wanted, NULL, 10)))
        return 0;
    (void)!syscall(SYS_write, 2, line, strlen(line));
    errno = cause;
    return 1;
}

static int no_memory(void) {
    return fails("FAIL_ALLOC", &allocated, ENOMEM);
}

void *malloc(size_t size) {
    return no_memory() ? NULL : __libc_malloc(size);
}

void *calloc(size_t count, size_t size) {
    return no_memory() ? NULL : __libc_calloc(count, size);
}

void *realloc(void *old, size_t size) {
    return no_memory() ? NULL : __libc_realloc(old, size);
}

static size_t piece_of(size_t count) {
    const char *most = getenv("PIECE");
    size_t piece = most == NULL ? count : strtoul(most, NULL, 10);
    return count < piece ? count : piece;
}

ssize_t read(int end, void *bytes, size_t count) {
    if (end != 0)
        return syscall(SYS_read, end, bytes, count);
    return fails("FAIL_READ", &reads, EIO) ? -1 : syscall(SYS_read, end, bytes, piece_of(count));
}

ssize_t write(int end, const void *bytes, size_t count) {
    if (end != 1)
        return syscall(SYS_write, end, bytes, count);
    return fails("FAIL_WRITE", &writes, EIO) ? -1 : syscall(SYS_write, end, bytes, piece_of(count));
}

/* Of the pieces of a list the first that has bytes, since a call may move fewer than asked for. */
static const struct iovec *first_of(const struct iovec *list, int count) {
    while (count > 1 && list->iov_len == 0) {
        list++;
        count--;
    }
    return list;
}

ssize_t readv(int end, const struct iovec *list, int count) {
    if (end != 0 || count < 1)
        return syscall(SYS_readv, end, list, count);
    list = first_of(list, count);
    return read(end, list->iov_base, list->iov_len);
}

ssize_t writev(int end, const struct iovec *list, int count) {
    if (end != 1 || count < 1)
        return syscall(SYS_writev, end, list, count);
    list = first_of(list, count);
    return write(end, list->iov_base, list->iov_len);
}
