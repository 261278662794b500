/* Counts the bytes that a process holds of its heap. Says on standard error, after each write to
   standard output, how many they are, the most that they were since the write before, and the
   resident set, in KB of 1024 bytes. Loaded before the C library, by bench/memory. */
#define _GNU_SOURCE
#include <fcntl.h>
#include <malloc.h>
#include <stdatomic.h>
#include <stdio.h>
#include <sys/syscall.h>
#include <sys/uio.h>
#include <unistd.h>

extern void *__libc_malloc(size_t);
extern void *__libc_realloc(void *, size_t);
extern void __libc_free(void *);

static atomic_size_t held, most;

static void *hold(void *block) {
    size_t size = malloc_usable_size(block);
    size_t now = atomic_fetch_add(&held, size) + size, before = atomic_load(&most);
    while (now > before && !atomic_compare_exchange_weak(&most, &before, now))
        ;
    return block;
}

static void let_go(size_t size) {
    atomic_fetch_sub(&held, size);
}

void *malloc(size_t size) {
    return hold(__libc_malloc(size));
}

void *realloc(void *old, size_t size) {
    size_t before = malloc_usable_size(old);
    void *block = __libc_realloc(old, size);
    if (block == NULL)
        return NULL;
    let_go(before);
    return hold(block);
}

void free(void *block) {
    let_go(malloc_usable_size(block));
    __libc_free(block);
}

static long resident(void) {
    char text[128];
    long pages = 0;
    int file = open("/proc/self/statm", O_RDONLY);
    ssize_t length = read(file, text, sizeof text - 1);
    close(file);
    if (length <= 0)
        return 0;
    text[length] = '\0';
    sscanf(text, "%*d %ld", &pages);
    return pages * (sysconf(_SC_PAGESIZE) / 1024);
}

static void tell(void) {
    char text[128];
    size_t now = atomic_load(&held), high = atomic_exchange(&most, now);
    int length = snprintf(text, sizeof text, "heap: holds %zu, held %zu, resident %ld\n", now / 1024,
                          high / 1024, resident());
    (void)!syscall(SYS_write, 2, text, length);
}

ssize_t write(int file, const void *bytes, size_t length) {
    ssize_t wrote = syscall(SYS_write, file, bytes, length);
    if (file == 1)
        tell();
    return wrote;
}

ssize_t writev(int file, const struct iovec *parts, int count) {
    ssize_t wrote = syscall(SYS_writev, file, parts, count);
    if (file == 1)
        tell();
    return wrote;
}
