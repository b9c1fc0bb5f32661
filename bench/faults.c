/* A library that is loaded before a program's own (LD_PRELOAD), and refuses one of its reads, writes, allocations or
 * new threads. .ci/hostile compiles it and runs `pico` with it.
 *
 * FAULTS has words: `read N`, `write N`, `memory N` and `thread N` refuse the N-th read of standard input, the N-th write to
 * standard output, the N-th allocation and the N-th new thread, counted from 1; `short` gives each read and each write one
 * byte. FAULTS_COUNTS names a file of 32 bytes, in which the counts of the four are kept, 8 bytes each. */
#define _GNU_SOURCE
#include <dlfcn.h>
#include <errno.h>
#include <fcntl.h>
#include <pthread.h>
#include <stdatomic.h>
#include <stdio.h>
#include <stdlib.h>
#include <string.h>
#include <sys/mman.h>
#include <sys/syscall.h>
#include <sys/uio.h>
#include <unistd.h>

extern void *__libc_malloc(size_t);
extern void *__libc_calloc(size_t, size_t);
extern void *__libc_realloc(void *, size_t);
extern void *__libc_memalign(size_t, size_t);

enum { READ, WRITE, MEMORY, THREAD, KINDS };

static const char *const names[KINDS] = {"read", "write", "memory", "thread"};
static unsigned long refused[KINDS];
static int is_short;
/* Until the program begins nothing is counted. */
static atomic_int is_begun;
static atomic_ulong own_counts[KINDS];
static atomic_ulong *counts = own_counts;

typedef int (*thread_maker)(pthread_t *, const pthread_attr_t *, void *(*)(void *), void *);
static thread_maker make_thread;

static void take_word(const char *word, const char *number) {
    if (strcmp(word, "short") == 0)
        is_short = 1;
    for (int kind = 0; kind < KINDS; kind++)
        if (strcmp(word, names[kind]) == 0 && number)
            refused[kind] = strtoul(number, NULL, 10);
}

static void keep_counts(const char *path) {
    int file = open(path, O_RDWR);
    if (file < 0)
        return;
    void *room = mmap(NULL, sizeof own_counts, PROT_READ | PROT_WRITE, MAP_SHARED, file, 0);
    if (room != MAP_FAILED)
        counts = room;
    close(file);
}

__attribute__((constructor)) static void begin(void) {
    make_thread = (thread_maker)dlsym(RTLD_NEXT, "pthread_create");
    const char *path = getenv("FAULTS_COUNTS"), *told = getenv("FAULTS");
    static char words[256];
    if (told && strlen(told) < sizeof words) {
        strcpy(words, told);
        char *rest = words, *word, *last = NULL;
        while ((word = strtok_r(rest, " ", &rest))) {
            if (last)
                take_word(last, word);
            last = word;
        }
        if (last)
            take_word(last, NULL);
    }
    if (path)
        keep_counts(path);
    atomic_store(&is_begun, 1);
}

/* Counts one more of a kind, and whether it is the one that is refused. */
static int is_refused(int kind) {
    if (!atomic_load(&is_begun))
        return 0;
    return atomic_fetch_add(&counts[kind], 1) + 1 == refused[kind];
}

ssize_t read(int file, void *into, size_t count) {
    if (file == 0) {
        if (is_refused(READ)) {
            errno = EIO;
            return -1;
        }
        if (is_short && count > 1)
            count = 1;
    }
    return syscall(SYS_read, file, into, count);
}

ssize_t write(int file, const void *from, size_t count) {
    if (file == 1) {
        if (is_refused(WRITE)) {
            errno = EIO;
            return -1;
        }
        if (is_short && count > 1)
            count = 1;
    }
    return syscall(SYS_write, file, from, count);
}

ssize_t writev(int file, const struct iovec *pieces, int count) {
    if (file == 1) {
        for (int at = 0; at < count; at++)
            if (pieces[at].iov_len > 0)
                return write(file, pieces[at].iov_base, pieces[at].iov_len);
        return write(file, "", 0);
    }
    return syscall(SYS_writev, file, pieces, count);
}

static int is_memory_refused(void) {
    if (!is_refused(MEMORY))
        return 0;
    errno = ENOMEM;
    return 1;
}

void *malloc(size_t size) { return is_memory_refused() ? NULL : __libc_malloc(size); }

void *calloc(size_t count, size_t size) { return is_memory_refused() ? NULL : __libc_calloc(count, size); }

void *realloc(void *old, size_t size) { return is_memory_refused() ? NULL : __libc_realloc(old, size); }

void *aligned_alloc(size_t align, size_t size) { return is_memory_refused() ? NULL : __libc_memalign(align, size); }

void *memalign(size_t align, size_t size) { return is_memory_refused() ? NULL : __libc_memalign(align, size); }

int posix_memalign(void **out, size_t align, size_t size) {
    if (is_memory_refused())
        return ENOMEM;
    void *made = __libc_memalign(align, size);
    if (!made)
        return ENOMEM;
    *out = made;
    return 0;
}

int pthread_create(pthread_t *thread, const pthread_attr_t *attributes, void *(*work)(void *), void *argument) {
    if (is_refused(THREAD))
        return EAGAIN;
    return make_thread(thread, attributes, work, argument);
}
