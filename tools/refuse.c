/* Failing calls for the program that this file is preloaded into. One call for memory, one read or one write fails, or reads and
   writes move few bytes. The calls are counted. The environment has the orders:

   REFUSE_ALLOCATION=N   the Nth malloc, calloc, realloc or aligned_alloc returns null
   REFUSE_READ=N         the Nth read fails
   REFUSE_WRITE=N        the Nth write fails
   REFUSE_LATER=1        each later write to its descriptor fails too
   REFUSE_EMPTY=1        the write returns 0 instead of failing
   REFUSE_MOST=N         a read or write moves at most N bytes
   REFUSE_COUNTS=FILE    FILE has the counts, four numbers of eight bytes: allocations, reads, writes, and one more than the
                         descriptor of the failed write */
#define _GNU_SOURCE
#include <errno.h>
#include <fcntl.h>
#include <stdint.h>
#include <stdlib.h>
#include <sys/mman.h>
#include <sys/syscall.h>
#include <unistd.h>

void *__libc_malloc(size_t size);
void *__libc_calloc(size_t count, size_t size);
void *__libc_realloc(void *old, size_t size);
void *__libc_memalign(size_t align, size_t size);

struct counts {
    uint64_t allocations, reads, writes, failed;
};

static struct counts own, *counts = &own;
static uint64_t refused_allocation, refused_read, refused_write;
static uint64_t most;
static int is_for_later, is_empty;

static uint64_t number(const char *name) {
    const char *text = getenv(name);
    return text ? strtoull(text, NULL, 10) : 0;
}

__attribute__((constructor)) static void begin(void) {
    const char *name = getenv("REFUSE_COUNTS");
    int file = name ? open(name, O_RDWR) : -1;
    if (file >= 0) {
        void *place = mmap(NULL, sizeof own, PROT_READ | PROT_WRITE, MAP_SHARED, file, 0);
        if (place != MAP_FAILED)
            counts = place;
        close(file);
    }
    *counts = (struct counts){0};
    refused_allocation = number("REFUSE_ALLOCATION");
    refused_read = number("REFUSE_READ");
    refused_write = number("REFUSE_WRITE");
    most = number("REFUSE_MOST");
    is_for_later = number("REFUSE_LATER");
    is_empty = number("REFUSE_EMPTY");
}

/* Counts a call. Returns whether it is refused, after setting `errno`. */
static int is_refused(uint64_t *count, uint64_t refused, int error) {
    int is_it = __atomic_add_fetch(count, 1, __ATOMIC_SEQ_CST) == refused;
    if (is_it)
        errno = error;
    return is_it;
}

static int is_out_of_memory(void) {
    return is_refused(&counts->allocations, refused_allocation, ENOMEM);
}

void *malloc(size_t size) {
    return is_out_of_memory() ? NULL : __libc_malloc(size);
}

void *calloc(size_t count, size_t size) {
    return is_out_of_memory() ? NULL : __libc_calloc(count, size);
}

void *realloc(void *old, size_t size) {
    return is_out_of_memory() ? NULL : __libc_realloc(old, size);
}

void *aligned_alloc(size_t align, size_t size) {
    return is_out_of_memory() ? NULL : __libc_memalign(align, size);
}

ssize_t read(int file, void *into, size_t size) {
    if (is_refused(&counts->reads, refused_read, EIO))
        return -1;
    return syscall(SYS_read, file, into, most && size > most ? most : size);
}

ssize_t write(int file, const void *from, size_t size) {
    uint64_t place = file + 1;
    if (is_refused(&counts->writes, refused_write, EIO) || (is_for_later && counts->failed == place)) {
        counts->failed = place;
        errno = EIO;
        return is_empty ? 0 : -1;
    }
    return syscall(SYS_write, file, from, most && size > most ? most : size);
}

ssize_t __write(int file, const void *from, size_t size) {
    return write(file, from, size);
}
