// Loaded in front of the C library, refuses one request of the program: the memory, the read, the
// write or the line that has the number given. It is built and run by refuse.py.
//
// REFUSE is a letter and a number N: m for memory, r for reads, w for writes to standard output, n
// for writes to standard error. The Nth fails; after a '+', all from the Nth on. MOST is the most
// bytes that a read or a write moves. A byte goes to the file MET for each request refused.
#define _GNU_SOURCE
#include <errno.h>
#include <stddef.h>
#include <stdlib.h>
#include <sys/syscall.h>
#include <unistd.h>

extern void *__libc_malloc(size_t);
extern void *__libc_calloc(size_t, size_t);
extern void *__libc_realloc(void *, size_t);
extern void *__libc_memalign(size_t, size_t);

static char kind;
static unsigned long number, most, counted;
static int onwards, met = -1;

static unsigned long read_number(const char *text) {
    unsigned long value = 0;
    while (text && *text >= '0' && *text <= '9')
        value = 10 * value + (unsigned long)(*text++ - '0');
    return value;
}

__attribute__((constructor)) static void start(void) {
    const char *refuse = getenv("REFUSE");
    most = read_number(getenv("MOST"));
    if (getenv("MET"))
        met = (int)read_number(getenv("MET"));
    if (refuse && refuse[0]) {
        onwards = refuse[1] == '+';
        number = read_number(refuse + 1 + onwards);
        counted = 0;
        kind = refuse[0];
    }
}

static int refused(char asked) {
    if (kind != asked)
        return 0;
    counted++;
    if (counted < number || (counted > number && !onwards))
        return 0;
    if (met >= 0)
        syscall(SYS_write, met, "x", 1);
    return 1;
}

void *malloc(size_t size) {
    if (refused('m')) {
        errno = ENOMEM;
        return NULL;
    }
    return __libc_malloc(size);
}

void *calloc(size_t count, size_t size) {
    if (refused('m')) {
        errno = ENOMEM;
        return NULL;
    }
    return __libc_calloc(count, size);
}

void *realloc(void *block, size_t size) {
    if (refused('m')) {
        errno = ENOMEM;
        return NULL;
    }
    return __libc_realloc(block, size);
}

void *aligned_alloc(size_t align, size_t size) {
    if (refused('m')) {
        errno = ENOMEM;
        return NULL;
    }
    return __libc_memalign(align, size);
}

int posix_memalign(void **block, size_t align, size_t size) {
    if (refused('m'))
        return ENOMEM;
    void *made = __libc_memalign(align, size);
    if (!made)
        return ENOMEM;
    *block = made;
    return 0;
}

static size_t at_most(size_t size) {
    return most && size > most ? most : size;
}

ssize_t read(int file, void *room, size_t size) {
    if (file == 0 && refused('r')) {
        errno = EIO;
        return -1;
    }
    return syscall(SYS_read, file, room, file == 0 ? at_most(size) : size);
}

ssize_t write(int file, const void *bytes, size_t size) {
    if ((file == 1 && refused('w')) || (file == 2 && refused('n'))) {
        errno = EIO;
        return -1;
    }
    return syscall(SYS_write, file, bytes, file == 1 || file == 2 ? at_most(size) : size);
}
