// A library that is loaded before the program. It counts the program's requests for memory, its reads and its writes, and
// makes chosen ones fail. `tests/faults` compiles it, and says in FAULTS, as seven numbers, what is to happen:
//
//   a descriptor    of a file for the counts, which outlive the program however it ends
//   kinds           which calls fail: 1 for requests for memory, 2 for reads and opening, 4 for writes, or a sum of these
//   first, last     the first and the last call of a kind that fail, from 1
//   step            of these calls, how many calls there are from one that fails to the next
//   error           the number of the error
//   most            how many bytes a read or a write moves at most
//
// The program takes memory by malloc and realloc alone, and calls open, read and write for its files.
#define _GNU_SOURCE
#include <errno.h>
#include <fcntl.h>
#include <stdint.h>
#include <stdlib.h>
#include <sys/mman.h>
#include <sys/syscall.h>
#include <unistd.h>

enum kind { MEMORY, READ, WRITE, KINDS };

// As the script unpacks it: the calls of each kind, and how many calls were made to fail.
struct counts {
    uint64_t calls[KINDS], failed;
};

static struct counts before_start, *counts = &before_start;
static struct {
    unsigned long counts, kinds, first, last, step;
    int error;
    size_t most;
} plan;

// The C library's own calls, under the names by which it still has them beside the ones below.
extern void *__libc_malloc(size_t size);
extern void *__libc_realloc(void *block, size_t size);

__attribute__((constructor)) static void start(void) {
    char *words = getenv("FAULTS");
    if (!words) _exit(99);
    plan.counts = strtoul(words, &words, 10);
    plan.kinds = strtoul(words, &words, 10);
    plan.first = strtoul(words, &words, 10);
    plan.last = strtoul(words, &words, 10);
    plan.step = strtoul(words, &words, 10);
    plan.error = (int)strtoul(words, &words, 10);
    plan.most = strtoul(words, &words, 10);
    counts = mmap(NULL, sizeof *counts, PROT_READ | PROT_WRITE, MAP_SHARED, (int)plan.counts, 0);
    if (counts == MAP_FAILED) _exit(99);
}

static int fails(enum kind kind) {
    unsigned long call = ++counts->calls[kind];
    if (!(plan.kinds >> kind & 1) || call < plan.first || call > plan.last || (call - plan.first) % plan.step) return 0;
    counts->failed++;
    errno = plan.error;
    return 1;
}

static size_t moved(size_t size) { return size < plan.most ? size : plan.most; }

void *malloc(size_t size) { return fails(MEMORY) ? NULL : __libc_malloc(size); }

void *realloc(void *block, size_t size) { return fails(MEMORY) ? NULL : __libc_realloc(block, size); }

// The program only opens files to read them.
int open(const char *path, int flags, ...) {
    return fails(READ) ? -1 : (int)syscall(SYS_openat, AT_FDCWD, path, flags, 0);
}

ssize_t read(int file, void *into, size_t size) { return fails(READ) ? -1 : syscall(SYS_read, file, into, moved(size)); }

ssize_t write(int file, const void *from, size_t size) {
    return fails(WRITE) ? -1 : syscall(SYS_write, file, from, moved(size));
}
