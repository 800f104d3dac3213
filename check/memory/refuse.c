/* Preloaded into a program: makes chosen allocations fail, and stops its clock.
 *
 * The file named by CHECK_REFUSE is a table of numbers that the program and its tester share. The
 * tester writes `mark`, `pass`, `at`, `span` and `clock`; this library writes the others. The
 * count of allocations begins at 1 once `pass` of them had the size `mark`: a request of a known
 * length, which the program copies, begins it. With `pass` 0 every allocation is counted. The
 * allocations from number `at` on fail, `span` of them.
 */
#define _GNU_SOURCE
#include <errno.h>
#include <fcntl.h>
#include <stdint.h>
#include <stdlib.h>
#include <sys/mman.h>
#include <sys/syscall.h>
#include <time.h>
#include <unistd.h>

extern void *__libc_malloc(size_t), *__libc_calloc(size_t, size_t);
extern void *__libc_realloc(void *, size_t), *__libc_memalign(size_t, size_t);

struct table {
    uint64_t seen;    /* the number of allocations so far, counted or not */
    uint64_t mark;    /* the size of an allocation that is a mark; 0: no such size */
    uint64_t pass;    /* the number of marks that the count begins behind */
    uint64_t at;      /* the number of the first allocation that fails, from 1 */
    uint64_t span;    /* how many allocations fail; 0: no allocation */
    uint64_t clock;   /* the time, in seconds since 1970; 0: the real time */
    uint64_t marks;   /* the number of marks so far */
    uint64_t count;   /* the number of allocations that were counted */
    uint64_t refused; /* the number of allocations that failed */
};

static volatile struct table *table;

__attribute__((constructor)) static void map_table(void) {
    const char *path = getenv("CHECK_REFUSE");
    int file = path ? open(path, O_RDWR) : -1;
    if (file < 0) return;
    void *at = mmap(NULL, sizeof *table, PROT_READ | PROT_WRITE, MAP_SHARED, file, 0);
    if (at != MAP_FAILED) table = at;
    close(file);
}

static int refuse(size_t size) {
    if (!table) return 0;
    table->seen++;
    if (table->mark && size == table->mark) table->marks++;
    if (table->marks < table->pass) return 0;
    uint64_t number = ++table->count;
    if (number < table->at || number - table->at >= table->span) return 0;
    table->refused++;
    errno = ENOMEM;
    return 1;
}

void *malloc(size_t size) { return refuse(size) ? NULL : __libc_malloc(size); }
void *calloc(size_t n, size_t size) { return refuse(n * size) ? NULL : __libc_calloc(n, size); }
void *realloc(void *old, size_t size) { return refuse(size) ? NULL : __libc_realloc(old, size); }
void *aligned_alloc(size_t to, size_t size) {
    return refuse(size) ? NULL : __libc_memalign(to, size);
}
int posix_memalign(void **out, size_t to, size_t size) {
    void *got = refuse(size) ? NULL : __libc_memalign(to, size);
    if (!got) return ENOMEM;
    *out = got;
    return 0;
}

int clock_gettime(clockid_t which, struct timespec *out) {
    if (!table || !table->clock || which != CLOCK_REALTIME)
        return (int)syscall(SYS_clock_gettime, which, out);
    out->tv_sec = (time_t)table->clock;
    out->tv_nsec = 0;
    return 0;
}
