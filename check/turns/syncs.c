/* Preloaded into a server: the tester decides when each fdatasync ends, and whether it fails.
 *
 * The file named by CHECK_SYNCS is a table of numbers that the server and its tester share. The
 * tester writes `allowed`, `wait` and `fail`; this library writes the others. Syncs are numbered
 * from 1. A sync whose number is above `allowed` waits until it isn't. A sync from number `fail`
 * on fails, unless `fail` is 0. Entry N of `bytes` is how long the file was when sync N began: the
 * sync covers these bytes.
 */
#define _GNU_SOURCE
#include <errno.h>
#include <fcntl.h>
#include <stdint.h>
#include <stdlib.h>
#include <sys/mman.h>
#include <sys/stat.h>
#include <sys/syscall.h>
#include <time.h>
#include <unistd.h>

#define ENTRIES 65536

struct table {
    uint64_t allowed; /* the number of the last sync that may end */
    uint64_t wait;    /* how many microseconds a sync takes; 0: as many as it does */
    uint64_t fail;    /* the number of the first sync that fails; 0: no sync */
    uint64_t begun;   /* how many syncs have begun */
    uint64_t ended;   /* how many syncs have ended, failed or not */
    uint64_t bytes[ENTRIES];
};

static volatile struct table *table;

__attribute__((constructor)) static void map_table(void) {
    const char *path = getenv("CHECK_SYNCS");
    int file = path ? open(path, O_RDWR) : -1;
    if (file < 0) return;
    void *at = mmap(NULL, sizeof *table, PROT_READ | PROT_WRITE, MAP_SHARED, file, 0);
    if (at != MAP_FAILED) table = at;
    close(file);
}

static void pause_for(uint64_t microseconds) {
    struct timespec left = {.tv_sec = (time_t)(microseconds / 1000000),
                            .tv_nsec = (long)(microseconds % 1000000) * 1000};
    while (nanosleep(&left, &left)) {
    }
}

int fdatasync(int file) {
    if (!table) return (int)syscall(SYS_fdatasync, file);
    struct stat found;
    uint64_t number = table->begun + 1;
    if (number < ENTRIES && !fstat(file, &found)) table->bytes[number] = (uint64_t)found.st_size;
    table->begun = number;
    while (number > table->allowed) pause_for(1000);
    int status = 0;
    if (table->fail && number >= table->fail) {
        errno = EIO;
        status = -1;
    } else if (table->wait) {
        pause_for(table->wait);
    } else {
        status = (int)syscall(SYS_fdatasync, file);
    }
    table->ended = number;
    return status;
}
