/* Preloaded into a server: an fdatasync takes DISK_MICROSECONDS, and syncs nothing. */
#include <stdlib.h>
#include <time.h>

int fdatasync(int file) {
    const char *given = getenv("DISK_MICROSECONDS");
    long left = given ? atol(given) : 0;
    struct timespec pause = {left / 1000000, left % 1000000 * 1000};
    (void)file;
    while (nanosleep(&pause, &pause)) {
    }
    return 0;
}
