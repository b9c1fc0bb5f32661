// Appends entries to one vector under the host's own mutex: so many threads, each so many entries, one at a time. Each
// entry is made outside the lock, and its stamp is one more than the last one's. Prints the seconds that they took.
#include <pthread.h>
#include <stdio.h>
#include <stdlib.h>
#include <string.h>
#include <time.h>

enum { ENTRY = 128 };

struct line {
    unsigned long stamp;
    unsigned seat;
    char entry[ENTRY];
};

static pthread_mutex_t lock = PTHREAD_MUTEX_INITIALIZER;
static struct line *lines;
static size_t count, room;
static long times;

static void append(unsigned seat, const char *entry) {
    pthread_mutex_lock(&lock);
    if (count == room) {
        size_t more = room ? 2 * room : 4;
        struct line *grown = realloc(lines, more * sizeof *lines);
        if (!grown) {
            pthread_mutex_unlock(&lock);
            return;
        }
        lines = grown;
        room = more;
    }
    lines[count].stamp = (count ? lines[count - 1].stamp : 0) + 1;
    lines[count].seat = seat;
    memcpy(lines[count].entry, entry, ENTRY);
    count++;
    pthread_mutex_unlock(&lock);
}

static void *run(void *seat) {
    for (long k = 0; k < times; k++) {
        char *entry = malloc(ENTRY);
        if (!entry) {
            return NULL;
        }
        memset(entry, 1, ENTRY);
        append((unsigned)(size_t)seat, entry);
        free(entry);
    }
    return NULL;
}

int main(int words, char **word) {
    size_t threads = words > 1 ? strtoul(word[1], NULL, 10) : 1;
    times = words > 2 ? atol(word[2]) : 100000;
    pthread_t thread[64];
    struct timespec from, to;
    clock_gettime(CLOCK_MONOTONIC, &from);
    for (size_t k = 0; k < threads && k < 64; k++) {
        pthread_create(&thread[k], NULL, run, (void *)(k + 1));
    }
    for (size_t k = 0; k < threads && k < 64; k++) {
        pthread_join(thread[k], NULL);
    }
    clock_gettime(CLOCK_MONOTONIC, &to);
    printf("%.9f\n", (double)(to.tv_sec - from.tv_sec) + 1e-9 * (double)(to.tv_nsec - from.tv_nsec));
    return 0;
}
