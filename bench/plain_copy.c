// Copies so many bytes into memory of their own, as often as the first argument says, and prints the seconds that it
// took. The second argument is the number of bytes.
#include <stdio.h>
#include <stdlib.h>
#include <string.h>
#include <time.h>

int main(int count, char **words) {
    long times = count > 1 ? atol(words[1]) : 1000000;
    size_t size = count > 2 ? (size_t)atol(words[2]) : 1200;
    char *from = malloc(size);
    if (!from) return 1;
    memset(from, 7, size);
    unsigned long sum = 0;
    struct timespec begin, end;
    clock_gettime(CLOCK_MONOTONIC, &begin);
    for (long at = 0; at < times; at++) {
        char *volatile copy = malloc(size);
        if (!copy) return 1;
        memcpy(copy, from, size);
        sum += (unsigned char)copy[at % (long)size];
        free(copy);
    }
    clock_gettime(CLOCK_MONOTONIC, &end);
    if (sum != 7ul * (unsigned long)times) return 1;
    printf("%.9f\n", (double)(end.tv_sec - begin.tv_sec) + 1e-9 * (double)(end.tv_nsec - begin.tv_nsec));
    return 0;
}
