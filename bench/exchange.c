/* What it takes at least to exchange a page: as many frames and slots as in the row of bench/costs.py, in turn.
 *
 *     gcc -O2 -o exchange bench/exchange.c && ./exchange
 */
#include <stdio.h>
#include <stdlib.h>
#include <string.h>
#include <time.h>

enum { FRAMES = 16215, SLOTS = 16377, PAGE = 4096, EXCHANGES = 130048 };

static double now(void) {
    struct timespec t;
    clock_gettime(CLOCK_MONOTONIC, &t);
    return t.tv_sec * 1e6 + t.tv_nsec / 1e3;
}

int main(void) {
    unsigned char *frames = malloc((size_t)FRAMES * PAGE);
    unsigned char *slots = malloc((size_t)SLOTS * PAGE);
    unsigned char page[PAGE];
    unsigned long sum = 0;
    if (!frames || !slots) {
        fputs("exchange: there is no memory for 128 MiB\n", stderr);
        return 1;
    }
    memset(frames, 1, (size_t)FRAMES * PAGE);
    memset(slots, 2, (size_t)SLOTS * PAGE);
    double start = now();
    for (long i = 0; i < EXCHANGES; i++) {
        unsigned char *frame = frames + (size_t)(i % FRAMES) * PAGE;
        unsigned char *slot = slots + (size_t)(i % SLOTS) * PAGE;
        memcpy(page, slot, PAGE);
        memcpy(slot, frame, PAGE);
        memcpy(frame, page, PAGE);
        sum += frame[i % PAGE];
    }
    printf("%.2f us an exchange (sum %lu)\n", (now() - start) / EXCHANGES, sum);
    return 0;
}
