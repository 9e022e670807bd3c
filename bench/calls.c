/* What a call of the library costs: nanoseconds, the best of some rounds. */
#define _POSIX_C_SOURCE 199309L
#include "cborn.h"
#include <stdio.h>
#include <stdlib.h>
#include <time.h>

static double now(void)
{
    struct timespec t;
    clock_gettime(CLOCK_MONOTONIC, &t);
    return (double)t.tv_sec * 1e9 + (double)t.tv_nsec;
}

static uint32_t called(int which, const uint8_t *in, size_t length, uint8_t *out, size_t room)
{
    cborn_told told;
    uint64_t place;
    switch (which) {
    case 0: return cborn_normalise(CBORN_WIRE, CBORN_WIRE, CBORN_BYTEWISE, 128, in, length, out, room, &told);
    case 1: return cborn_check(CBORN_BYTEWISE, 128, in, length, &place) & 0xff; /* a defect of these is no failure */
    case 2: return cborn_show(CBORN_WIRE, CBORN_NOTATION, 128, in, length, out, room, &told);
    case 3: return cborn_compare(CBORN_WIRE, CBORN_WIRE, 128, in, length, in, length, &place);
    default: return cborn_same(CBORN_WIRE, CBORN_WIRE, 128, in, length, in, length, &place);
    }
}

int main(int count, char **names)
{
    static const char *calls[] = {"normalise", "check", "show", "compare", "same"};
    for (int i = 1; i < count; i++) {
        static uint8_t in[1 << 20], out[1 << 23];
        FILE *file = fopen(names[i], "rb");
        if (!file)
            return 1;
        size_t length = fread(in, 1, sizeof in, file);
        fclose(file);
        for (int which = 0; which < 5; which++) {
            double best = 1e18;
            long rounds = 1 + 10000 / (long)(length + 100); /* short ones, which a machine that is shared disturbs least */
            for (int again = 0; again < 2000; again++) {
                double start = now();
                for (long n = 0; n < rounds; n++)
                    if (called(which, in, length, out, sizeof out) > 0xff)
                        return 2;
                double each = (now() - start) / (double)rounds;
                best = each < best ? each : best;
            }
            printf("C|%s|%zu|%.0f\n", calls[which], length, best);
        }
    }
    return 0;
}
