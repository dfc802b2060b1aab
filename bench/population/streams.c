// Linear congruential streams, x' = 16807 x mod 2^31-1. A row's end skips what the row left of its numbers, so no row
// depends on how many numbers earlier rows took.
#include "population.h"

#define MODULUS 2147483647ull

#define STARTED(name, start, each_row) {start, each_row, 0},
static struct {
    uint64_t at;
    int each_row, taken;
} streams[STREAM_COUNT] = {STREAMS(STARTED)};
#undef STARTED

// 16807 to a power.
static uint64_t power(uint64_t exponent) {
    uint64_t result = 1, base = 16807;
    for (; exponent; exponent >>= 1, base = base * base % MODULUS)
        if (exponent & 1)
            result = result * base % MODULUS;
    return result;
}

// splitmix64 of the seed and the stream's place.
void start_streams(uint64_t seed) {
    for (int stream = 0; stream < STREAM_COUNT; stream++) {
        uint64_t mix = seed * 0xd1342543de82ef95ull + (uint64_t)(stream + 1) * 0x9e3779b97f4a7c15ull;
        mix = (mix ^ (mix >> 30)) * 0xbf58476d1ce4e5b9ull;
        mix = (mix ^ (mix >> 27)) * 0x94d049bb133111ebull;
        streams[stream].at = 1 + (mix ^ (mix >> 31)) % (MODULUS - 1);
    }
}

double draw_unit(int stream) {
    streams[stream].taken++;
    streams[stream].at = streams[stream].at * 16807 % MODULUS;
    return (double)streams[stream].at / 2147483647.0;
}

// dbgen draws by this division, so it must be exact: no -ffast-math.
int64_t draw(int stream, int64_t least, int64_t most) {
    return least + (int64_t)(draw_unit(stream) * (double)(most - least + 1));
}

void end_row(int first, int last) {
    static uint64_t powers[93];
    if (!powers[0])
        for (int exponent = 0; exponent < 93; exponent++)
            powers[exponent] = power(exponent);
    for (int stream = first; stream <= last; stream++) {
        int left = streams[stream].each_row - streams[stream].taken;
        streams[stream].at = streams[stream].at * powers[left] % MODULUS;
        streams[stream].taken = 0;
    }
}
