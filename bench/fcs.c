// The proved check and a byte-table loop in C over the same bytes, alternately in one process. Prints bytes per second of each and the
// ratio, for one buffer of 16 MB and for frames of 510 bytes, and stops with an error where the two checks differ.
#include <stddef.h>
#include <stdint.h>
#include <stdio.h>
#include <stdlib.h>
#include <time.h>

enum { SIZE = 16 * 1024 * 1024, FRAME = 510, ROUNDS = 15 };

uint16_t fcs_of(const uint8_t *first, size_t count);

static uint16_t table[256];

static void make_table(void) {
    for (unsigned b = 0; b < 256; b++) {
        uint16_t r = b;
        for (int k = 0; k < 8; k++)
            r = (r >> 1) ^ (r & 1 ? 0x8408 : 0);
        table[b] = r;
    }
}

// Kept out of line, so that each call is a call, as that of the proved check is.
__attribute__((noinline)) static uint16_t by_table(const uint8_t *first, size_t count) {
    uint16_t r = 0;
    for (size_t i = 0; i < count; i++)
        r = (r >> 8) ^ table[(r ^ first[i]) & 0xff];
    return r;
}

static double now(void) {
    struct timespec t;
    clock_gettime(CLOCK_MONOTONIC, &t);
    return t.tv_sec + t.tv_nsec * 1e-9;
}

// Every piece of the buffer, one after the other; the checks are folded together so that none can be left out.
static double run(uint16_t (*check)(const uint8_t *, size_t), const uint8_t *bytes, size_t piece, uint32_t *all) {
    double start = now();
    uint32_t sum = 0;
    for (size_t at = 0; at + piece <= SIZE; at += piece)
        sum = sum * 31 + check(bytes + at, piece);
    *all = sum;
    return SIZE / piece * piece / (now() - start);
}

static int by_size(const void *a, const void *b) {
    double x = *(const double *)a, y = *(const double *)b;
    return (x > y) - (x < y);
}

static void compare(const char *name, const uint8_t *bytes, size_t piece) {
    double proved[ROUNDS], c[ROUNDS];
    for (int i = 0; i < ROUNDS; i++) {
        uint32_t a, b;
        proved[i] = run(fcs_of, bytes, piece, &a);
        c[i] = run(by_table, bytes, piece, &b);
        if (a != b) {
            fprintf(stderr, "%s: the checks DIFFER\n", name);
            exit(1);
        }
    }
    qsort(proved, ROUNDS, sizeof *proved, by_size);
    qsort(c, ROUNDS, sizeof *c, by_size);
    double p = proved[ROUNDS / 2], t = c[ROUNDS / 2];
    printf("%-24s proved %6.0f MB/s   byte table in C %6.0f MB/s   ratio %.1f\n", name, p / 1e6, t / 1e6, p / t);
}

int main(void) {
    uint8_t *bytes = malloc(SIZE);
    uint32_t x = 1;
    if (!bytes)
        return 1;
    for (size_t i = 0; i < SIZE; i++) {
        x ^= x << 13;
        x ^= x >> 17;
        x ^= x << 5;
        bytes[i] = x >> 24;
    }
    make_table();
    for (size_t n = 0; n <= 1000; n++)
        if (fcs_of(bytes + n, n) != by_table(bytes + n, n)) {
            fprintf(stderr, "%zu bytes: the checks DIFFER\n", n);
            return 1;
        }
    compare("one buffer of 16 MB", bytes, SIZE);
    compare("frames of 510 bytes", bytes, FRAME);
    return 0;
}
