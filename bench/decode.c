/* How long decoding takes: words of the code with n = 532, t = 78 and as many errors, by the clock of processor time. Prints the best and the
 * median of many runs in microseconds; every word is compared with the one that was sent. */
#include <stdint.h>
#include <stdio.h>
#include <stdlib.h>
#include <string.h>
#include <time.h>

enum { N = 532, T = 78, SUMS = 2 * T, WORK = T * (T + 1) + 6 * T + 3 * N + 1, WORDS = 16, MOST = 20000 };

uint8_t stanquivol_bench_decode(uint16_t *word, size_t word_length, size_t t, uint16_t *work, size_t work_length);

static uint16_t product(uint16_t a, uint16_t b) {
    uint16_t sum = 0;
    for (int i = 0; i < 10; i++) {
        if (a >> i & 1) sum ^= b;
        b = (uint16_t)((b << 1) ^ ((b >> 9) * 0x409));
    }
    return sum;
}

static double now(void) {
    struct timespec t;
    clock_gettime(CLOCK_PROCESS_CPUTIME_ID, &t);
    return t.tv_sec * 1e6 + t.tv_nsec * 1e-3;
}

static int rising(const void *a, const void *b) {
    double x = *(const double *)a, y = *(const double *)b;
    return (x > y) - (x < y);
}

static uint64_t state = 12345;

static uint32_t next(void) {
    state = state * 6364136223846793005u + 1442695040888963407u;
    return (uint32_t)(state >> 33);
}

int main(int argc, char **argv) {
    static uint16_t sent[WORDS][N], received[WORDS][N], word[N], work[WORK], generator[SUMS + 1];
    static double times[MOST];
    int runs = argc > 1 ? atoi(argv[1]) : 2000, wrong = 0;
    if (runs < 1 || runs > MOST) {
        fprintf(stderr, "usage: decode [RUNS], at most %d\n", MOST);
        return 2;
    }
    generator[0] = 1;
    uint16_t alpha = 1;
    for (int i = 1; i <= SUMS; i++) {
        alpha = product(alpha, 2);
        for (int j = i; j > 0; j--) generator[j] = generator[j - 1] ^ product(alpha, generator[j]);
        generator[0] = product(alpha, generator[0]);
    }
    for (int w = 0; w < WORDS; w++) {
        for (int i = 0; i + SUMS < N; i++) {
            uint16_t f = next() % 1024;
            for (int j = 0; j <= SUMS; j++) sent[w][i + j] ^= product(f, generator[j]);
        }
        memcpy(received[w], sent[w], sizeof sent[w]);
        for (int e = 0; e < T;) {
            int p = next() % N;
            if (received[w][p] != sent[w][p]) continue;
            received[w][p] ^= 1 + next() % 1023;
            e++;
        }
    }
    for (int r = 0; r < runs; r++) {
        memcpy(word, received[r % WORDS], sizeof word);
        double from = now();
        int found = stanquivol_bench_decode(word, N, T, work, WORK);
        times[r] = now() - from;
        wrong += !found || memcmp(word, sent[r % WORDS], sizeof word) != 0;
    }
    qsort(times, runs, sizeof *times, rising);
    printf("decode n %d t %d errors %d: best %.0f, median %.0f microseconds; wrong %d of %d\n", N, T, T, times[0], times[runs / 2], wrong, runs);
    return wrong != 0;
}
