// Times the sum of 1,048,576 figures: on a flat store, on a tree store, and in a plain loop.
#include <stdint.h>
#include <stdio.h>
#include <stdlib.h>
#include <string.h>
#include <time.h>

// Slices pass as a pointer and a length; a count is one word of 64 bits.
uint64_t totals_flat(uint64_t *cells, size_t cells_len, const uint64_t *figures, size_t figures_len, size_t rounds);
uint64_t totals_tree(size_t fan_out, uint64_t *cells, size_t cells_len, const uint64_t *figures, size_t figures_len, size_t rounds);

enum { FIGURES = 1048576, CELLS = 2 * FIGURES };

static uint64_t *cells, *figures;

// The same spans in the same order, with a loop of C over the same cells.
__attribute__((noinline)) static uint64_t totals_loop(const uint64_t *row, size_t len, size_t rounds) {
    uint64_t all = 0;
    for (size_t round = 0; round < rounds; round++) {
        uint64_t sum = 0;
        for (size_t i = round % 8; i < len; i++) sum += row[i];
        all += sum;
        __asm__ volatile("" : : "r"(row), "r"(all) : "memory");
    }
    return all;
}

static double now(void) {
    struct timespec t;
    clock_gettime(CLOCK_MONOTONIC, &t);
    return t.tv_sec * 1e9 + t.tv_nsec;
}

static uint64_t run(int which, size_t rounds) {
    switch (which) {
    case 0: memcpy(cells, figures, FIGURES * sizeof *cells); return totals_loop(cells, FIGURES, rounds);
    case 1: return totals_flat(cells, CELLS, figures, FIGURES, rounds);
    default: return totals_tree((size_t)which, cells, CELLS, figures, FIGURES, rounds);
    }
}

static double timed(int which, size_t rounds) {
    double before = now();
    run(which, rounds);
    return now() - before;
}

enum { WAYS = 6, TURNS = 9 };

// The plain loop, the flat store, and tree stores by their fan-out.
static const int ways[WAYS] = {0, 1, 2, 4, 16, 64};
static const size_t rounds[WAYS] = {50, 50, 500000, 500000, 500000, 500000};

int main(void) {
    cells = calloc(CELLS, sizeof *cells);
    figures = calloc(FIGURES, sizeof *figures);
    if (!cells || !figures) return 1;
    for (size_t i = 0; i < FIGURES; i++) figures[i] = i * 0x9e3779b97f4a7c15u + 1;
    for (int w = 1; w < WAYS; w++) {
        if (run(ways[w], 20) != run(0, 20)) {
            printf("way %d and the loop differ\n", ways[w]);
            return 1;
        }
    }
    // The ways take turns, so that what else the machine does strikes them alike. The best time of many rounds less the best
    // of none is that of the rounds alone: making and filling the store is not counted.
    double none[WAYS], many[WAYS], best[WAYS];
    for (int w = 0; w < WAYS; w++) none[w] = many[w] = 1e300;
    for (int turn = 0; turn < TURNS; turn++) {
        for (int w = 0; w < WAYS; w++) {
            double few = timed(ways[w], 0);
            double all = timed(ways[w], rounds[w]);
            if (few < none[w]) none[w] = few;
            if (all < many[w]) many[w] = all;
        }
    }
    for (int w = 0; w < WAYS; w++) best[w] = (many[w] - none[w]) / (double)rounds[w];
    printf("loop in C      %10.1f ns a total   1\n", best[0]);
    printf("flat store     %10.1f ns a total   %.3g of the loop\n", best[1], best[1] / best[0]);
    for (int w = 2; w < WAYS; w++)
        printf("tree store %2d  %10.1f ns a total   %.3g of the loop, 1/%.0f of the flat store\n", ways[w], best[w], best[w] / best[0], best[1] / best[w]);
    return 0;
}
