// What can be had without proofs: whether a cell of half-planes has a point, by the same elimination, in C.
// The word is how often each cell is decided; a line of standard input is a cell, `A B C OP` a half-plane.
#include <stdio.h>
#include <stdlib.h>

typedef __int128 wide;
typedef struct { long a, b, c; int op; } half;
typedef struct { wide m, k; int strict; } bound;

static void tighten(bound *best, int *some, bound new) {
    // both have m > 0: the tighter is the one with the greater -k/m, the open one where they are equal
    if (!*some) { *best = new; *some = 1; return; }
    wide left = -new.k * best->m, right = -best->k * new.m;
    if (left > right || (left == right && new.strict)) *best = new;
}

static int is_empty(const half *h, int n) {
    bound low = {0}, high = {0};
    int has_low = 0, has_high = 0;
    #define TAKE(M, K, S) do { wide m_ = (M), k_ = (K); int s_ = (S); \
        if (m_ == 0) { if (s_ ? k_ <= 0 : k_ < 0) return 1; } \
        else if (m_ > 0) { bound b_ = {m_, k_, s_}; tighten(&low, &has_low, b_); } \
        else { bound b_ = {-m_, k_, s_}; tighten(&high, &has_high, b_); } } while (0)
    for (int i = 0; i < n; i++) {
        if (h[i].b != 0) continue;
        TAKE(h[i].a, h[i].c, h[i].op == 0);
        if (h[i].op == 2) TAKE(-(wide)h[i].a, -(wide)h[i].c, 0);
    }
    for (int i = 0; i < n; i++) {
        if (h[i].b < 0 && h[i].op != 2) continue;
        if (h[i].b == 0) continue;
        long si = h[i].b > 0 ? 1 : -1;
        for (int j = 0; j < n; j++) {
            if (h[j].b == 0 || (h[j].b > 0 && h[j].op != 2)) continue;
            long sj = h[j].b < 0 ? 1 : -1;
            wide lb = si * h[i].b, ub = -sj * h[j].b;
            TAKE((wide)si * h[i].a * ub + (wide)sj * h[j].a * lb, (wide)si * h[i].c * ub + (wide)sj * h[j].c * lb, (h[i].op == 0) | (h[j].op == 0));
        }
    }
    if (!has_low || !has_high) return 0;
    // low: m x + k > 0, high: -m x + k > 0
    wide room = low.k * high.m + high.k * low.m;
    return (low.strict || high.strict) ? room <= 0 : room < 0;
}

int main(int argc, char **argv) {
    long times = argc > 1 ? atol(argv[1]) : 1;
    half *all = malloc(sizeof(half) * 4000000);
    long *start = malloc(sizeof(long) * 1000001);
    long cells = 0, used = 0, empty = 0;
    char *line = NULL;
    size_t room = 0;
    while (getline(&line, &room, stdin) > 0) {
        char *at = line, *end;
        start[cells] = used;
        for (;;) {
            long v[4];
            int k = 0;
            for (; k < 4; k++) { v[k] = strtol(at, &end, 10); if (end == at) break; at = end; }
            if (k < 4) break;
            all[used++] = (half){v[0], v[1], v[2], (int)v[3]};
        }
        cells++;
    }
    start[cells] = used;
    for (long t = 0; t < times; t++) {
        empty = 0;
        for (long i = 0; i < cells; i++) empty += is_empty(all + start[i], (int)(start[i + 1] - start[i]));
    }
    printf("%ld cells, %ld empty\n", cells, empty);
    return 0;
}
