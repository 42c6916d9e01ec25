// Times a product of class 4 by the proved library beside the same sum in C.
#include <stdbool.h>
#include <stdint.h>
#include <stdio.h>
#include <string.h>
#include <time.h>

#define N 1024
#define RUNS 200

bool hawk_product(const int64_t *a, size_t an, const int64_t *b, size_t bn, int64_t *out, size_t on);

__attribute__((noinline)) static void product_c(const int64_t *a, const int64_t *b, int64_t *out, size_t n) {
    for (size_t k = 0; k < n; k++) {
        uint64_t straight = 0, around = 0;
        for (size_t i = 0; i <= k; i++) straight += (uint64_t)a[i] * (uint64_t)b[k - i];
        for (size_t i = k + 1; i < n; i++) around += (uint64_t)a[i] * (uint64_t)b[n + k - i];
        out[k] = (int64_t)(straight - around);
    }
}

static double now(void) {
    struct timespec t;
    clock_gettime(CLOCK_MONOTONIC, &t);
    return t.tv_sec * 1e3 + t.tv_nsec / 1e6;
}

int main(void) {
    static int64_t a[N], b[N], p[N], q[N];
    uint64_t s = 1;
    for (int i = 0; i < N; i++) {
        s = s * 6364136223846793005u + 1442695040888963407u;
        a[i] = (int64_t)(s >> 20) % 127;
        b[i] = (int64_t)(s >> 40) % 127 - 60;
    }
    double best_p = 1e9, best_q = 1e9;
    for (int r = 0; r < RUNS; r++) {
        double t0 = now();
        bool ok = hawk_product(a, N, b, N, p, N);
        double t1 = now();
        product_c(a, b, q, N);
        double t2 = now();
        if (!ok || memcmp(p, q, sizeof p)) { puts("results differ"); return 1; }
        if (t1 - t0 < best_p) best_p = t1 - t0;
        if (t2 - t1 < best_q) best_q = t2 - t1;
    }
    printf("product of class 4, best of %d: proved library %.3f ms, C %.3f ms\n", RUNS, best_p, best_q);
    return 0;
}
