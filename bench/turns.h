/* Rows of the benchmark. */
#ifndef TURNS_H
#define TURNS_H
#include <stdio.h>
#include <time.h>

static double now(void) {
    struct timespec t;
    clock_gettime(CLOCK_MONOTONIC, &t);
    return (double)t.tv_sec * 1e9 + (double)t.tv_nsec;
}

static void head(const char *what) { printf("%-46s %15s %15s %8s   %s\n", what, "proved", "plain C", "ratio", "to reach"); }

/* The least of many times: the machine's other work only adds. Both sides take turns, so that they meet the same
 * machine. */
static void in_turns(const char *what, void (*run)(const void *), const void *a, const void *b, double most) {
    double best_a = 1e18, best_b = 1e18;
    for (int round = 0; round < 60; round++) {
        double t = now();
        run(a);
        double u = now();
        run(b);
        double v = now();
        if (u - t < best_a) best_a = u - t;
        if (v - u < best_b) best_b = v - u;
    }
    printf("%-46s %12.1f us %12.1f us %8.2f   %s %.4g\n", what, best_a / 1e3, best_b / 1e3, best_a / best_b, most > 0 ? "at most" : "at least 1 /",
           most > 0 ? most : -most);
}
#endif
