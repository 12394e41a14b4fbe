/* The same work by several libraries in one run: short rounds are taken in turn, so that a slow moment of the machine meets all
 * of them alike, and it is the thread's processor time that counts. What else the machine does only adds to it: so the quarter
 * of the rounds counts that took least in all, whoever of them was fast.
 *
 * A line for each, fields parted by tabs: the work, its size (or nothing), who, nanoseconds, and the time as a ratio to the
 * first one's; both are medians of these rounds. Whoever answers otherwise than the first one is not timed: the bench stops. */
#ifndef CLOCK_H
#define CLOCK_H

#include <stdint.h>
#include <stdio.h>
#include <stdlib.h>
#include <string.h>
#include <time.h>

enum { ROUND_NS = 200000, ROUNDS = 400, LEAST_ROUNDS = 40, CONTESTANTS = 8, ANSWER_MAX = 16388, NO_SIZE = -1 };

typedef struct {
    const char *name;
    void (*work)(void);
} contestant;

/* Where the work leaves its answer. */
typedef struct {
    void *bytes;
    size_t length;
} answer;

static double now_ns(void)
{
    struct timespec t;
    clock_gettime(CLOCK_THREAD_CPUTIME_ID, &t);
    return (double)t.tv_sec * 1e9 + (double)t.tv_nsec;
}

static int by_value(const void *a, const void *b)
{
    double x = *(const double *)a, y = *(const double *)b;
    return (x > y) - (x < y);
}

/* The value that one in part of the n values does not exceed. */
static double quantile(const double *values, int n, int part)
{
    double sorted[ROUNDS];
    memcpy(sorted, values, (size_t)n * sizeof *values);
    qsort(sorted, (size_t)n, sizeof *sorted, by_value);
    return sorted[n / part];
}

static double timed(void (*work)(void), long times)
{
    double start = now_ns();
    for (long i = 0; i < times; i++)
        work();
    return (now_ns() - start) / (double)times;
}

/* Everybody answers as the first one does, the first time and the second, when contexts are used again. */
static void agreed(const char *title, const contestant *all, int n, answer to)
{
    uint8_t first[ANSWER_MAX];
    for (int c = 0; c < n; c++)
        for (int again = 0; again < 2; again++) {
            memset(to.bytes, 0, to.length);
            all[c].work();
            if (c == 0)
                memcpy(first, to.bytes, to.length);
            if (memcmp(first, to.bytes, to.length) != 0) {
                fprintf(stderr, "bench: %s: %s answers otherwise than %s\n", title, all[c].name, all[0].name);
                exit(1);
            }
        }
}

static void side_by_side(const char *title, long size, const contestant *all, int n)
{
    static double took[CONTESTANTS][ROUNDS], whole[ROUNDS];
    long times[CONTESTANTS];
    double turn = 0; /* of all of them, in nanoseconds */
    char sized[24] = "";
    for (int c = 0; c < n; c++) {
        double once = 1 + timed(all[c].work, 3);
        times[c] = 1 + (long)(ROUND_NS / once);
        turn += once * (double)times[c];
    }
    int rounds = (int)(ROUNDS * (double)n * ROUND_NS / turn); /* fewer where one work alone is longer than a round */
    rounds = rounds < LEAST_ROUNDS ? LEAST_ROUNDS : rounds > ROUNDS ? ROUNDS : rounds;
    for (int r = 0; r < rounds; r++) {
        whole[r] = 0;
        for (int c = 0; c < n; c++) {
            took[c][r] = timed(all[c].work, times[c]);
            whole[r] += took[c][r] * (double)times[c];
        }
    }
    double quiet = quantile(whole, rounds, 4);
    if (size != NO_SIZE)
        snprintf(sized, sizeof sized, "%ld", size);
    for (int c = 0; c < n; c++) {
        double spent[ROUNDS], ratio[ROUNDS];
        int counted = 0;
        for (int r = 0; r < rounds; r++)
            if (whole[r] <= quiet) {
                spent[counted] = took[c][r];
                ratio[counted++] = took[c][r] / took[0][r];
            }
        printf("%s\t%s\t%s\t%.1f\t%.4f\n", title, sized, all[c].name, quantile(spent, counted, 2), quantile(ratio, counted, 2));
    }
    fflush(stdout);
}

/* Both. */
static inline void contest(const char *title, long size, const contestant *all, int n, answer to)
{
    agreed(title, all, n, to);
    side_by_side(title, size, all, n);
}

#define COUNT(array) ((int)(sizeof(array) / sizeof *(array)))

#endif
