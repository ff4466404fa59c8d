/* What the tests of cases by hand share: document 01's net A, the buffers, calls on them, and what is expected of a call. A
   test ends with failures, which is 0 where everything was as expected. */
#ifndef SUPPORT_H
#define SUPPORT_H

#include <stdio.h>
#include <string.h>

#include "line.h"

static const uint32_t net_a[20] = {0, 1, 2, 5, 10, 1, 2, 2, 5, 10, 2, 3, 2, 5, 10, 0, 3, 9, 1, 10};
static const uint32_t no_holds[4] = {0, 0, 0, 0};

static uint32_t area[LINE_AREA_WORDS], work[LINE_WORK_WORDS], path[LINE_PATH_WORDS], answer[4];
static int failures;

static inline void expect(const char *name, int holds, const char *fault)
{
    if (!holds) {
        printf("%s: %s\n", name, fault);
        failures++;
    }
}

static inline void load(uint32_t n, const uint32_t *links, size_t words, const uint32_t *holds)
{
    expect("load", line_load(n, links, words, holds, n, area, LINE_AREA_WORDS) == LINE_GRANTED, "refused");
}

static inline uint32_t quote(uint32_t s, uint32_t t, uint32_t units, uint32_t delay_bound, uint32_t cost_bound,
                             uint32_t coefficient)
{
    return line_quote(area, LINE_AREA_WORDS, work, LINE_WORK_WORDS, path, LINE_PATH_WORDS, s, t, units, delay_bound, cost_bound,
                      coefficient, answer);
}

static inline uint32_t admit(uint32_t circuit, uint32_t s, uint32_t t, uint32_t units, uint32_t delay_bound,
                             uint32_t cost_bound, uint32_t coefficient)
{
    return line_admit(area, LINE_AREA_WORDS, work, LINE_WORK_WORDS, path, LINE_PATH_WORDS, circuit, s, t, units, delay_bound,
                      cost_bound, coefficient, answer);
}

/* A quote or an admission that has a path and no solution. */
static inline void refused(const char *name, uint32_t number)
{
    if (number != LINE_NO_SOLUTION) {
        printf("%s: %u, not refused with 10\n", name, (unsigned)number);
        failures++;
    }
}

/* One that is granted, by this problem and with this path. */
static inline void granted(const char *name, uint32_t number, uint32_t problem, uint32_t delay, uint32_t cost,
                           const uint32_t *links, uint32_t count)
{
    const uint32_t expected[4] = {problem, delay, cost, count};
    if (number != LINE_GRANTED || memcmp(answer, expected, sizeof expected) != 0
        || memcmp(path, links, count * sizeof *links) != 0) {
        printf("%s: %u, or another path than by hand\n", name, (unsigned)number);
        failures++;
    }
}

#endif
