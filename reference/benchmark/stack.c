/*
 * How much stack each call of the C interface uses. A call runs on a thread whose stack is filled with a pattern
 * before; what no longer has the pattern was used. The figure is that less what a thread uses which calls an empty
 * function, so it counts the call's arguments, its return address and all that it calls.
 *
 * The net is the largest: 32 nodes in a row, 256 links, so that the distance is 31 and x is 248. Every hold time is the
 * greatest. 63 circuits are held.
 */
#define _GNU_SOURCE

#include "line.h"

#include <pthread.h>
#include <stdio.h>
#include <stdlib.h>
#include <string.h>

#define STACK_BYTES 262144
#define GAP_BYTES 65536
#define PATTERN 0xa5

static unsigned char stack[STACK_BYTES] __attribute__((aligned(4096)));
static uint32_t links[LINE_TABLE_WORDS];
static uint32_t holds[LINE_MOST_NODES];
static uint32_t table[LINE_TABLE_WORDS];
static uint8_t file[4 * LINE_TABLE_WORDS + 16];
static uint32_t area[LINE_AREA_WORDS];
static uint32_t work[LINE_WORK_WORDS];
static uint32_t path[LINE_PATH_WORDS];
static uint32_t numbers[LINE_MOST_CIRCUITS];
static uint32_t rows[LINE_CLASS_WORDS];
static uint32_t jobs[LINE_JOB_LIST_WORDS];
static uint32_t answers[LINE_ANSWER_WORDS * LINE_MOST_JOBS];
static uint32_t answer[4];
static uint32_t code;
static uint32_t cost_bound;

/* With this delay bound a link and the longest hold time behind it are scaled to 8, and the last link to 1. */
static const uint32_t delay_bound = 31 * (LINE_MOST_HOLD + 10);

/* Eight links of delay 10 from each node to the next, and a ninth from each of the first eight. Their costs are 10, but
   11 and 9 at the first two nodes: with a cost bound of 310 problem one fails by one unit of scaled cost and problem
   two does not. */
static void make_links(void)
{
    for (uint32_t i = 0; i < LINE_MOST_LINKS; i++) {
        uint32_t from = i % (LINE_MOST_NODES - 1);
        uint32_t cost = from == 0 ? 11 : from == 1 ? 9 : 10;
        const uint32_t link[LINE_LINK_WORDS] = {from, from + 1, 10, cost, 65535};
        memcpy(links + LINE_LINK_WORDS * i, link, sizeof link);
    }
}

static void make_holds(void)
{
    for (size_t i = 0; i < LINE_MOST_NODES; i++)
        holds[i] = LINE_MOST_HOLD;
}

static void put_word(uint8_t *bytes, uint32_t word)
{
    for (int i = 0; i < 4; i++)
        bytes[i] = (uint8_t)(word >> 8 * i);
}

/* The same links as a link file with no notes. */
static void make_file(void)
{
    for (size_t i = 0; i < LINE_TABLE_WORDS; i++)
        put_word(file + 4 * i, links[i]);
    put_word(file + 4 * LINE_TABLE_WORDS, 0);
    put_word(file + 4 * LINE_TABLE_WORDS + 4, LINE_MOST_LINKS);
    put_word(file + 4 * LINE_TABLE_WORDS + 8, LINE_MOST_NODES);
    memcpy(file + 4 * LINE_TABLE_WORDS + 12, "RTLK", 4);
}

/* A full class table: 1 is in every range. */
static void make_rows(void)
{
    for (size_t i = 0; i < LINE_CLASS_WORDS; i++)
        rows[i] = 1;
}

static void nothing(void)
{
    code = 0;
}

static void quote(void)
{
    code = line_quote(area, LINE_AREA_WORDS, work, LINE_WORK_WORDS, path, LINE_PATH_WORDS, 0, LINE_MOST_NODES - 1, 1,
                      delay_bound, cost_bound, 8, answer);
}

static void admit(void)
{
    code = line_admit(area, LINE_AREA_WORDS, work, LINE_WORK_WORDS, path, LINE_PATH_WORDS, 64, 0, LINE_MOST_NODES - 1,
                      1, delay_bound, cost_bound, 8, answer);
}

static void admit_jobs(void)
{
    for (size_t k = 0; k < LINE_MOST_JOBS; k++) {
        const uint32_t job[LINE_JOB_WORDS] = {64, 0, LINE_MOST_NODES - 1, 1, delay_bound, cost_bound, 8};
        memcpy(jobs + LINE_JOB_WORDS * k, job, sizeof job);
    }
    code = line_admit_jobs(area, LINE_AREA_WORDS, work, LINE_WORK_WORDS, jobs, LINE_JOB_LIST_WORDS, answers,
                           sizeof answers / sizeof *answers, answer);
}

static void release(void)
{
    code = line_release(area, LINE_AREA_WORDS, 64);
}

static void load(void)
{
    code = line_load(LINE_MOST_NODES, links, LINE_TABLE_WORDS, holds, LINE_MOST_NODES, area, LINE_AREA_WORDS);
}

static void list(void)
{
    code = line_list(area, LINE_AREA_WORDS, numbers, LINE_MOST_CIRCUITS, answer);
}

static void free_units(void)
{
    code = line_free_units(area, LINE_AREA_WORDS, LINE_MOST_LINKS - 1, answer);
}

static void check_classes(void)
{
    code = line_check_classes(rows, LINE_CLASS_WORDS);
}

static void class_row(void)
{
    code = line_class(rows, LINE_CLASS_WORDS, LINE_MOST_ROWS - 1, answer);
}

static void sample_classes(void)
{
    code = line_sample_classes(rows);
}

static void read_link_file(void)
{
    code = line_read_link_file(file, sizeof file, table, LINE_TABLE_WORDS, answer);
}

/* The gap sets the call apart from what the thread uses before and after it. */
static void *run(void *call)
{
    volatile unsigned char gap[GAP_BYTES];
    gap[0] = 0;
    (*(void (**)(void))call)();
    return gap[0] == 0 ? NULL : call;
}

/* The bytes of the stack that a thread used which made this call. */
static size_t used(void (*call)(void))
{
    pthread_attr_t attributes;
    pthread_t thread;
    size_t untouched = 0;
    memset(stack, PATTERN, STACK_BYTES);
    if (pthread_attr_init(&attributes) != 0 || pthread_attr_setstack(&attributes, stack, STACK_BYTES) != 0
        || pthread_create(&thread, &attributes, run, &call) != 0 || pthread_join(thread, NULL) != 0) {
        fprintf(stderr, "stack: no thread\n");
        exit(1);
    }
    pthread_attr_destroy(&attributes);
    while (untouched < STACK_BYTES && stack[untouched] == PATTERN)
        untouched++;
    return STACK_BYTES - untouched;
}

/* Prints a row; the call must have been granted or refused as expected. */
static void row(const char *name, const char *outcome, void (*call)(void), uint32_t expected)
{
    size_t bytes = used(call);
    if (code != expected) {
        fprintf(stderr, "stack: %s gave %u, expected %u\n", name, (unsigned)code, (unsigned)expected);
        exit(1);
    }
    printf("%-20s  %-11s %7zu\n", name, outcome, bytes - used(nothing));
}

static void hold_circuits(void)
{
    for (uint32_t number = 1; number < LINE_MOST_CIRCUITS; number++)
        if (line_admit(area, LINE_AREA_WORDS, work, LINE_WORK_WORDS, path, LINE_PATH_WORDS, number, 0,
                       LINE_MOST_NODES - 1, 1, LINE_MOST_DELAY_BOUND, 1000, 8, answer) != LINE_GRANTED)
            exit(1);
}

int main(void)
{
    make_links();
    make_holds();
    make_file();
    make_rows();
    printf("Bytes of stack for a call: 32 nodes in a row, 256 links, greatest hold times, x = 248, 63 circuits "
           "held.\n");
    printf("call                  outcome       bytes\n");
    row("line_load", "loaded", load, LINE_GRANTED);
    hold_circuits();
    cost_bound = 309;
    row("line_quote", "refused 10", quote, LINE_NO_SOLUTION);
    row("line_admit", "refused 10", admit, LINE_NO_SOLUTION);
    row("line_admit_jobs", "refused 10", admit_jobs, LINE_GRANTED);
    cost_bound = 310;
    row("line_quote", "problem two", quote, LINE_GRANTED);
    row("line_admit", "problem two", admit, LINE_GRANTED);
    row("line_list", "listed", list, LINE_GRANTED);
    row("line_release", "released", release, LINE_GRANTED);
    row("line_admit_jobs", "problem two", admit_jobs, LINE_GRANTED);
    row("line_free_units", "answered", free_units, LINE_GRANTED);
    row("line_check_classes", "accepted", check_classes, LINE_GRANTED);
    row("line_class", "answered", class_row, LINE_GRANTED);
    row("line_sample_classes", "answered", sample_classes, LINE_GRANTED);
    row("line_read_link_file", "read", read_link_file, LINE_GRANTED);
    return 0;
}
