/*
 * Every refusal number of every C function, by the names of line.h, in the papers' order: a call that two numbers
 * would refuse gives the first. A refused call leaves the answer array, the area and the other buffers as they were;
 * only work memory may differ. A last granted call of each function shows that the next number no longer applies.
 */
#include "line.h"

#include <stdio.h>
#include <string.h>

static uint32_t area[LINE_AREA_WORDS];
static uint32_t before[LINE_AREA_WORDS];
static uint32_t work[LINE_WORK_WORDS];
static uint32_t path[LINE_PATH_WORDS];
static uint32_t numbers[LINE_MOST_CIRCUITS];
static uint32_t table[LINE_TABLE_WORDS];
static uint32_t rows[260];
static uint32_t answers[LINE_ANSWER_WORDS * LINE_MOST_JOBS];
static uint32_t answer[4];
static int failures = 0;

/* Net A of document 01, and hold times of 0, one more than a net may have. */
static const uint32_t net[20] = {0, 1, 2, 5, 10, 1, 2, 2, 5, 10, 2, 3, 2, 5, 10, 0, 3, 9, 1, 10};
static const uint32_t no_holds[LINE_MOST_NODES + 1];

static void fill(uint32_t *words, size_t count, uint32_t word)
{
    for (size_t i = 0; i < count; i++)
        words[i] = word;
}

static int all(const uint32_t *words, size_t count, uint32_t word)
{
    for (size_t i = 0; i < count; i++)
        if (words[i] != word)
            return 0;
    return 1;
}

/* Before a call every buffer but the area has a word of its own. */
static void ready(void)
{
    memcpy(before, area, sizeof area);
    fill(path, LINE_PATH_WORDS, 1001);
    fill(numbers, LINE_MOST_CIRCUITS, 1002);
    fill(table, LINE_TABLE_WORDS, 1003);
    fill(answer, 4, 1004);
    fill(answers, LINE_ANSWER_WORDS * LINE_MOST_JOBS, 1006);
}

/* A refusal: the number, and nothing changed. */
static void refused(const char *call, uint32_t number, uint32_t expected)
{
    int same = memcmp(before, area, sizeof area) == 0 && all(path, LINE_PATH_WORDS, 1001)
               && all(numbers, LINE_MOST_CIRCUITS, 1002) && all(table, LINE_TABLE_WORDS, 1003) && all(answer, 4, 1004)
               && all(answers, LINE_ANSWER_WORDS * LINE_MOST_JOBS, 1006);
    if (number != expected || !same) {
        printf("%s: gave %u, expected %u%s\n", call, (unsigned)number, (unsigned)expected,
               same ? "" : "; a buffer changed");
        failures++;
    }
    ready();
}

static void granted(const char *call, uint32_t number)
{
    if (number != LINE_GRANTED) {
        printf("%s: refused %u\n", call, (unsigned)number);
        failures++;
    }
    ready();
}

static uint32_t quote(size_t area_words, size_t work_words, size_t path_words, uint32_t t, uint32_t units,
                      uint32_t delay_bound)
{
    return line_quote(area, area_words, work, work_words, path, path_words, 0, t, units, delay_bound, 20, 8, answer);
}

static uint32_t admit(size_t area_words, size_t work_words, size_t path_words, uint32_t circuit, uint32_t t,
                      uint32_t units, uint32_t delay_bound)
{
    return line_admit(area, area_words, work, work_words, path, path_words, circuit, 0, t, units, delay_bound, 20, 8,
                      answer);
}

/* Jobs whose every number is 0. */
static uint32_t admit_jobs(size_t area_words, size_t work_words, size_t job_words, size_t answer_words)
{
    static const uint32_t jobs[LINE_JOB_LIST_WORDS + LINE_JOB_WORDS];
    return line_admit_jobs(area, area_words, work, work_words, jobs, job_words, answers, answer_words, answer);
}

static uint32_t load(const uint32_t *links, size_t link_words, const uint32_t *holds, size_t hold_words, size_t area_words)
{
    return line_load(4, links, link_words, holds, hold_words, area, area_words);
}

static void load_refusals(void)
{
    const size_t a = LINE_AREA_WORDS;
    uint32_t links[20], holds[5] = {1000001, 0, 0, 0, 0};
    memcpy(links, net, sizeof net);
    links[4] = 65536;
    fill(area, LINE_AREA_WORDS, 1005);
    ready();
    refused("load", line_load(1, links, 19, holds, 5, area, a - 1), LINE_AREA_TOO_SHORT);
    refused("load", line_load(1, links, 19, holds, 5, area, a), LINE_NODES_OUT_OF_RANGE);
    refused("load", line_load(33, net, 20, no_holds, 33, area, a), LINE_NODES_OUT_OF_RANGE);
    refused("load", load(links, 19, holds, 5, a), LINE_TABLE_LENGTH);
    refused("load", load(links, 20, holds, 5, a), LINE_LINK_OUT_OF_RANGE);
    refused("load", load(links, 20, holds, 4, a), LINE_LINK_OUT_OF_RANGE);
    refused("load", load(net, 20, no_holds, 4, 3490), LINE_AREA_TOO_SHORT);
    granted("load", load(net, 20, no_holds, 4, a));
}

/* A hold time for each node and no more, each on both sides of its limit. */
static void hold_refusals(void)
{
    static const size_t counts[] = {0, 1, 3, 5, 32, 33};
    const size_t a = LINE_AREA_WORDS;
    uint32_t holds[5] = {0, 0, 0, 0, 0};
    for (size_t i = 0; i < sizeof counts / sizeof counts[0]; i++)
        refused("load, count of hold times", load(net, 20, no_holds, counts[i], a), LINE_HOLDS_OUT_OF_RANGE);
    for (size_t i = 0; i < 4; i++) {
        holds[i] = 1000001;
        refused("load, hold time", load(net, 20, holds, 4, a), LINE_HOLDS_OUT_OF_RANGE);
        refused("load, hold time", load(net, 20, holds, 5, a), LINE_HOLDS_OUT_OF_RANGE);
        holds[i] = UINT32_MAX;
        refused("load, hold time", load(net, 20, holds, 4, a), LINE_HOLDS_OUT_OF_RANGE);
        holds[i] = 1000000;
        granted("load, hold time", load(net, 20, holds, 4, a));
    }
    refused("load, count of hold times", line_load(LINE_MOST_NODES, net, 20, no_holds, 31, area, a), LINE_HOLDS_OUT_OF_RANGE);
    refused("load, count of hold times", line_load(LINE_MOST_NODES, net, 20, no_holds, 33, area, a), LINE_HOLDS_OUT_OF_RANGE);
}

/* A load writes n, m, 0, the links and as many hold words as there are nodes; every other word keeps its contents. */
static void load_writes(void)
{
    static const uint32_t holds[LINE_MOST_NODES] = {7, 1000000, 0, 9, 11}, counts[] = {4, LINE_MOST_NODES};
    const size_t a = LINE_AREA_WORDS;
    for (size_t i = 0; i < sizeof counts / sizeof counts[0]; i++) {
        const uint32_t n = counts[i], head[3] = {n, 4, 0};
        fill(area, a, 1000001);
        ready();
        memcpy(before, head, sizeof head);
        memcpy(before + LINE_FIRST_LINK, net, sizeof net);
        memcpy(before + 3459, holds, n * sizeof *holds);
        if (line_load(n, net, 20, holds, n, area, a) != LINE_GRANTED || memcmp(before, area, sizeof area) != 0) {
            printf("load with %u nodes: not the words that it should write\n", (unsigned)n);
            failures++;
        }
    }
    granted("load", load(net, 20, no_holds, 4, a));
}

static void quote_refusals(void)
{
    const size_t a = LINE_AREA_WORDS, w = LINE_WORK_WORDS, p = LINE_PATH_WORDS;
    refused("quote", quote(a - 1, w - 1, p - 1, 4, 11, 8), LINE_AREA_NOT_WELL_FORMED);
    refused("quote", quote(a, w - 1, p - 1, 4, 11, 8), LINE_WORK_TOO_SHORT);
    refused("quote", quote(a, w, p - 1, 4, 11, 8), LINE_PATH_TOO_SHORT);
    refused("quote", quote(a, w, p, 4, 11, 8), LINE_REQUEST_OUT_OF_RANGE);
    refused("quote", quote(a, w, p, 0, 1, 8), LINE_REQUEST_OUT_OF_RANGE);
    refused("quote", quote(a, w, p, 3, 1, 61000001), LINE_REQUEST_OUT_OF_RANGE);
    refused("quote", quote(a, w, p, 3, 11, 8), LINE_NO_PATH);
    refused("quote", quote(a, w, p, 3, 1, 5), LINE_NO_SOLUTION);
    granted("quote", quote(a, w, p, 3, 1, 8));
    granted("quote", quote(a, w, p, 3, 1, 61000000));
}

static void admit_refusals(void)
{
    const size_t a = LINE_AREA_WORDS, w = LINE_WORK_WORDS, p = LINE_PATH_WORDS;
    refused("admit", admit(a - 1, w - 1, p - 1, 0, 4, 11, 8), LINE_AREA_NOT_WELL_FORMED);
    refused("admit", admit(a, w - 1, p - 1, 0, 4, 11, 8), LINE_WORK_TOO_SHORT);
    refused("admit", admit(a, w, p - 1, 0, 4, 11, 8), LINE_PATH_TOO_SHORT);
    refused("admit", admit(a, w, p, 0, 4, 11, 8), LINE_REQUEST_OUT_OF_RANGE);
    refused("admit", admit(a, w, p, 7, 3, 1, 61000001), LINE_REQUEST_OUT_OF_RANGE);
    refused("admit", admit(a, w, p, 0, 3, 11, 8), LINE_CIRCUIT_NUMBER);
    refused("admit", admit(a, w, p, 65536, 3, 11, 8), LINE_CIRCUIT_NUMBER);
    refused("admit", admit(a, w, p, 7, 3, 11, 8), LINE_NO_PATH);
    refused("admit", admit(a, w, p, 7, 3, 1, 5), LINE_NO_SOLUTION);
    granted("admit", admit(a, w, p, 7, 3, 1, 8));
    refused("admit", admit(a, w, p, 7, 3, 11, 8), LINE_CIRCUIT_NUMBER);
    granted("admit", admit(a, w, p, 8, 3, 1, 61000000));
    granted("release", line_release(area, a, 8));
}

/* Word counts on both sides of each limit. A job of zeros is refused with 8 in its own words, and the call is granted. */
static void job_refusals(void)
{
    static const size_t lengths[] = {1, 6, 8, 13, 15, 447, 449, 455};
    static const uint32_t counts[] = {0, 1, 2, 63, 64};
    const size_t a = LINE_AREA_WORDS, w = LINE_WORK_WORDS, n = LINE_ANSWER_WORDS * LINE_MOST_JOBS;
    for (size_t i = 0; i < sizeof lengths / sizeof lengths[0]; i++) {
        refused("admit jobs", admit_jobs(a - 1, w - 1, lengths[i], 0), LINE_AREA_NOT_WELL_FORMED);
        refused("admit jobs", admit_jobs(a, w - 1, lengths[i], 0), LINE_WORK_TOO_SHORT);
        refused("admit jobs", admit_jobs(a, w, lengths[i], 0), LINE_JOBS_LENGTH);
        refused("admit jobs", admit_jobs(a, w, lengths[i], n), LINE_JOBS_LENGTH);
    }
    for (size_t i = 0; i < sizeof counts / sizeof counts[0]; i++) {
        const size_t jobs = LINE_JOB_WORDS * counts[i], words = LINE_ANSWER_WORDS * counts[i];
        if (counts[i] > 0) {
            refused("admit jobs", admit_jobs(a - 1, w - 1, jobs, words - 1), LINE_AREA_NOT_WELL_FORMED);
            refused("admit jobs", admit_jobs(a, w - 1, jobs, words - 1), LINE_WORK_TOO_SHORT);
            refused("admit jobs", admit_jobs(a, w, jobs, words - 1), LINE_ANSWERS_TOO_SHORT);
            refused("admit jobs", admit_jobs(a, w, jobs, 0), LINE_ANSWERS_TOO_SHORT);
        }
        int is_granted = admit_jobs(a, w, jobs, words) == LINE_GRANTED && answer[0] == counts[i] && answer[1] == 1004;
        for (size_t j = 0; j < n; j++)
            is_granted &= answers[j] == (j >= words ? 1006 : j % LINE_ANSWER_WORDS == 0 ? LINE_REQUEST_OUT_OF_RANGE : 0);
        if (!is_granted || memcmp(before, area, sizeof area) != 0) {
            printf("admit jobs: not %u jobs that are refused with 8\n", (unsigned)counts[i]);
            failures++;
        }
        ready();
    }
}

static void other_refusals(void)
{
    const size_t a = LINE_AREA_WORDS;
    refused("list", line_list(area, a - 1, numbers, 0, answer), LINE_AREA_NOT_WELL_FORMED);
    refused("list", line_list(area, a, numbers, 0, answer), LINE_LIST_TOO_SHORT);
    granted("list", line_list(area, a, numbers, 1, answer));
    refused("free units", line_free_units(area, a - 1, 4, answer), LINE_AREA_NOT_WELL_FORMED);
    refused("free units", line_free_units(area, a, 4, answer), LINE_NO_SUCH_LINK);
    granted("free units", line_free_units(area, a, 3, answer));
    refused("release", line_release(area, a - 1, 8), LINE_AREA_NOT_WELL_FORMED);
    refused("release", line_release(area, a, 8), LINE_NOT_HELD);
    granted("release", line_release(area, a, 7));
}

/* Word counts and numbers on both sides of each limit, in tables whose words are 1 elsewhere, which is in every range. */
static void class_refusals(void)
{
    static const size_t lengths[] = {0, 1, 2, 3, 5, 255, 257, 260};
    static const uint32_t least[4] = {LINE_LEAST_UNITS, LINE_LEAST_BOUND, LINE_LEAST_BOUND, LINE_LEAST_COEFFICIENT};
    static const uint32_t most[4] = {LINE_MOST_UNITS, LINE_MOST_DELAY_BOUND, LINE_MOST_COST_BOUND,
                                     LINE_MOST_COEFFICIENT};
    fill(rows, sizeof rows / sizeof rows[0], 1);
    for (size_t i = 0; i < sizeof lengths / sizeof lengths[0]; i++) {
        rows[0] = 0;
        refused("check classes", line_check_classes(rows, lengths[i]), LINE_CLASSES_LENGTH);
        refused("class", line_class(rows, lengths[i], 65, answer), LINE_CLASSES_LENGTH);
        rows[0] = 1;
        refused("class", line_class(rows, lengths[i], 0, answer), LINE_CLASSES_LENGTH);
    }
    for (size_t i = 0; i < 2 * LINE_ROW_WORDS; i++) {
        const uint32_t ends[2] = {least[i % 4], most[i % 4]}, past[2] = {least[i % 4] - 1, most[i % 4] + 1};
        for (size_t j = 0; j < 2; j++) {
            rows[i] = past[j];
            refused("check classes", line_check_classes(rows, 8), LINE_CLASSES_OUT_OF_RANGE);
            refused("class", line_class(rows, 8, 2, answer), LINE_CLASSES_OUT_OF_RANGE);
            refused("class", line_class(rows, 8, i < 4 ? 1 : 0, answer), LINE_CLASSES_OUT_OF_RANGE);
            rows[i] = ends[j];
            granted("check classes", line_check_classes(rows, 8));
        }
        rows[i] = 1;
    }
    rows[1] = 61000001;
    refused("class", line_class(rows, 4, 1, answer), LINE_CLASSES_OUT_OF_RANGE);
    rows[1] = 61000000;
    refused("class", line_class(rows, 4, 1, answer), LINE_NO_SUCH_CLASS);
    rows[1] = 1;
    refused("class", line_class(rows, 4, UINT32_MAX, answer), LINE_NO_SUCH_CLASS);
    refused("class", line_class(rows, LINE_CLASS_WORDS, LINE_MOST_ROWS, answer), LINE_NO_SUCH_CLASS);
    rows[LINE_CLASS_WORDS - 1] = 7;
    if (line_class(rows, LINE_CLASS_WORDS, LINE_MOST_ROWS - 1, answer) != LINE_GRANTED || answer[0] != 1
        || answer[3] != 7) {
        printf("class: not the last row\n");
        failures++;
    }
    ready();
}

/* Every call on a loaded area gives 5, and nothing changes. */
static void not_well_formed(void)
{
    const size_t a = LINE_AREA_WORDS, w = LINE_WORK_WORDS, p = LINE_PATH_WORDS;
    ready();
    refused("quote", quote(a, w, p, 3, 1, 8), LINE_AREA_NOT_WELL_FORMED);
    refused("admit", admit(a, w, p, 7, 3, 1, 8), LINE_AREA_NOT_WELL_FORMED);
    refused("admit jobs", admit_jobs(a, w, LINE_JOB_WORDS, LINE_ANSWER_WORDS), LINE_AREA_NOT_WELL_FORMED);
    refused("admit jobs", admit_jobs(a, w, 0, 0), LINE_AREA_NOT_WELL_FORMED);
    refused("release", line_release(area, a, 7), LINE_AREA_NOT_WELL_FORMED);
    refused("list", line_list(area, a, numbers, LINE_MOST_CIRCUITS, answer), LINE_AREA_NOT_WELL_FORMED);
    refused("free units", line_free_units(area, a, 0, answer), LINE_AREA_NOT_WELL_FORMED);
}

/* The words of the first two circuits change places. */
static void exchange(void)
{
    uint32_t first[LINE_CIRCUIT_WORDS];
    memcpy(first, area + 1283, sizeof first);
    memcpy(area + 1283, area + 1317, sizeof first);
    memcpy(area + 1317, first, sizeof first);
}

/* Neighbours exchanged, a number twice and an unused path word that is not 0 each make an area not well formed. Circuits 7 and
   9 have three links each, so path words 0 1 2 are used and the other 28 are not. */
static void damaged_circuits(void)
{
    static const size_t unused[] = {1289, 1290, 1316, 1323, 1324, 1350};
    const size_t a = LINE_AREA_WORDS, w = LINE_WORK_WORDS, p = LINE_PATH_WORDS;
    granted("admit", admit(a, w, p, 9, 3, 1, 8));
    granted("admit", admit(a, w, p, 7, 3, 1, 8));
    exchange();
    not_well_formed();
    exchange();
    area[1317] = 7;
    not_well_formed();
    area[1317] = 9;
    for (size_t i = 0; i < sizeof unused / sizeof unused[0]; i++) {
        area[unused[i]] = 1;
        not_well_formed();
        area[unused[i]] = UINT32_MAX;
        not_well_formed();
        area[unused[i]] = 0;
    }
    fill(area + 1351, 3459 - 1351, UINT32_MAX);
    ready();
    granted("list", line_list(area, a, numbers, LINE_MOST_CIRCUITS, answer));
    granted("release", line_release(area, a, 9));
    granted("release", line_release(area, a, 7));
    granted("load", load(net, 20, no_holds, 4, a));
}

/* A hold time over 1,000,000 makes an area not well formed; hold words past n may be anything. An area that claims 65
   circuits is not well formed, whatever else holds. */
static void damaged_area(void)
{
    const size_t a = LINE_AREA_WORDS, w = LINE_WORK_WORDS, p = LINE_PATH_WORDS;
    for (uint32_t i = 0; i < LINE_MOST_NODES; i++) {
        if (i < 4) {
            area[3459 + i] = 1000001;
            not_well_formed();
            area[3459 + i] = UINT32_MAX;
            not_well_formed();
        }
        area[3459 + i] = i < 4 ? 1000000 : UINT32_MAX;
        ready();
        granted("free units", line_free_units(area, a, 0, answer));
        granted("list", line_list(area, a, numbers, LINE_MOST_CIRCUITS, answer));
        refused("release", line_release(area, a, 7), LINE_NOT_HELD);
    }
    granted("admit", admit(a, w, p, 7, 3, 1, 61000000));
    granted("release", line_release(area, a, 7));
    granted("quote", quote(a, w, p, 3, 1, 61000000));
    area[2] = LINE_MOST_CIRCUITS + 1;
    not_well_formed();
}

/* 64 circuits of one unit each over one link of capacity 64: the 65th is refused before any search. */
static void full_area(void)
{
    const size_t a = LINE_AREA_WORDS, w = LINE_WORK_WORDS, p = LINE_PATH_WORDS;
    const uint32_t one[5] = {0, 1, 1, 1, 64};
    granted("load", line_load(2, one, 5, no_holds, 2, area, a));
    for (uint32_t circuit = 1; circuit <= LINE_MOST_CIRCUITS; circuit++)
        granted("admit", admit(a, w, p, circuit, 1, 1, 8));
    refused("admit", admit(a, w, p, 64, 1, 1, 8), LINE_CIRCUIT_NUMBER);
    refused("admit", admit(a, w, p, 65, 1, 1, 8), LINE_CIRCUITS_FULL);
    refused("quote", quote(a, w, p, 1, 1, 8), LINE_NO_PATH);
    refused("list", line_list(area, a, numbers, LINE_MOST_CIRCUITS - 1, answer), LINE_LIST_TOO_SHORT);
    granted("release", line_release(area, a, 33));
    granted("admit", admit(a, w, p, 65, 1, 1, 8));
}

static void file_refusals(void)
{
    /* one record, and a trailer with offset 0, m = 1, n = 2 */
    uint8_t file[36] = {0, 0, 0, 0, 1, 0, 0, 0, 1, 0, 0, 0, 1, 0, 0, 0, 64, 0,   0,   0,
                        0, 0, 0, 0, 1, 0, 0, 0, 2, 0, 0, 0, 'R', 'T', 'L', 'K'};
    refused("file", line_read_link_file(file + 21, 15, table, 0, answer), LINE_FILE_NO_TRAILER);
    file[20] = 1;
    file[35] = 'L';
    refused("file", line_read_link_file(file, 36, table, 0, answer), LINE_FILE_NO_TRAILER);
    file[35] = 'K';
    refused("file", line_read_link_file(file, 36, table, 0, answer), LINE_FILE_LENGTH);
    file[20] = 0;
    refused("file", line_read_link_file(file, 36, table, 4, answer), LINE_TABLE_TOO_SHORT);
    if (line_read_link_file(file, 36, table, 5, answer) != LINE_GRANTED || answer[0] != 2 || answer[1] != 1
        || answer[2] != 1004 || table[4] != 64 || table[5] != 1003) {
        printf("file: not read as it should be\n");
        failures++;
    }
    ready();
}

int main(void)
{
    ready();
    load_refusals();
    hold_refusals();
    load_writes();
    quote_refusals();
    admit_refusals();
    job_refusals();
    other_refusals();
    class_refusals();
    damaged_circuits();
    damaged_area();
    full_area();
    file_refusals();
    if (failures == 0)
        printf("every refusal number as it should be\n");
    return failures != 0;
}
