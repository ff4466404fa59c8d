/* The cases of docs/opening.md through the C interface: the figures are copied from there. Every word that a call is lent is
   looked at after it, and some before and past them. */
#include "support.h"

#define GUARD 8
#define LONG 2340

/* A job, and the words that answer it; those that are not written out are 0. */
typedef uint32_t job[LINE_JOB_WORDS];
typedef uint32_t job_answer[LINE_ANSWER_WORDS];

/* What a call is lent, with words of nobody's before and past it. */
static uint32_t lent_area[GUARD + LINE_AREA_WORDS + GUARD], lent_work[GUARD + LINE_WORK_WORDS + GUARD];
static uint32_t lent_jobs[GUARD + 455 + GUARD], lent_answers[GUARD + LONG + GUARD], lent_count[GUARD + 1 + GUARD];

/* What the area was after its load. */
static uint32_t loaded[LINE_AREA_WORDS];

/* No two of the words that are nobody's are alike, and none of them is a number, a link or 0. */
static uint32_t nobodys(size_t i)
{
    return 0x80000000u + (uint32_t)i;
}

static void junk(uint32_t *words, size_t from, size_t to)
{
    for (size_t i = from; i < to; i++)
        words[i] = nobodys(i);
}

static int is_junk(const uint32_t *words, size_t from, size_t to)
{
    for (size_t i = from; i < to; i++)
        if (words[i] != nobodys(i))
            return 0;
    return 1;
}

/* All is junk but the n words that are lent. */
static int guarded(const uint32_t *words, size_t n, size_t size)
{
    return is_junk(words, 0, GUARD) && is_junk(words, GUARD + n, size);
}

#define COUNT(words) (sizeof(words) / sizeof *(words))
#define GUARDED(words, n) guarded(words, n, COUNT(words))

/* One call on the area. It reads the job list, and writes no word but those that it is lent. */
static uint32_t opening(const char *name, size_t area_words, size_t work_words, const uint32_t *jobs, size_t job_words,
                        size_t answer_words)
{
    junk(lent_area, 0, COUNT(lent_area));
    junk(lent_work, 0, COUNT(lent_work));
    junk(lent_jobs, 0, COUNT(lent_jobs));
    junk(lent_answers, 0, COUNT(lent_answers));
    junk(lent_count, 0, COUNT(lent_count));
    memcpy(lent_area + GUARD, area, area_words * sizeof *area);
    memcpy(lent_jobs + GUARD, jobs, job_words * sizeof *jobs);
    uint32_t number = line_admit_jobs(lent_area + GUARD, area_words, lent_work + GUARD, work_words, lent_jobs + GUARD, job_words,
                                      lent_answers + GUARD, answer_words, lent_count + GUARD);
    expect(name, GUARDED(lent_area, area_words), "a word beside the area changed");
    expect(name, GUARDED(lent_work, work_words), "a word beside work memory changed");
    expect(name, GUARDED(lent_jobs, job_words), "a word beside the job list changed");
    expect(name, GUARDED(lent_answers, answer_words), "a word beside the answer buffer changed");
    expect(name, GUARDED(lent_count, 1), "a word beside the number of jobs changed");
    expect(name, memcmp(lent_jobs + GUARD, jobs, job_words * sizeof *jobs) == 0, "a word of the job list changed");
    return number;
}

/* The jobs admitted singly on the area, with work memory and path buffers of the same lengths. */
static void singly(const uint32_t *jobs, size_t count, uint32_t *answers)
{
    memset(answers, 0, LINE_ANSWER_WORDS * count * sizeof *answers);
    for (size_t k = 0; k < count; k++) {
        const uint32_t *j = jobs + LINE_JOB_WORDS * k;
        uint32_t *a = answers + LINE_ANSWER_WORDS * k, numbers[4];
        a[0] = line_admit(area, LINE_AREA_WORDS, work, LINE_WORK_WORDS, a + 5, LINE_PATH_WORDS, j[0], j[1], j[2], j[3], j[4],
                          j[5], j[6], numbers);
        if (a[0] == LINE_GRANTED)
            memcpy(a + 1, numbers, sizeof numbers);
    }
}

/* A granted call, with an answer buffer of as many words as it needs and with longer ones: the number of jobs, the words of each
   answer, which are those of single admissions too, and the words past them, which keep theirs. The area is left as single
   admissions leave it. */
static void opens(const char *name, const uint32_t *jobs, size_t count, const uint32_t *expected)
{
    static const size_t more[] = {0, 1, 35, 36};
    static uint32_t before[LINE_AREA_WORDS], answers[LINE_ANSWER_WORDS * LINE_MOST_JOBS];
    const size_t words = LINE_ANSWER_WORDS * count;
    memcpy(before, area, sizeof area);
    singly(jobs, count, answers);
    expect(name, memcmp(answers, expected, words * sizeof *answers) == 0, "single admissions answer otherwise than by hand");
    memcpy(loaded + 1283, area + 1283, (3459 - 1283) * sizeof *area);
    loaded[2] = area[2];
    for (size_t i = 0; i < COUNT(more); i++) {
        memcpy(area, before, sizeof area);
        uint32_t number = opening(name, LINE_AREA_WORDS, LINE_WORK_WORDS, jobs, LINE_JOB_WORDS * count, words + more[i]);
        expect(name, number == LINE_GRANTED && lent_count[GUARD] == count, "not granted, or another number of jobs");
        expect(name, memcmp(lent_answers + GUARD, expected, words * sizeof *lent_answers) == 0, "other answers than by hand");
        expect(name, is_junk(lent_answers, GUARD + words, COUNT(lent_answers)), "a word past the last answer changed");
        memcpy(area, lent_area + GUARD, sizeof area);
        expect(name, memcmp(area, loaded, sizeof area) == 0, "another area than by single admissions");
    }
}

/* The h circuits stand with these words, and the links have these free units. */
static void stand(const char *name, uint32_t h, const uint32_t (*circuits)[LINE_CIRCUIT_WORDS], const uint32_t units[4])
{
    expect(name, area[2] == h, "another number of circuits");
    expect(name, memcmp(area + 1283, circuits, h * sizeof *circuits) == 0, "other words of circuits than by hand");
    for (uint32_t i = 0; i < 4; i++)
        expect(name, line_free_units(area, LINE_AREA_WORDS, i, answer) == LINE_GRANTED && answer[0] == units[i],
               "other free units");
}

static void load_over_junk(uint32_t n, const uint32_t *links, size_t words, const uint32_t *holds)
{
    junk(area, 0, LINE_AREA_WORDS);
    load(n, links, words, holds);
    memcpy(loaded, area, sizeof area);
}

static const job six_jobs[6] = {{7, 0, 3, 4, 8, 20, 8}, {7, 1, 3, 1, 4, 10, 8}, {2, 0, 3, 3, 9, 1, 1},
                                {9, 0, 3, 7, 8, 20, 8}, {4, 0, 3, 8, 9, 20, 8}, {5, 1, 3, 2, 4, 10, 8}};
static const job_answer six_answers[6] = {{0, 1, 6, 15, 3, 0, 1, 2}, {11}, {0, 1, 9, 1, 1, 3}, {10}, {9}, {0, 1, 4, 10, 2, 1, 2}};

/* O1, and each job alone that it refuses. */
static void on_net_a(void)
{
    static const uint32_t circuits[3][LINE_CIRCUIT_WORDS] = {{2, 3, 1, 3}, {5, 2, 2, 1, 2}, {7, 4, 3, 0, 1, 2}};
    static const uint32_t units[4] = {6, 4, 4, 7};
    static const size_t lone[3] = {1, 3, 4};
    static const job_answer lone_answers[3] = {{0, 1, 4, 10, 2, 1, 2}, {0, 1, 6, 15, 3, 0, 1, 2}, {0, 1, 6, 15, 3, 0, 1, 2}};
    for (size_t i = 0; i < 3; i++) {
        load_over_junk(4, net_a, 20, no_holds);
        opens("O1, a job alone", six_jobs[lone[i]], 1, lone_answers[i]);
    }
    load_over_junk(4, net_a, 20, no_holds);
    opens("O1", six_jobs[0], 6, six_answers[0]);
    stand("O1", 3, circuits, units);
}

/* O2, from the area that O1 leaves. */
static void after_single_calls(void)
{
    static const job jobs[4] = {{3, 0, 0, 1, 8, 20, 8}, {9, 0, 3, 7, 8, 20, 8}, {8, 0, 3, 1, 8, 15, 8}, {1, 1, 3, 1, 4, 10, 8}};
    static const job_answer answers[4] = {{8}, {0, 1, 6, 15, 3, 0, 1, 2}, {0, 2, 6, 15, 3, 0, 1, 2}, {9}};
    static const uint32_t circuits[4][LINE_CIRCUIT_WORDS] = {
        {2, 3, 1, 3}, {5, 2, 2, 1, 2}, {8, 1, 3, 0, 1, 2}, {9, 7, 3, 0, 1, 2}};
    static const uint32_t units[4] = {2, 0, 0, 7};
    expect("O2", line_release(area, LINE_AREA_WORDS, 7) == LINE_GRANTED, "not released");
    opens("O2", jobs[0], 4, answers[0]);
    stand("O2", 4, circuits, units);
}

/* O3. */
static void in_another_order(void)
{
    static const job jobs[2] = {{9, 0, 3, 7, 8, 20, 8}, {7, 0, 3, 4, 8, 20, 8}};
    static const job_answer answers[2] = {{0, 1, 6, 15, 3, 0, 1, 2}, {10}};
    static const uint32_t circuits[1][LINE_CIRCUIT_WORDS] = {{9, 7, 3, 0, 1, 2}};
    static const uint32_t units[4] = {3, 3, 3, 10};
    load_over_junk(4, net_a, 20, no_holds);
    opens("O3", jobs[0], 2, answers[0]);
    stand("O3", 1, circuits, units);
}

/* O4. */
static void on_net_b(void)
{
    static const uint32_t net_b[20] = {1, 2, 0, 1, 5, 2, 1, 0, 1, 5, 1, 3, 1, 1, 5, 0, 1, 1, 1, 5};
    static const job jobs[5] = {{20, 0, 3, 3, 2, 8, 4}, {11, 0, 3, 3, 2, 8, 4}, {12, 0, 3, 2, 2, 8, 4}, {20, 0, 3, 2, 2, 8, 4},
                                {13, 1, 2, 4, 0, 1, 1}};
    static const job_answer answers[5] = {{0, 1, 2, 2, 2, 3, 2}, {9}, {0, 1, 2, 2, 2, 3, 2}, {11}, {0, 1, 0, 1, 1}};
    static const uint32_t circuits[3][LINE_CIRCUIT_WORDS] = {{12, 2, 2, 3, 2}, {13, 4, 1}, {20, 3, 2, 3, 2}};
    static const uint32_t units[4] = {1, 5, 0, 0};
    load_over_junk(4, net_b, 20, no_holds);
    opens("O4", jobs[0], 5, answers[0]);
    stand("O4", 3, circuits, units);
}

/* O5: a list without a job is granted, and the area is as it was. */
static void no_jobs(const char *name)
{
    static uint32_t before[LINE_AREA_WORDS];
    memcpy(before, area, sizeof area);
    opens(name, six_jobs[0], 0, six_answers[0]);
    expect(name, memcmp(area, before, sizeof area) == 0, "a word changed");
}

/* A refused call: its number, and no word is changed but those of work memory. */
static void refuses(const char *name, size_t area_words, size_t work_words, const uint32_t *jobs, size_t job_words,
                    size_t answer_words, uint32_t expected)
{
    uint32_t number = opening(name, area_words, work_words, jobs, job_words, answer_words);
    if (number != expected) {
        printf("%s, %u words: %u, not refused with %u\n", name, (unsigned)job_words, (unsigned)number, (unsigned)expected);
        failures++;
    }
    expect(name, memcmp(lent_area + GUARD, area, area_words * sizeof *area) == 0, "a word of the area changed");
    expect(name, is_junk(lent_answers, 0, COUNT(lent_answers)), "a word of the answer buffer changed");
    expect(name, is_junk(lent_count, 0, COUNT(lent_count)), "the number of jobs is given");
}

/* O6, on the area that O1 leaves. */
static void refused_calls(void)
{
    static const struct {
        size_t job_words, answer_words, less_work, less_area;
        uint32_t number;
    } calls[] = {
        {6, LONG, 0, 0, LINE_JOBS_LENGTH},
        {8, LONG, 0, 0, LINE_JOBS_LENGTH},
        {447, LONG, 0, 0, LINE_JOBS_LENGTH},
        {449, LONG, 0, 0, LINE_JOBS_LENGTH},
        {455, LONG, 0, 0, LINE_JOBS_LENGTH},
        {7, 35, 0, 0, LINE_ANSWERS_TOO_SHORT},
        {42, 215, 0, 0, LINE_ANSWERS_TOO_SHORT},
        {448, 2303, 0, 0, LINE_ANSWERS_TOO_SHORT},
        {8, 0, 0, 0, LINE_JOBS_LENGTH},
        {455, 0, 0, 0, LINE_JOBS_LENGTH},
        {8, 0, 1, 0, LINE_WORK_TOO_SHORT},
        {7, 35, 1, 0, LINE_WORK_TOO_SHORT},
        {8, 0, 1, 1, LINE_AREA_NOT_WELL_FORMED},
    };
    static uint32_t jobs[455];
    memcpy(jobs, six_jobs, sizeof six_jobs);
    load_over_junk(4, net_a, 20, no_holds);
    opens("O6", six_jobs[0], 6, six_answers[0]);
    for (size_t i = 0; i < COUNT(calls); i++)
        refuses("O6", LINE_AREA_WORDS - calls[i].less_area, LINE_WORK_WORDS - calls[i].less_work, jobs, calls[i].job_words,
                calls[i].answer_words, calls[i].number);
    no_jobs("O5, after O1");
    area[2] = 65;
    for (size_t i = 0; i < COUNT(calls); i++)
        refuses("O6, 65 circuits", LINE_AREA_WORDS - calls[i].less_area, LINE_WORK_WORDS - calls[i].less_work, jobs,
                calls[i].job_words, calls[i].answer_words, LINE_AREA_NOT_WELL_FORMED);
    refuses("O6, 65 circuits", LINE_AREA_WORDS, LINE_WORK_WORDS, jobs, 42, LONG, LINE_AREA_NOT_WELL_FORMED);
}

/* O7: as many jobs as a list may have, and as many circuits as may be held. */
static void a_full_list(void)
{
    static const uint32_t link[5] = {0, 1, 1, 1, 64}, holds[2] = {11, 12};
    static const job more[4] = {
        {65, 0, 1, 1, 8, 20, 8}, {66, 0, 1, 1, 8, 20, 8}, {65, 0, 1, 1, 8, 20, 8}, {0, 0, 1, 1, 8, 20, 8}};
    static const job_answer more_answers[4] = {{0, 1, 1, 1, 1}, {12}, {11}, {11}};
    static job jobs[64];
    static job_answer answers[64];
    for (uint32_t k = 0; k < 64; k++) {
        const job j = {64 - k, 0, 1, 1, 8, 20, 8};
        const job_answer a = {0, 1, 1, 1, 1};
        memcpy(jobs[k], j, sizeof j);
        memcpy(answers[k], a, sizeof a);
    }
    load_over_junk(2, link, 5, holds);
    opens("O7", jobs[0], 64, answers[0]);
    for (uint32_t k = 1; k <= 64; k++) {
        const uint32_t circuit[LINE_CIRCUIT_WORDS] = {k, 1, 1};
        expect("O7", memcmp(area + 1283 + 34 * (k - 1), circuit, sizeof circuit) == 0, "other words of a circuit than by hand");
    }
    expect("O7", area[2] == 64 && area[3459] == 11 && area[3460] == 12, "not 64 circuits and the hold times");
    expect("O7", line_release(area, LINE_AREA_WORDS, 33) == LINE_GRANTED, "not released");
    opens("O7, one place", more[0], 4, more_answers[0]);
    uint32_t numbers[64] = {0};
    expect("O7, one place", line_list(area, LINE_AREA_WORDS, numbers, 64, answer) == LINE_GRANTED && answer[0] == 64,
           "not 64 circuits");
    for (uint32_t i = 0; i < 64; i++)
        expect("O7, one place", numbers[i] == (i < 32 ? i + 1 : i + 2), "another listing than by hand");
}

int main(void)
{
    on_net_a();
    after_single_calls();
    in_another_order();
    on_net_b();
    load_over_junk(4, net_a, 20, no_holds);
    no_jobs("O5, as loaded");
    refused_calls();
    a_full_list();
    return failures != 0;
}
