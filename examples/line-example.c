/*
 * The C interface on document 01's net A: its link file is read and loaded without hold times, and then come quotes, an
 * admission, a listing and a release. Then a shop opens with all its jobs in one call. Last the net is loaded anew with a
 * hold time for node 1, as of a radio repeater. The names M1 to M9 are document 01's cases; line-example.expected has its
 * figures, and what follows from its rules.
 *
 *     tests/support/archive
 *     cc -Wall -Wextra -Werror -Iinclude examples/line-example.c target/staticlib/libline.a -o line-example
 *     ./line-example examples/net-a.rtlk
 */
#include "line.h"

#include <stdio.h>

static uint32_t area[LINE_AREA_WORDS];
static uint32_t work[LINE_WORK_WORDS];
static uint32_t path[LINE_PATH_WORDS];
static uint32_t table[LINE_TABLE_WORDS];
/* The hold time of each node, in ms: 0 but where main sets it. */
static uint32_t holds[LINE_MOST_NODES];
static uint8_t file[65536];

/* The refusal, or problem, delay, cost and links. */
static void print_answer(const char *name, uint32_t refusal, const uint32_t answer[4], const uint32_t *links)
{
    if (refusal != LINE_GRANTED) {
        printf("%s: refused %u\n", name, (unsigned)refusal);
        return;
    }
    printf("%s: problem %u, delay %u, cost %u, links", name, (unsigned)answer[0], (unsigned)answer[1],
           (unsigned)answer[2]);
    for (uint32_t i = 0; i < answer[3]; i++)
        printf(" %u", (unsigned)links[i]);
    printf("\n");
}

/* A quote from 0 to t. */
static void quote(const char *name, uint32_t t, uint32_t units, uint32_t delay_bound, uint32_t cost_bound,
                  uint32_t coefficient)
{
    uint32_t answer[4];
    uint32_t refusal = line_quote(area, LINE_AREA_WORDS, work, LINE_WORK_WORDS, path, LINE_PATH_WORDS, 0, t, units,
                                  delay_bound, cost_bound, coefficient, answer);
    print_answer(name, refusal, answer, path);
}

static void admit(const char *name, uint32_t circuit, uint32_t units)
{
    uint32_t answer[4];
    uint32_t refusal = line_admit(area, LINE_AREA_WORDS, work, LINE_WORK_WORDS, path, LINE_PATH_WORDS, circuit, 0, 3,
                                  units, 8, 20, 8, answer);
    print_answer(name, refusal, answer, path);
}

/* All jobs in one call, and what each is answered: its refusal's number or 0, the four numbers of a grant, and the path. The
   first takes 4 units of links 0 1 2. The second needs 7, which link 3 alone has, and that takes 9 ms; the third is the same
   job with a delay bound of 9. */
static void open_shop(void)
{
    static const uint32_t jobs[3 * LINE_JOB_WORDS] = {
        7, 0, 3, 4, 8, 20, 8, /* circuit, s, t, units, delay bound, cost bound, coefficient */
        9, 0, 3, 7, 8, 20, 8,
        9, 0, 3, 7, 9, 20, 8,
    };
    uint32_t answers[3 * LINE_ANSWER_WORDS], count[1];
    uint32_t refusal = line_admit_jobs(area, LINE_AREA_WORDS, work, LINE_WORK_WORDS, jobs, 3 * LINE_JOB_WORDS, answers,
                                       3 * LINE_ANSWER_WORDS, count);
    if (refusal != LINE_GRANTED) {
        printf("jobs refused %u\n", (unsigned)refusal);
        return;
    }
    printf("jobs: %u\n", (unsigned)count[0]);
    for (uint32_t k = 0; k < count[0]; k++) {
        const uint32_t *said = answers + LINE_ANSWER_WORDS * k;
        char name[32];
        snprintf(name, sizeof name, "job %u, circuit %u", (unsigned)k, (unsigned)jobs[LINE_JOB_WORDS * k]);
        print_answer(name, said[0], said + 1, said + 5);
    }
}

static void list(void)
{
    uint32_t numbers[LINE_MOST_CIRCUITS];
    uint32_t held[1];
    if (line_list(area, LINE_AREA_WORDS, numbers, LINE_MOST_CIRCUITS, held) != LINE_GRANTED)
        return;
    printf("held: %u circuits", (unsigned)held[0]);
    for (uint32_t i = 0; i < held[0]; i++)
        printf(", number %u", (unsigned)numbers[i]);
    printf("\n");
}

static void free_units(uint32_t link)
{
    uint32_t units[1];
    uint32_t refusal = line_free_units(area, LINE_AREA_WORDS, link, units);
    if (refusal != LINE_GRANTED)
        printf("free units of link %u: refused %u\n", (unsigned)link, (unsigned)refusal);
    else
        printf("free units of link %u: %u\n", (unsigned)link, (unsigned)units[0]);
}

/* Loads the table with the hold times. A file may name more nodes than there are hold times here; its n is then refused. */
static int load(const uint32_t size[2])
{
    size_t hold_words = size[0] < LINE_MOST_NODES ? size[0] : LINE_MOST_NODES;
    uint32_t refusal = line_load(size[0], table, LINE_LINK_WORDS * (size_t)size[1], holds, hold_words, area,
                                 LINE_AREA_WORDS);
    if (refusal != LINE_GRANTED)
        printf("load refused %u\n", (unsigned)refusal);
    return refusal == LINE_GRANTED;
}

/* Reads the link file. */
static int read_file(const char *name, uint32_t size[2])
{
    FILE *stream = fopen(name, "rb");
    if (stream == NULL) {
        perror(name);
        return 0;
    }
    size_t bytes = fread(file, 1, sizeof file, stream);
    fclose(stream);
    uint32_t refusal = line_read_link_file(file, bytes, table, LINE_TABLE_WORDS, size);
    if (refusal != LINE_GRANTED) {
        printf("file refused %u\n", (unsigned)refusal);
        return 0;
    }
    printf("file: %u nodes, %u links\n", (unsigned)size[0], (unsigned)size[1]);
    return 1;
}

int main(int argc, char **argv)
{
    uint32_t classes[LINE_SAMPLE_WORDS], card[4], size[2];
    if (argc != 2 || !read_file(argv[1], size) || !load(size))
        return 1;

    line_sample_classes(classes);
    if (line_class(classes, LINE_SAMPLE_WORDS, 0, card) == LINE_GRANTED)
        printf("card: %u units, D %u, C %u, coefficient %u\n", (unsigned)card[0], (unsigned)card[1],
               (unsigned)card[2], (unsigned)card[3]);
    quote("M1", 3, 1, 8, 20, 5);
    quote("M2", 3, 1, 8, 20, 6);
    quote("M4", 3, 1, 8, 15, 8);
    quote("M5", 3, 1, 8, 14, 8);
    quote("M7 with 10 units", 3, 10, 8, 20, 8);
    quote("M7 with 11 units", 3, 11, 8, 20, 8);
    quote("M9", 0, 1, 8, 20, 8);

    admit("M3 admitted with 4 units", 7, 4);
    list();
    free_units(0);
    free_units(3);
    free_units(4);
    quote("M8 with 6 units", 3, 6, 8, 20, 8);
    quote("M8 with 7 units", 3, 7, 8, 20, 8);
    quote("M8 with 7 units and delay bound 9", 3, 7, 9, 20, 8);
    admit("number 7 again", 7, 1);

    printf("release: %u\n", (unsigned)line_release(area, LINE_AREA_WORDS, 7));
    printf("release again: refused %u\n", (unsigned)line_release(area, LINE_AREA_WORDS, 7));
    list();
    free_units(0);

    open_shop();
    list();
    free_units(0);
    free_units(3);

    /* Node 1 lies between 0 and 3 on links 0 1 2, whose delay grows from 6 to 10: over D, so link 3 is left. From 0 to 1
       it is the target, and its hold time does not count. */
    quote("M6", 3, 1, 9, 20, 8);
    quote("from 0 to 1", 1, 1, 9, 20, 8);
    holds[1] = 4;
    if (!load(size))
        return 1;
    quote("M6, node 1 holds 4 ms", 3, 1, 9, 20, 8);
    quote("from 0 to 1, node 1 holds 4 ms", 1, 1, 9, 20, 8);
    return 0;
}
