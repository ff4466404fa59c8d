/*
 * A chain's own class table in place of the sample table: the table is read from a text, a row of four numbers a line,
 * and checked; then each of its classes is quoted from node 0 to node n - 1 over the links of a link file. The lines
 * are those of the class program: class, problem, delay, cost, links; refused: class, 0, number.
 *
 *     tests/support/archive
 *     cc -Wall -Wextra -Werror -Iinclude examples/own-classes.c target/staticlib/libline.a -o own-classes
 *     ./own-classes examples/rural.rtlk examples/own-classes.txt
 */
#include "line.h"

#include <stdio.h>

static uint32_t area[LINE_AREA_WORDS];
static uint32_t work[LINE_WORK_WORDS];
static uint32_t path[LINE_PATH_WORDS];
static uint32_t table[LINE_TABLE_WORDS];
/* One row more than a class table may have, so that a longer one shows. */
static uint32_t rows[LINE_CLASS_WORDS + LINE_ROW_WORDS];
static uint8_t file[65536];
/* No node of the station holds a message. */
static const uint32_t holds[LINE_MOST_NODES];

/* Reads the link file and loads it; gives n, or 0 where it is refused. */
static uint32_t load(const char *name)
{
    uint32_t size[2];
    FILE *stream = fopen(name, "rb");
    if (stream == NULL) {
        perror(name);
        return 0;
    }
    size_t bytes = fread(file, 1, sizeof file, stream);
    fclose(stream);
    uint32_t refusal = line_read_link_file(file, bytes, table, LINE_TABLE_WORDS, size);
    /* A file may name more nodes than there are hold times here; its n is then refused. */
    if (refusal == LINE_GRANTED)
        refusal = line_load(size[0], table, LINE_LINK_WORDS * (size_t)size[1], holds,
                            size[0] < LINE_MOST_NODES ? size[0] : LINE_MOST_NODES, area, LINE_AREA_WORDS);
    if (refusal != LINE_GRANTED)
        printf("station %u\n", (unsigned)refusal);
    return refusal == LINE_GRANTED ? size[0] : 0;
}

/* Reads the numbers of the class table, without lines that begin with #; gives how many they are. */
static size_t read_rows(const char *name)
{
    char line[256];
    size_t words = 0;
    FILE *stream = fopen(name, "r");
    if (stream == NULL) {
        perror(name);
        return 0;
    }
    while (fgets(line, sizeof line, stream) != NULL) {
        unsigned row[LINE_ROW_WORDS];
        int numbers = line[0] == '#' ? 0 : sscanf(line, "%u %u %u %u", row, row + 1, row + 2, row + 3);
        for (int i = 0; i < numbers && words < LINE_CLASS_WORDS + LINE_ROW_WORDS; i++)
            rows[words++] = row[i];
    }
    fclose(stream);
    return words;
}

/* The line of a class whose row is given. */
static void quote(uint32_t n, uint32_t service_class, const uint32_t row[4])
{
    uint32_t answer[4];
    uint32_t refusal = line_quote(area, LINE_AREA_WORDS, work, LINE_WORK_WORDS, path, LINE_PATH_WORDS, 0, n - 1,
                                  row[0], row[1], row[2], row[3], answer);
    if (refusal != LINE_GRANTED) {
        printf("%u 0 %u\n", (unsigned)service_class, (unsigned)refusal);
        return;
    }
    printf("%u %u %u %u", (unsigned)service_class, (unsigned)answer[0], (unsigned)answer[1], (unsigned)answer[2]);
    for (uint32_t i = 0; i < answer[3]; i++)
        printf(" %u", (unsigned)path[i]);
    printf("\n");
}

int main(int argc, char **argv)
{
    uint32_t n = argc == 3 ? load(argv[1]) : 0;
    if (n == 0)
        return 1;
    size_t words = read_rows(argv[2]);
    uint32_t refusal = line_check_classes(rows, words);
    if (refusal != LINE_GRANTED) {
        printf("classes %u\n", (unsigned)refusal);
        return 1;
    }
    uint32_t row[4];
    for (uint32_t k = 0; line_class(rows, words, k, row) == LINE_GRANTED; k++)
        quote(n, k, row);
    return 0;
}
