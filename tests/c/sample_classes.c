/*
 * The sample table as C gets it, against document 01's figures, which stand here as its text has them: the words that
 * line_sample_classes writes, the rows that line_class gives of them, and no row more.
 */
#include "line.h"

#include <stdio.h>
#include <string.h>

/* Units, D, C and coefficient: card, PIN, tank, prices, service, pictures. */
static const uint32_t document01[6][4] = {
    {1, 400, 60, 8}, {1, 250, 80, 8}, {2, 2000, 40, 4}, {2, 5000, 30, 2}, {8, 800, 300, 6}, {16, 3000, 600, 2},
};

static int failures = 0;

static void expect(const char *what, int holds)
{
    if (!holds) {
        printf("sample table: %s\n", what);
        failures++;
    }
}

int main(void)
{
    uint32_t rows[LINE_SAMPLE_WORDS + 2], row[4];
    memset(rows, 0xff, sizeof rows);
    expect("not written", line_sample_classes(rows + 1) == LINE_GRANTED);
    expect("a word beside it was written", rows[0] == UINT32_MAX && rows[LINE_SAMPLE_WORDS + 1] == UINT32_MAX);
    expect("not six rows", LINE_SAMPLE_WORDS == sizeof document01 / sizeof document01[0][0]);
    expect("not document 01's words", memcmp(rows + 1, document01, sizeof document01) == 0);
    expect("not accepted", line_check_classes(rows + 1, LINE_SAMPLE_WORDS) == LINE_GRANTED);
    for (uint32_t k = 0; k < 6; k++) {
        expect("a class is refused", line_class(rows + 1, LINE_SAMPLE_WORDS, k, row) == LINE_GRANTED);
        expect("not document 01's row", memcmp(row, document01[k], sizeof row) == 0);
    }
    expect("a seventh class", line_class(rows + 1, LINE_SAMPLE_WORDS, 6, row) == LINE_NO_SUCH_CLASS);
    if (failures == 0)
        printf("the sample table is document 01's\n");
    return failures != 0;
}
