/* The cases of docs/paper-lines.md through the C interface: the figures are copied from there. */
#include "support.h"

static const uint32_t net_p[40] = {2, 3, 2, 0, 9, 1, 2, 2, 0, 9, 0, 1, 2, 1, 9, 0, 1, 2, 0, 9,
                                   0, 1, 2, 0, 9, 0, 3, 8, 0, 9, 0, 2, 1, 0, 0, 1, 3, 1, 2, 9};

/* P1 to P3: the bound of delay, and the words of the table that the quote leaves, a row for each node. */
static const char *const names[3] = {"P1", "P2", "P3"};
static const uint32_t delay_bounds[3] = {6, 4, 2};
static const uint32_t tables[3][24] = {
    {0, 256, 0, 256, 0, 256,
     2, 3, 2, 2, 2, 2,
     4, 1, 4, 1, 4, 1,
     6, 0, 6, 0, 3, 7},
    {0, 256, 0, 256, 0, 256,
     2, 3, 2, 2, 2, 2,
     4, 1, 4, 1, 4, 1,
     5, 256, 5, 256, 3, 7},
    {0, 256, 0, 256, 0, 256,
     3, 256, 3, 256, 0, 3,
     3, 256, 3, 256, 3, 256,
     3, 256, 3, 256, 3, 256},
};

/* Work memory of words that are nobody's: no two alike, and none of them a number or a link of the net. */
static void junk(void)
{
    for (size_t i = 0; i < LINE_WORK_WORDS; i++)
        work[i] = 0x80000000u + (uint32_t)i;
}

/* The quote of a case in the work memory as it is, with its answer and the words that it leaves. */
static void quoted(size_t k)
{
    static const uint32_t links[2] = {3, 7};
    uint32_t number = quote(0, 3, 1, delay_bounds[k], 2, 2);
    if (k == 2)
        refused(names[k], number);
    else
        granted(names[k], number, 1, 3, 2, links, 2);
    expect(names[k], memcmp(work, tables[k], sizeof tables[k]) == 0, "other words of the table than by hand");
}

int main(void)
{
    /* each in what another problem left */
    static const size_t again[4] = {0, 2, 1, 2};
    load(4, net_p, 40, no_holds);
    for (size_t k = 0; k < 3; k++) {
        junk();
        quoted(k);
    }
    for (size_t i = 0; i < 4; i++)
        quoted(again[i]);
    return failures != 0;
}
