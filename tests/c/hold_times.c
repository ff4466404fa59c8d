/* The cases of hold times of docs/hold-times.md through the C interface: the figures are copied from there. */
#include "support.h"

static const uint32_t net_h[30] = {0, 1, 2, 5, 10, 1, 3, 2, 5, 10, 0, 2, 3, 6, 10, 2, 3, 2, 3, 10, 3, 1, 0, 1, 10, 1, 0, 0, 1, 10};
static const uint32_t none[4] = {0, 0, 0, 0}, inner[4] = {0, 5, 1, 0}, all[4] = {1000000, 5, 1, 1000000};
static const uint32_t short_path[2] = {0, 1}, cheap_path[2] = {2, 3}, round_path[2] = {3, 4}, instant[2] = {4, 5};

/* H9: the path with less delay is full, and the hold words stay as they are; the inner hold times are loaded. */
static void booked(void)
{
    granted("H9", admit(1, 0, 3, 10, 10, 20, 8), 1, 6, 9, cheap_path, 2);
    granted("H9, links 2 and 3 full", quote(0, 3, 1, 10, 20, 8), 1, 9, 10, short_path, 2);
    refused("H9, within 8", quote(0, 3, 1, 8, 20, 8));
    expect("H9", line_release(area, LINE_AREA_WORDS, 1) == LINE_GRANTED, "not released");
    expect("H9", memcmp(area + LINE_FIRST_HOLD, inner, sizeof inner) == 0, "a hold word changed");
}

/* H6: 32 nodes in a row, every delay and every hold time as long as may be. */
static void longest(void)
{
    uint32_t row[31 * LINE_LINK_WORDS], holds[LINE_MOST_NODES], links[31];
    for (uint32_t i = 0; i < 31; i++) {
        const uint32_t link[LINE_LINK_WORDS] = {i, i + 1, 1000000, 0, 10};
        memcpy(row + LINE_LINK_WORDS * i, link, sizeof link);
        links[i] = i;
    }
    for (uint32_t v = 0; v < LINE_MOST_NODES; v++)
        holds[v] = 1000000;
    load(LINE_MOST_NODES, row, sizeof row / sizeof *row, holds);
    granted("H6", quote(0, 31, 1, 61000000, 31000000, 8), 1, 61000000, 0, links, 31);
    refused("H6, one less", quote(0, 31, 1, 60999999, 31000000, 8));
}

int main(void)
{
    load(4, net_h, 30, none);
    granted("H1, none", quote(0, 3, 1, 4, 20, 8), 1, 4, 10, short_path, 2);
    granted("H3, none", quote(0, 3, 1, 8, 10, 1), 1, 4, 10, short_path, 2);
    granted("H4, none", quote(0, 3, 1, 10, 20, 8), 1, 4, 10, short_path, 2);
    granted("H7, none", quote(0, 3, 1, 6, 9, 8), 2, 5, 9, cheap_path, 2);
    granted("H8, none", quote(3, 0, 1, 0, 20, 8), 1, 0, 2, instant, 2);
    load(4, net_h, 30, inner);
    refused("H1", quote(0, 3, 1, 4, 20, 8));
    granted("H2, node 3 without a hold time", quote(2, 1, 1, 2, 20, 8), 1, 2, 4, round_path, 2);
    granted("H3", quote(0, 3, 1, 8, 10, 1), 2, 6, 9, cheap_path, 2);
    granted("H4", quote(0, 3, 1, 10, 20, 8), 1, 6, 9, cheap_path, 2);
    granted("H5", quote(0, 3, 1, 6, 20, 8), 1, 6, 9, cheap_path, 2);
    refused("H5, one less", quote(0, 3, 1, 5, 20, 8));
    refused("H7", quote(0, 3, 1, 6, 9, 8));
    granted("H7, one more", quote(0, 3, 1, 7, 9, 8), 2, 6, 9, cheap_path, 2);
    refused("H8", quote(3, 0, 1, 0, 20, 8));
    granted("H8, the hold time", quote(3, 0, 1, 5, 20, 8), 1, 5, 2, instant, 2);
    booked();
    load(4, net_h, 30, all);
    refused("H2, as H1", quote(0, 3, 1, 4, 20, 8));
    granted("H2, as H3", quote(0, 3, 1, 8, 10, 1), 2, 6, 9, cheap_path, 2);
    granted("H2, as H4", quote(0, 3, 1, 10, 20, 8), 1, 6, 9, cheap_path, 2);
    granted("H2, one link", quote(0, 1, 1, 2, 20, 8), 1, 2, 5, short_path, 1);
    granted("H2, by node 3", quote(2, 1, 1, 1000002, 20, 8), 1, 1000002, 4, round_path, 2);
    refused("H2, by node 3, one less", quote(2, 1, 1, 1000001, 20, 8));
    granted("H8, no inner node", quote(3, 1, 1, 0, 20, 8), 1, 0, 1, instant, 1);
    longest();
    return failures != 0;
}
