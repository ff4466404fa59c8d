/* The cases of docs/steady-list.md through the C interface: the figures are copied from there. */
#include "support.h"

/* A circuit's words; those that are not written out are 0. */
static const uint32_t two[34] = {2, 3, 1, 3}, five[34] = {5, 2, 2, 1, 2}, seven[34] = {7, 4, 3, 0, 1, 2};
static const uint32_t long_path[3] = {0, 1, 2}, straight[1] = {3}, last_links[2] = {1, 2};

/* What the area was after its load. */
static uint32_t loaded[LINE_AREA_WORDS];

/* Words from one place to before another that are nobody's: no two alike, and none of them 0 or in a range of the area. */
static void junk(size_t from, size_t to)
{
    for (size_t i = from; i < to; i++)
        area[i] = 0x80000000u + (uint32_t)i;
}

static void load_over_junk(uint32_t n, const uint32_t *links, size_t words, const uint32_t *holds)
{
    junk(0, LINE_AREA_WORDS);
    load(n, links, words, holds);
    memcpy(loaded, area, sizeof area);
}

/* Admits circuit 2, 5 or 7 of the text; a number below 0 is released. */
static void call(const char *name, int number)
{
    if (number == 7)
        granted(name, admit(7, 0, 3, 4, 8, 20, 8), 1, 6, 15, long_path, 3);
    else if (number == 2)
        granted(name, admit(2, 0, 3, 3, 9, 1, 1), 1, 9, 1, straight, 1);
    else if (number == 5)
        granted(name, admit(5, 1, 3, 2, 4, 10, 8), 1, 4, 10, last_links, 2);
    else
        expect(name, line_release(area, LINE_AREA_WORDS, (uint32_t)-number) == LINE_GRANTED, "not released");
}

/* The h circuits have these words and are listed in this order. Before word 1,283 and past word 3,458 all is as loaded but h.
   What may be anything behind the last circuit is made junk for the next call. */
static void stand(const char *name, uint32_t h, const uint32_t *const *circuits)
{
    uint32_t numbers[64] = {0}, held[1] = {0};
    expect(name, line_list(area, LINE_AREA_WORDS, numbers, 64, held) == LINE_GRANTED && held[0] == h, "not listed");
    expect(name, area[2] == h, "another number of circuits");
    for (uint32_t j = 0; j < h; j++) {
        expect(name, memcmp(area + 1283 + 34 * j, circuits[j], sizeof two) == 0, "other words of a circuit than by hand");
        expect(name, numbers[j] == circuits[j][0], "another listing than by hand");
    }
    loaded[2] = h;
    expect(name, memcmp(area, loaded, 1283 * sizeof *area) == 0, "a word before the circuits changed");
    expect(name, memcmp(area + 3459, loaded + 3459, 32 * sizeof *area) == 0, "a word past the circuits changed");
    junk(1283 + 34 * h, 3459);
}

static void free_units(const char *name, uint32_t link, uint32_t units)
{
    expect(name, line_free_units(area, LINE_AREA_WORDS, link, answer) == LINE_GRANTED && answer[0] == units, "other free units");
}

/* S1 and S2, which begins with the words that S1 ends with. */
static void in_and_out(void)
{
    const uint32_t *const all[3] = {two, five, seven}, *const outer[2] = {two, seven};
    const uint32_t *const high[1] = {seven}, *const low[1] = {two};
    load_over_junk(4, net_a, 20, no_holds);
    call("S1, 7", 7);
    stand("S1, 7", 1, high);
    call("S1, 2", 2);
    stand("S1, 2", 2, outer);
    call("S1, 5", 5);
    stand("S1, 5", 3, all);
    free_units("S1, link 0", 0, 6);
    free_units("S1, link 1", 1, 4);
    free_units("S1, link 2", 2, 4);
    free_units("S1, link 3", 3, 7);
    call("S2, release 5", -5);
    stand("S2, release 5", 2, outer);
    free_units("S2, link 1", 1, 6);
    free_units("S2, link 2", 2, 6);
    call("S2, release 2", -2);
    stand("S2, release 2", 1, high);
    call("S2, release 7", -7);
    expect("S2, release 7", area[2] == 0, "a circuit is held");
    /* the words that 7 left, as they may still be there */
    memcpy(area + 1283, seven, sizeof seven);
    call("S2, admit 2", 2);
    stand("S2, admit 2", 1, low);
}

/* S3: the words of 2 and 7, and of 2, 5 and 7, by every way of the text. */
static void other_ways(void)
{
    static const int ways[4][4] = {{2, 7}, {7, 5, 2, -5}, {5, 2, -5, 7}, {7, 2, -7, 7}};
    static const int orders[6][3] = {{2, 5, 7}, {2, 7, 5}, {5, 2, 7}, {5, 7, 2}, {7, 2, 5}, {7, 5, 2}};
    const uint32_t *const all[3] = {two, five, seven}, *const outer[2] = {two, seven};
    for (size_t i = 0; i < 4; i++) {
        load_over_junk(4, net_a, 20, no_holds);
        for (size_t j = 0; j < 4 && ways[i][j] != 0; j++)
            call("S3, 2 and 7", ways[i][j]);
        stand("S3, 2 and 7", 2, outer);
    }
    for (size_t i = 0; i < 6; i++) {
        load_over_junk(4, net_a, 20, no_holds);
        for (size_t j = 0; j < 3; j++)
            call("S3, 2, 5 and 7", orders[i][j]);
        stand("S3, 2, 5 and 7", 3, all);
    }
}

/* Net A with these three circuits, their words written and not admitted. */
static void written(const uint32_t *first, const uint32_t *second, const uint32_t *third)
{
    load_over_junk(4, net_a, 20, no_holds);
    memcpy(area + 1283, first, sizeof two);
    memcpy(area + 1317, second, sizeof two);
    memcpy(area + 1351, third, sizeof two);
    area[2] = 3;
}

/* Every call on the area gives 5, and its words stay. */
static void damaged(const char *name)
{
    uint32_t before[LINE_AREA_WORDS], numbers[64], codes[5];
    memcpy(before, area, sizeof area);
    codes[0] = quote(0, 3, 1, 8, 20, 8);
    codes[1] = line_list(area, LINE_AREA_WORDS, numbers, 64, answer);
    codes[2] = line_free_units(area, LINE_AREA_WORDS, 0, answer);
    codes[3] = admit(9, 0, 3, 1, 8, 20, 8);
    codes[4] = line_release(area, LINE_AREA_WORDS, 2);
    for (size_t i = 0; i < 5; i++)
        expect(name, codes[i] == LINE_AREA_NOT_WELL_FORMED, "not refused with 5");
    expect(name, memcmp(before, area, sizeof area) == 0, "a word changed");
}

static void word_damaged(const char *name, size_t word, uint32_t contents)
{
    written(two, five, seven);
    area[word] = contents;
    damaged(name);
}

/* S4, and the areas beside it that are well formed. */
static void not_well_formed(void)
{
    const uint32_t *const all[3] = {two, five, seven};
    uint32_t other_five[34];
    written(five, two, seven);
    damaged("S4, 5 2 7");
    written(two, seven, five);
    damaged("S4, 2 7 5");
    word_damaged("S4, 2 2 7", 1317, 2);
    word_damaged("S4, 2 7 7", 1317, 7);
    for (size_t word = 1287; word <= 1316; word++)
        word_damaged("S4, unused path word of 2", word, 1);
    for (size_t word = 1322; word <= 1350; word++)
        word_damaged("S4, unused path word of 5", word, 1);
    for (size_t word = 1357; word <= 1384; word++)
        word_damaged("S4, unused path word of 7", word, 1);

    written(two, five, seven);
    stand("S4, undamaged", 3, all);
    memcpy(other_five, five, sizeof five);
    for (uint32_t number = 3; number <= 6; number += 3) {
        const uint32_t *const renumbered[3] = {two, other_five, seven};
        other_five[0] = number;
        written(two, other_five, seven);
        stand("S4, renumbered", 3, renumbered);
    }
}

/* Circuit k stands at place k - first, for each k from first to last. */
static void in_a_row(const char *name, uint32_t first, uint32_t last)
{
    uint32_t words[64][34] = {{0}};
    const uint32_t *circuits[64];
    for (uint32_t k = first; k <= last; k++) {
        words[k - first][0] = k;
        words[k - first][1] = 1;
        words[k - first][2] = 1;
        circuits[k - first] = words[k - first];
    }
    stand(name, last - first + 1, circuits);
}

static void over_one_link(const char *name, uint32_t circuit)
{
    static const uint32_t link[1] = {0};
    granted(name, admit(circuit, 0, 1, 1, 8, 20, 8), 1, 1, 1, link, 1);
}

/* S5: as many circuits as may be held, the lowest number last. */
static void full(void)
{
    static const uint32_t link[5] = {0, 1, 1, 1, 64}, holds[2] = {11, 12};
    load_over_junk(2, link, 5, holds);
    for (uint32_t circuit = 64; circuit >= 1; circuit--)
        over_one_link("S5", circuit);
    in_a_row("S5", 1, 64);
    expect("S5", area[3425] == 64 && area[3459] == 11 && area[3460] == 12, "not the last circuit and the hold times");
    call("S5, release 1", -1);
    in_a_row("S5, release 1", 2, 64);
    expect("S5, release 1", area[3391] == 64, "not the last circuit");
    call("S5, release 64", -64);
    in_a_row("S5, release 64", 2, 63);
    over_one_link("S5, 64 again", 64);
    in_a_row("S5, 64 again", 2, 64);
    over_one_link("S5, 1 again", 1);
    in_a_row("S5, 1 again", 1, 64);
}

int main(void)
{
    in_and_out();
    other_ways();
    not_well_formed();
    full();
    return failures != 0;
}
