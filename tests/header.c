/* Calls each function through include/nettlestair.h: the header says what the library takes and gives. */
#include <nettlestair.h>
#include <stdio.h>
#include <string.h>

static int failures = 0;

static void expect(const char *what, int holds) {
    if (!holds) {
        printf("tests/header.c: %s\n", what);
        failures++;
    }
}

/* Whether the entries of a list from i on are as memset(list, 99, sizeof list) left them. */
#define LEFT(list, i) all_99((const uint8_t *)((list) + (i)), (const uint8_t *)(list) + sizeof(list))

static int all_99(const uint8_t *from, const uint8_t *end) {
    while (from < end && *from == 99)
        from++;
    return from == end;
}

int main(void) {
    /* figure 5(b), in colours of which the second differs from the first in the high byte alone */
    const uint16_t raster[16] = {1, 1, 1, 1, 1, 257, 1, 1, 1, 1, 65535, 65535, 1, 1, 65535, 65535};
    const uint32_t codes[7] = {0, 1, 2, 3, 4, 8, 12};
    const uint8_t levels[7] = {0, 0, 0, 0, 1, 1, 1};
    const uint16_t colours[7] = {1, 1, 1, 257, 1, 1, 65535};
    uint32_t c[16];
    uint8_t l[16];
    uint16_t k[17], r[17];
    memset(k, 99, sizeof k);
    memset(r, 99, sizeof r);

    expect("code", nettlestair_code(3, 5) == 39);
    expect("code, all digits of x", nettlestair_code(65535, 0) == 0x55555555);
    expect("code, all digits of y", nettlestair_code(0, 65535) == 0xAAAAAAAA);

    expect("check", nettlestair_check(2, codes, 7, levels, 7, colours, 7) == 0);
    expect("check, lists of unlike lengths", nettlestair_check(2, codes, 7, levels, 6, colours, 7) == 2);
    expect("check, an empty list", nettlestair_check(2, codes, 0, levels, 0, colours, 0) == 6);

    struct nettlestair_written w = nettlestair_blocks_from_raster(2, raster, 16, c, 16, l, 16, k, 17);
    expect("blocks from raster, answer", w.number == 0 && w.count == 7);
    expect("blocks from raster, codes and levels", !memcmp(c, codes, sizeof codes) && !memcmp(l, levels, sizeof levels));
    expect("blocks from raster, colours", !memcmp(k, colours, sizeof colours) && k[7] == 0x6363);

    w = nettlestair_raster_from_blocks(2, codes, 7, levels, 7, colours, 7, r, 17);
    expect("raster from blocks, answer", w.number == 0 && w.count == 16);
    expect("raster from blocks, raster", !memcmp(r, raster, sizeof raster) && r[16] == 0x6363);

    w = nettlestair_raster_from_blocks(2, codes, 7, levels, 7, colours, 7, r, 15);
    expect("raster from blocks, too short", w.number == 8 && w.count == 0);

    /* the same raster in block order, and back; the refusals leave what was written */
    const uint16_t block_order[17] = {1, 1, 1, 257, 1, 1, 1, 1, 1, 1, 1, 1, 65535, 65535, 65535, 65535, 0x6363};
    memset(k, 99, sizeof k);
    memset(r, 99, sizeof r);
    w = nettlestair_to_block_order(2, raster, 16, k, 17);
    expect("to block order, answer", w.number == 0 && w.count == 16);
    expect("to block order, stored", !memcmp(k, block_order, sizeof block_order));
    w = nettlestair_from_block_order(2, k, 16, r, 17);
    expect("from block order, answer", w.number == 0 && w.count == 16);
    expect("from block order, raster", !memcmp(r, raster, sizeof raster) && r[16] == 0x6363);
    w = nettlestair_to_block_order(2, raster, 16, r, 15);
    expect("to block order, too short", w.number == 8 && w.count == 0);
    w = nettlestair_to_block_order(2, raster, 15, r, 15);
    expect("to block order, a raster too short", w.number == 9 && w.count == 0);
    w = nettlestair_from_block_order(2, block_order, 16, k, 15);
    expect("from block order, too short", w.number == 8 && w.count == 0);
    w = nettlestair_from_block_order(2, block_order, 17, k, 17);
    expect("from block order, a stored raster too long", w.number == 9 && w.count == 0);
    expect("from block order, n above 8", nettlestair_from_block_order(9, block_order, 17, k, 0).number == 1);
    expect("block order, refusals", !memcmp(k, block_order, sizeof block_order) && !memcmp(r, raster, sizeof raster));

    /* a raster of 8 by 8: the two ways differ there */
    uint16_t rows[64], stored[64] = {0}, back[64] = {0};
    for (int i = 0; i < 64; i++)
        rows[i] = i;
    const int first_row[8] = {0, 1, 4, 5, 16, 17, 20, 21}, first_column[8] = {0, 2, 8, 10, 32, 34, 40, 42};
    nettlestair_to_block_order(3, rows, 64, stored, 64);
    for (int i = 0; i < 64; i++)
        expect("block order, a pixel at its code", stored[first_row[i % 8] + first_column[i / 8]] == i);
    nettlestair_from_block_order(3, stored, 64, back, 64);
    expect("block order, there and back", !memcmp(back, rows, sizeof rows));

    /* figure 5(b) over one colour; then two images of 2 by 2 that give one block, and the rest of the lists stays */
    const uint32_t northwest[4] = {0, 1, 2, 3};
    const uint8_t whole[1] = {2}, pixels[4] = {0};
    const uint16_t ground[1] = {256}, larger[7] = {256, 256, 256, 257, 256, 256, 65535};
    memset(c, 99, sizeof c);
    memset(l, 99, sizeof l);
    memset(k, 99, sizeof k);
    w = nettlestair_overlay(2, codes, 7, levels, 7, colours, 7, northwest, 1, whole, 1, ground, 1, c, 16, l, 16, k, 17);
    expect("overlay, answer", w.number == 0 && w.count == 7);
    expect("overlay, codes and levels", !memcmp(c, codes, sizeof codes) && !memcmp(l, levels, sizeof levels));
    expect("overlay, colours", !memcmp(k, larger, sizeof larger) && k[7] == 0x6363);

    const uint16_t before[4] = {1, 2, 2, 2}, after_cleaning[4] = {2, 1, 1, 1};
    w = nettlestair_overlay(1, northwest, 4, pixels, 4, before, 4, northwest, 4, pixels, 4, after_cleaning, 4, c, 4, l, 4, k, 4);
    expect("overlay, answer of one block", w.number == 0 && w.count == 1 && c[0] == 0 && l[0] == 1 && k[0] == 2);
    for (int i = 1; i < 4; i++)
        expect("overlay, entries after the block", c[i] == codes[i] && l[i] == levels[i] && k[i] == larger[i]);
    w = nettlestair_overlay(1, northwest, 4, pixels, 4, before, 4, northwest, 4, pixels, 3, after_cleaning, 4, c, 3, l, 4, k, 4);
    expect("overlay, the second list faulty", w.number == 2 && w.count == 0);
    w = nettlestair_overlay(1, northwest, 4, pixels, 4, before, 4, northwest, 4, pixels, 4, after_cleaning, 4, c, 3, l, 4, k, 4);
    expect("overlay, too short", w.number == 8 && w.count == 0);

    /* the pixel (2, 1), whose code is 6, put into one block and taken out again; the rest of the lists stays */
    const uint32_t parted_codes[7] = {0, 4, 5, 6, 7, 8, 12};
    const uint8_t parted_levels[7] = {1, 0, 0, 0, 0, 1, 1};
    const uint16_t parted_colours[7] = {256, 256, 256, 257, 256, 256, 256};
    struct {
        uint32_t codes[17];
        uint8_t levels[17];
        uint16_t colours[17];
    } put_in, taken_out;
    memset(&put_in, 99, sizeof put_in);
    memset(&taken_out, 99, sizeof taken_out);
    w = nettlestair_touch_up(2, northwest, 1, whole, 1, ground, 1, 2, 1, 257, put_in.codes, 17, put_in.levels, 16, put_in.colours, 17);
    expect("touch up, answer", w.number == 0 && w.count == 7);
    expect("touch up, codes", !memcmp(put_in.codes, parted_codes, sizeof parted_codes) && LEFT(put_in.codes, 7));
    expect("touch up, levels", !memcmp(put_in.levels, parted_levels, sizeof parted_levels) && LEFT(put_in.levels, 7));
    expect("touch up, colours", !memcmp(put_in.colours, parted_colours, sizeof parted_colours) && LEFT(put_in.colours, 7));
    w = nettlestair_touch_up(2, put_in.codes, 7, put_in.levels, 7, put_in.colours, 7, 2, 1, 256, taken_out.codes, 16,
                             taken_out.levels, 17, taken_out.colours, 16);
    expect("touch up, answer of one block", w.number == 0 && w.count == 1);
    expect("touch up, one block", taken_out.codes[0] == 0 && taken_out.levels[0] == 2 && taken_out.colours[0] == 256);
    expect("touch up, entries after the block",
           LEFT(taken_out.codes, 1) && LEFT(taken_out.levels, 1) && LEFT(taken_out.colours, 1));

    /* refusals: a list of unlike lengths before a pixel outside, that before a list too short */
    memset(&put_in, 99, sizeof put_in);
    w = nettlestair_touch_up(2, codes, 7, levels, 6, colours, 7, 4, 0, 1, put_in.codes, 15, put_in.levels, 16, put_in.colours, 16);
    expect("touch up, a faulty list", w.number == 2 && w.count == 0);
    w = nettlestair_touch_up(2, codes, 7, levels, 7, colours, 7, 4, 0, 1, put_in.codes, 15, put_in.levels, 16, put_in.colours, 16);
    expect("touch up, x outside", w.number == 21 && w.count == 0);
    w = nettlestair_touch_up(2, codes, 7, levels, 7, colours, 7, 0, 65536, 1, put_in.codes, 16, put_in.levels, 16, put_in.colours, 16);
    expect("touch up, y outside", w.number == 21 && w.count == 0);
    w = nettlestair_touch_up(2, codes, 7, levels, 7, colours, 7, 3, 3, 1, put_in.codes, 16, put_in.levels, 16, put_in.colours, 15);
    expect("touch up, too short", w.number == 8 && w.count == 0);
    expect("touch up, refusals", LEFT(put_in.codes, 0) && LEFT(put_in.levels, 0) && LEFT(put_in.colours, 0));

    const uint32_t numbers[7] = {0, 0, 0, 1, 0, 0, 2}, zeros[32] = {0};
    uint32_t labels[8], work[33];
    memset(labels, 99, sizeof labels);
    memset(work, 99, sizeof work);
    struct nettlestair_numbered d = nettlestair_number(2, codes, 7, levels, 7, colours, 7, labels, 8, work, 33);
    expect("numbers, answer", d.number == 0 && d.regions == 3);
    expect("numbers, labels", !memcmp(labels, numbers, sizeof numbers) && labels[7] == 0x63636363);
    expect("numbers, work", !memcmp(work, zeros, sizeof zeros) && work[32] == 0x63636363);
    d = nettlestair_number(2, codes, 7, levels, 7, colours, 7, labels, 6, work, 33);
    expect("numbers, too short", d.number == 8 && d.regions == 0);

    /* orders of figure 5(b), where a diagonal step leads out of A: each order is right, and the least one rises */
    const uint32_t regions[3] = {0, 1, 2}, others[3] = {2, 0, 1}, again[4] = {2, 0, 2, 1};
    struct {
        uint32_t labels[17], work[33], order[17];
    } cut, before_too_short;
    memset(&cut, 99, sizeof cut);
    w = nettlestair_least_order(2, codes, 7, levels, 7, colours, 7, cut.labels, 8, cut.work, 33, cut.order, 7);
    expect("least order, answer", w.number == 0 && w.count == 3);
    expect("least order, order", !memcmp(cut.order, regions, sizeof regions) && LEFT(cut.order, 3));
    expect("least order, labels", !memcmp(cut.labels, numbers, sizeof numbers) && LEFT(cut.labels, 7));
    expect("least order, work", !memcmp(cut.work, zeros, sizeof zeros) && LEFT(cut.work, 32));
    memset(&cut, 99, sizeof cut);
    expect("check of an order", nettlestair_check_order(2, codes, 7, levels, 7, colours, 7, others, 3, cut.labels, 8, cut.work, 33) == 0);
    expect("check of an order, labels", !memcmp(cut.labels, numbers, sizeof numbers) && LEFT(cut.labels, 7));
    expect("check of an order, work", !memcmp(cut.work, zeros, sizeof zeros) && LEFT(cut.work, 32));

    /* figure 5(a), where A surrounds B: 19 and 20 write labels and work list too, 19 comes first, and 8 writes nothing */
    const uint32_t places[16] = {0, 1, 2, 3, 4, 5, 6, 7, 8, 9, 10, 11, 12, 13, 14, 15};
    const uint8_t zero[16] = {0};
    const uint16_t middle[16] = {1, 1, 1, 2, 1, 1, 2, 1, 1, 2, 1, 1, 2, 1, 1, 1};
    const uint32_t in_the_middle[16] = {0, 0, 0, 1, 0, 0, 1, 0, 0, 1, 0, 0, 1, 0, 0, 0}, inside_out[2] = {1, 0}, outside_in[3] = {0, 1, 1}, twice[2] = {0, 0};
    const struct {
        const uint32_t *order;
        size_t length;
        uint32_t number;
    } orders[6] = {{twice, 2, 19}, {inside_out, 2, 0}, {outside_in, 2, 20}, {outside_in, 3, 19}, {inside_out, 1, 19}, {again, 4, 19}};
    for (int i = 0; i < 6; i++) {
        memset(&cut, 99, sizeof cut);
        uint32_t number = nettlestair_check_order(2, places, 16, zero, 16, middle, 16, orders[i].order, orders[i].length, cut.labels,
                                                  17, cut.work, 33);
        expect("check of an order, number", number == orders[i].number);
        expect("check of an order, labels of the two", !memcmp(cut.labels, in_the_middle, sizeof in_the_middle) && LEFT(cut.labels, 16));
        expect("check of an order, work of the two", !memcmp(cut.work, zeros, sizeof zeros) && LEFT(cut.work, 32));
    }
    w = nettlestair_least_order(2, places, 16, zero, 16, middle, 16, cut.labels, 16, cut.work, 32, cut.order, 17);
    expect("least order of the two", w.number == 0 && w.count == 2 && !memcmp(cut.order, inside_out, sizeof inside_out));
    memset(&cut, 99, sizeof cut);
    before_too_short = cut;
    w = nettlestair_least_order(2, places, 16, zero, 16, middle, 16, cut.labels, 16, cut.work, 32, cut.order, 15);
    expect("least order, order too short", w.number == 8 && w.count == 0);
    expect("check of an order, labels too short",
           nettlestair_check_order(2, places, 16, zero, 16, middle, 16, outside_in, 2, cut.labels, 15, cut.work, 32) == 8);
    expect("check of an order, work too short",
           nettlestair_check_order(2, places, 16, zero, 16, middle, 16, outside_in, 3, cut.labels, 16, cut.work, 31) == 8);
    expect("check of an order, a faulty list",
           nettlestair_check_order(2, places, 16, zero, 15, middle, 16, outside_in, 3, cut.labels, 16, cut.work, 31) == 2);
    expect("orders, refusals", !memcmp(&cut, &before_too_short, sizeof cut));

    const uint32_t after[3] = {10, 14, 18};
    const uint32_t points[18] = {0,    4,   1028, 1026, 514,  513,  1025, 1026, 2050, 2048,
                                 513, 514, 1026, 1025, 1026, 1028, 2052, 2050};
    const int32_t enclosed[3] = {11, 1, 4};
    struct {
        uint32_t labels[17], work[33], owners[16], ends[16], corners[65];
        int32_t areas[17];
    } lent, before_refusals;
    memset(&lent, 99, sizeof lent);
    struct nettlestair_traced t =
        nettlestair_trace(2, codes, 7, levels, 7, colours, 7, lent.labels, 8, lent.work, 33, lent.owners, 16, lent.ends, 16,
                          lent.corners, 65, lent.areas, 17);
    expect("outlines, answer", t.number == 0 && t.regions == 3 && t.cycles == 3 && t.corners == 18);
    expect("outlines, labels", !memcmp(lent.labels, numbers, sizeof numbers) && LEFT(lent.labels, 7));
    expect("outlines, work", !memcmp(lent.work, zeros, sizeof zeros) && LEFT(lent.work, 32));
    expect("outlines, owners", !memcmp(lent.owners, regions, sizeof regions) && LEFT(lent.owners, 3));
    expect("outlines, ends", !memcmp(lent.ends, after, sizeof after) && LEFT(lent.ends, 3));
    expect("outlines, corners", !memcmp(lent.corners, points, sizeof points) && LEFT(lent.corners, 18));
    expect("outlines, areas", !memcmp(lent.areas, enclosed, sizeof enclosed) && LEFT(lent.areas, 3));

    /* one block in place of the seven, refused: what was written for the seven stays */
    before_refusals = lent;
    t = nettlestair_trace(2, northwest, 1, whole, 1, ground, 1, lent.labels, 8, lent.work, 33, lent.owners, 16, lent.ends, 16,
                          lent.corners, 63, lent.areas, 16);
    expect("outlines, corners too short", t.number == 8 && t.regions == 0 && t.cycles == 0 && t.corners == 0);
    t = nettlestair_trace(2, northwest, 1, whole, 1, ground, 1, lent.labels, 8, lent.work, 33, lent.owners, 16, lent.ends, 16,
                          lent.corners, 64, lent.areas, 15);
    expect("outlines, areas too short", t.number == 8 && t.regions == 0 && t.cycles == 0 && t.corners == 0);
    expect("outlines, refusals", !memcmp(&lent, &before_refusals, sizeof lent));

    /* figure 5(a): the area of the hole is below zero */
    const int32_t with_hole[3] = {16, -4, 4};
    memset(&lent, 99, sizeof lent);
    t = nettlestair_trace(2, places, 16, zero, 16, middle, 16, lent.labels, 17, lent.work, 33, lent.owners, 16, lent.ends, 16,
                          lent.corners, 65, lent.areas, 17);
    expect("outlines with a hole, answer", t.number == 0 && t.regions == 2 && t.cycles == 3 && t.corners == 12);
    expect("outlines with a hole, areas", !memcmp(lent.areas, with_hole, sizeof with_hole));
    expect("outlines with a hole, rest of the lists", LEFT(lent.labels, 16) && LEFT(lent.work, 32) && LEFT(lent.owners, 3) &&
                                                          LEFT(lent.ends, 3) && LEFT(lent.corners, 12) && LEFT(lent.areas, 3));

    /* the dial of figure 5(b) from its outlines, with entries beyond the counts, in lists that are longer than needed */
    const uint32_t given_owners[4] = {0, 1, 2, 7}, given_ends[4] = {10, 14, 18, 3};
    const uint16_t region_colours[4] = {1, 257, 65535, 1}, alike[3] = {1, 1, 65535};
    const uint32_t all_zeros[128] = {0};
    struct {
        uint32_t codes[17];
        uint8_t levels[17];
        uint16_t colours[17];
        uint32_t work[129];
    } from_outlines, before_outlines;
    memset(&from_outlines, 99, sizeof from_outlines);
    before_outlines = from_outlines;
    w = nettlestair_blocks_from_outlines(2, 3, 3, 18, given_owners, 4, given_ends, 4, points, 18, region_colours, 4, from_outlines.codes,
                                         17, from_outlines.levels, 16, from_outlines.colours, 17, from_outlines.work, 129);
    expect("blocks from outlines, answer", w.number == 0 && w.count == 7);
    expect("blocks from outlines, codes", !memcmp(from_outlines.codes, codes, sizeof codes) && LEFT(from_outlines.codes, 7));
    expect("blocks from outlines, levels", !memcmp(from_outlines.levels, levels, sizeof levels) && LEFT(from_outlines.levels, 7));
    expect("blocks from outlines, colours", !memcmp(from_outlines.colours, colours, sizeof colours) && LEFT(from_outlines.colours, 7));
    expect("blocks from outlines, work", !memcmp(from_outlines.work, all_zeros, sizeof all_zeros) && LEFT(from_outlines.work, 128));

    /* refusals: 18 alters the work list alone; 8 and 1 come first and alter nothing */
    from_outlines = before_outlines;
    w = nettlestair_blocks_from_outlines(2, 3, 3, 18, given_owners, 3, given_ends, 3, points, 18, alike, 3, from_outlines.codes, 16,
                                         from_outlines.levels, 16, from_outlines.colours, 16, from_outlines.work, 127);
    expect("blocks from outlines, work too short", w.number == 8 && w.count == 0);
    w = nettlestair_blocks_from_outlines(2, 3, 3, 18, given_owners, 3, given_ends, 3, points, 18, region_colours, 3, from_outlines.codes, 16,
                                         from_outlines.levels, 15, from_outlines.colours, 16, from_outlines.work, 128);
    expect("blocks from outlines, levels too short", w.number == 8 && w.count == 0);
    w = nettlestair_blocks_from_outlines(9, 3, 3, 18, given_owners, 3, given_ends, 3, points, 18, region_colours, 3, from_outlines.codes, 16,
                                         from_outlines.levels, 15, from_outlines.colours, 16, from_outlines.work, 128);
    expect("blocks from outlines, n above 8", w.number == 1 && w.count == 0);
    expect("blocks from outlines, refusals", !memcmp(&from_outlines, &before_outlines, sizeof from_outlines));
    w = nettlestair_blocks_from_outlines(2, 3, 3, 18, given_owners, 3, given_ends, 3, points, 18, alike, 3, from_outlines.codes, 16,
                                         from_outlines.levels, 16, from_outlines.colours, 16, from_outlines.work, 129);
    expect("blocks from outlines, neighbours of one colour", w.number == 18 && w.count == 0);
    expect("blocks from outlines, work after 18", !memcmp(from_outlines.work, all_zeros, sizeof all_zeros) && LEFT(from_outlines.work, 128));
    w = nettlestair_blocks_from_outlines(2, 3, 3, 18, given_owners, 3, given_ends, 3, points, 17, region_colours, 3, from_outlines.codes, 16,
                                         from_outlines.levels, 16, from_outlines.colours, 16, from_outlines.work, 128);
    expect("blocks from outlines, fewer corners than counted", w.number == 18 && w.count == 0);
    expect("blocks from outlines, lists after 18",
           LEFT(from_outlines.codes, 0) && LEFT(from_outlines.levels, 0) && LEFT(from_outlines.colours, 0));

    /* dial 1 */
    const uint32_t square[4] = {0, 1, 513, 512};
    uint8_t text[25];
    uint32_t corners[4];
    w = nettlestair_svg(square, 4, text, 25);
    expect("path data", w.number == 0 && w.count == 11 && !memcmp(text, "M0 0H1V1H0Z", 11));
    w = nettlestair_read_chain(0, (const uint8_t *)"0321", 4, corners, 4);
    expect("chain read", w.number == 0 && w.count == 4 && !memcmp(corners, square, sizeof square));

    const uint32_t ends[2] = {1, 4};
    struct nettlestair_stretch s = nettlestair_cycle(square, 4, ends, 2, 2, 1);
    expect("stretch", s.start == 1 && s.length == 3);

    /* turns at the cutter: cycles of 33, 16 and 1 corners, the second opened first, served until none is open */
    uint32_t rims[50], lent_rims[50];
    const uint32_t rim_ends[3] = {33, 49, 50};
    for (int i = 0; i < 50; i++)
        rims[i] = lent_rims[i] = 0xFFFFFFFF - 7 * i;
    const struct nettlestair_state fresh = {0};
    struct nettlestair_state queue = fresh;
    const uint32_t tried[5] = {1, 0, 2, 0, 3}, answered[5] = {0, 0, 0, 23, 22};
    for (int i = 0; i < 5; i++) {
        struct nettlestair_opened o = nettlestair_open(queue, tried[i], 3);
        expect("opening, number", o.number == answered[i]);
        expect("opening, refused", o.number == 0 || !memcmp(&o.state, &queue, sizeof queue));
        queue = o.state;
    }
    const struct nettlestair_state three = {{{1, 0}, {0, 0}, {2, 0}}, 3};
    expect("opening, state", !memcmp(&queue, &three, sizeof queue));
    const struct {
        uint32_t cycle, from, count;
        struct nettlestair_state state;
    } turns[5] = {{1, 33, 16, {{{0, 0}, {2, 0}}, 2}},
                  {0, 0, 16, {{{2, 0}, {0, 16}}, 2}},
                  {2, 49, 1, {{{0, 16}}, 1}},
                  {0, 16, 16, {{{0, 32}}, 1}},
                  {0, 32, 1, {{{0, 0}}, 0}}};
    for (int i = 0; i < 5; i++) {
        uint32_t handed_out[16] = {0};
        memcpy(handed_out, rims + turns[i].from, turns[i].count * sizeof rims[0]);
        struct nettlestair_turned u = nettlestair_turn(queue, lent_rims, 50, rim_ends, 3, 3);
        expect("turn, answer", u.served && u.count == turns[i].count && u.cycle == turns[i].cycle);
        expect("turn, places", !memcmp(u.places, handed_out, sizeof handed_out));
        expect("turn, state", !memcmp(&u.state, &turns[i].state, sizeof u.state));
        queue = u.state;
    }
    expect("turns, lists", !memcmp(rims, lent_rims, sizeof rims));

    /* none open, whatever stands in the unused places */
    const uint32_t no_places[16] = {0};
    struct nettlestair_state garbage;
    memset(&garbage, 99, sizeof garbage);
    garbage.length = 0;
    struct nettlestair_turned u = nettlestair_turn(garbage, rims, 50, rim_ends, 3, 3);
    expect("none open, answer", !u.served && u.count == 0 && u.cycle == 0 && !memcmp(u.places, no_places, sizeof no_places));
    expect("none open, state", !memcmp(&u.state, &garbage, sizeof garbage));

    /* with another count nothing is due, and the outline closes with zero; unused places of the state are cleared */
    garbage.outlines[0].cycle = 2;
    garbage.outlines[0].handed = 0;
    garbage.length = 1;
    u = nettlestair_turn(garbage, rims, 50, rim_ends, 3, 2);
    expect("nothing due, answer", u.served && u.count == 0 && u.cycle == 2 && !memcmp(u.places, no_places, sizeof no_places));
    expect("nothing due, state", !memcmp(&u.state, &fresh, sizeof fresh));

    /* eight open; a length of 9 counts as 8 */
    struct nettlestair_opened o = {0, fresh};
    for (uint32_t i = 0; i < 8; i++)
        o = nettlestair_open(o.state, 10 * i, 100);
    expect("opening, eight", o.number == 0 && o.state.length == 8 && o.state.outlines[7].cycle == 70);
    queue = o.state;
    for (queue.length = 8; queue.length < 10; queue.length++) {
        o = nettlestair_open(queue, 5, 100);
        expect("opening, a ninth", o.number == 24 && !memcmp(&o.state, &queue, sizeof queue));
        expect("opening, the eighth again", nettlestair_open(queue, 70, 100).number == 23);
        expect("opening, the eighth again with a smaller count", nettlestair_open(queue, 70, 70).number == 22);
    }

    const uint16_t one[5] = {1, 2, 3, 4, 0x6363}, two[5] = {258, 772, 0, 999, 0x6363};
    uint16_t samples[5];
    memset(samples, 99, sizeof samples);
    struct nettlestair_picture p = nettlestair_read_pgm((const uint8_t *)"P5 2 2 9 \1\2\3\4", 13, samples, 5);
    expect("picture, answer", p.number == 0 && p.n == 1 && p.maxval == 9 && p.count == 4);
    expect("picture, raster", !memcmp(samples, one, sizeof one));
    p = nettlestair_read_pgm((const uint8_t *)"P5 2 2 999 \1\2\3\4\0\0\3\347", 19, samples, 4);
    expect("picture of two bytes a sample, answer", p.number == 0 && p.n == 1 && p.maxval == 999 && p.count == 4);
    expect("picture of two bytes a sample, raster", !memcmp(samples, two, sizeof two));
    p = nettlestair_read_pgm((const uint8_t *)"P5 2 2 9 \1\2\3\4", 13, samples, 3);
    expect("picture, too short", p.number == 8 && p.n == 0 && p.maxval == 0 && p.count == 0);
    p = nettlestair_read_pgm((const uint8_t *)"P5 3", 4, samples, 5);
    expect("bad header", p.number == 10 && p.n == 0 && p.maxval == 0 && p.count == 0);
    expect("refusals leave the raster", !memcmp(samples, two, sizeof two));

    return failures != 0;
}
