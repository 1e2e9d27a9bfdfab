/* Traces a binary PGM of up to 256 by 256 pixels through the library and prints one line a cycle: its region, its area and its
   path data; or `refused` and the number. The first cycle of a region is its outer one, with an area above zero; the area of a
   hole is below zero. The exit status is 0, 1 where the picture is refused, and 2 where there is nothing to read.

       (cd crates/exports && rt lib)
       gcc -O2 -Iinclude -o target/trace examples/trace.c crates/exports/out/libexports.a
       target/trace samples/clock-256.pgm
*/
#include "file.h"
#include <nettlestair.h>

/* The pixels of the largest picture: every need is told by them. */
#define WHOLE 65536

static uint32_t codes[WHOLE], labels[WHOLE], work[2 * WHOLE], owners[WHOLE], ends[WHOLE], corners[4 * WHOLE];
static int32_t areas[WHOLE];
static uint16_t raster[WHOLE], colours[WHOLE];
static uint8_t levels[WHOLE], text[9 + 4 * 4 * WHOLE];

/* Prints the lines for the bytes of a picture; the status of the program. */
static int outlines(const uint8_t *bytes, size_t length) {
    struct nettlestair_picture picture = nettlestair_read_pgm(bytes, length, raster, WHOLE);
    if (picture.number != 0)
        return refused(picture.number);

    /* the raster as blocks */
    uint32_t n = picture.n;
    struct nettlestair_written merged =
        nettlestair_blocks_from_raster(n, raster, picture.count, codes, WHOLE, levels, WHOLE, colours, WHOLE);
    if (merged.number != 0)
        return refused(merged.number);

    /* the outlines of its regions */
    size_t blocks = merged.count;
    struct nettlestair_traced traced =
        nettlestair_trace(n, codes, blocks, levels, blocks, colours, blocks, labels, WHOLE, work, 2 * WHOLE, owners, WHOLE,
                          ends, WHOLE, corners, 4 * WHOLE, areas, WHOLE);
    if (traced.number != 0)
        return refused(traced.number);

    /* a line for each cycle, in the order of the regions */
    for (uint32_t k = 0; k < traced.cycles; k++) {
        struct nettlestair_stretch cycle = nettlestair_cycle(corners, 4 * WHOLE, ends, WHOLE, traced.cycles, k);
        /* never refused: an outline of a tracing has cycle form, and the text has room for it */
        struct nettlestair_written path = nettlestair_svg(corners + cycle.start, cycle.length, text, sizeof text);
        printf("%u %d %.*s\n", (unsigned)owners[k], (int)areas[k], (int)path.count, (const char *)text);
    }
    return 0;
}

int main(int count, char **words) { return run("trace", count, words, outlines); }
