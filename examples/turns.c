/* Traces a binary PGM of up to 256 by 256 pixels through the library, opens the three outlines with the most corners at the cutter and hands
   out their corners by turns until none is open. It prints one line a turn: its number, the cycle, how many corners it hands out, and each of
   them as x,y; or `refused` and the number. The exit status is 0, 1 where the picture is refused, and 2 where there is nothing to read.

       (cd crates/exports && rt lib)
       gcc -O2 -Iinclude -o target/turns examples/turns.c crates/exports/out/libexports.a
       target/turns samples/clock-64.pgm
*/
#include "file.h"
#include <nettlestair.h>

/* The pixels of the largest picture: every need is told by them. */
#define WHOLE 65536

static uint32_t codes[WHOLE], labels[WHOLE], work[2 * WHOLE], owners[WHOLE], ends[WHOLE], corners[4 * WHOLE];
static int32_t areas[WHOLE];
static uint16_t raster[WHOLE], colours[WHOLE];
static uint8_t levels[WHOLE];

/* Opens the outline with the most corners, or the first of several, of those that are not open; the next state. */
static struct nettlestair_state with_longest(struct nettlestair_state state, uint32_t cycles) {
    struct nettlestair_opened longest = {0, state};
    size_t most = 0;
    for (uint32_t k = 0; k < cycles; k++) {
        size_t length = nettlestair_cycle(corners, 4 * WHOLE, ends, WHOLE, cycles, k).length;
        /* a state is a plain value: the one that comes back need not be used */
        struct nettlestair_opened opened = nettlestair_open(state, k, cycles);
        if (opened.number == 0 && length > most) {
            longest = opened;
            most = length;
        }
    }
    return longest.state;
}

/* Prints the lines for the bytes of a picture; the status of the program. */
static int turns(const uint8_t *bytes, size_t length) {
    struct nettlestair_picture picture = nettlestair_read_pgm(bytes, length, raster, WHOLE);
    if (picture.number != 0)
        return refused(picture.number);

    /* the raster as blocks, and the outlines of its regions */
    uint32_t n = picture.n;
    struct nettlestair_written merged =
        nettlestair_blocks_from_raster(n, raster, picture.count, codes, WHOLE, levels, WHOLE, colours, WHOLE);
    if (merged.number != 0)
        return refused(merged.number);
    size_t blocks = merged.count;
    struct nettlestair_traced traced =
        nettlestair_trace(n, codes, blocks, levels, blocks, colours, blocks, labels, WHOLE, work, 2 * WHOLE, owners, WHOLE,
                          ends, WHOLE, corners, 4 * WHOLE, areas, WHOLE);
    if (traced.number != 0)
        return refused(traced.number);

    /* a state of zeros has no outline open; three are opened */
    struct nettlestair_state state = {0};
    for (int i = 0; i < 3; i++)
        state = with_longest(state, traced.cycles);

    /* a line for each turn, and the next turn goes on with the state that comes back */
    for (unsigned turn = 1;; turn++) {
        struct nettlestair_turned turned = nettlestair_turn(state, corners, 4 * WHOLE, ends, WHOLE, traced.cycles);
        if (!turned.served)
            return 0;
        printf("%u %u %u", turn, (unsigned)turned.cycle, (unsigned)turned.count);
        for (uint32_t i = 0; i < turned.count; i++)
            printf(" %u,%u", (unsigned)turned.places[i] % 512, (unsigned)turned.places[i] / 512);
        printf("\n");
        state = turned.state;
    }
}

int main(int count, char **words) { return run("turns", count, words, turns); }
