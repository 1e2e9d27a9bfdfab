/* The functions of libexports.a. A lent list passes as a pointer, which is not null, and its length in entries; a list that is
   written to overlaps no other list of the call. Each function answers the numbers of documents 01 and 02 for bad input of any
   kind, touches nothing outside the lists that it is lent, and comes to its end. A refusal is its number with every count 0, and
   leaves all lists as they were, but for labels and work list with 19 and 20 and the work list with 18; acceptance is number 0. A list
   that is shorter than its need is 8; a longer one is welcome, and its entries after those that are written stay as they were. The state of
   the cutter is a plain value: it goes in, and the next one comes back with the answer. A refusal gives it back as it was. */
#ifndef NETTLESTAIR_H
#define NETTLESTAIR_H

#include <stdbool.h>
#include <stddef.h>
#include <stdint.h>

#ifdef __cplusplus
extern "C" {
#endif

/* What a function that writes lists answers: its number, and how many entries it wrote. */
struct nettlestair_written {
    uint32_t number;
    uint32_t count;
};

/* What numbering answers: its number, and how many regions there are. */
struct nettlestair_numbered {
    uint32_t number;
    uint32_t regions;
};

/* What tracing answers: its number, and how many regions, cycles and corners there are. */
struct nettlestair_traced {
    uint32_t number;
    uint32_t regions;
    uint32_t cycles;
    uint32_t corners;
};

/* A part of a lent list: its place and its length in entries. */
struct nettlestair_stretch {
    size_t start;
    size_t length;
};

/* What a picture is: its number, and on acceptance n, maxval and how many samples it has, which is 4^n. */
struct nettlestair_picture {
    uint32_t number;
    uint32_t n;
    uint32_t maxval;
    uint32_t count;
};

/* An open outline: its cycle, and how many of its corners were handed out. */
struct nettlestair_open_outline {
    uint32_t cycle;
    uint32_t handed;
};

/* The outlines that are open at the cutter, eight at most: those in the first `length` places, from the front to the back. A state of zeros
   is the fresh one, with none open. What stands in the other places is not looked at, and a length above 8 counts as 8. */
struct nettlestair_state {
    struct nettlestair_open_outline outlines[8];
    uint32_t length;
};

/* What an opening answers: its number, and the next state. */
struct nettlestair_opened {
    uint32_t number;
    struct nettlestair_state state;
};

/* What a turn answers: whether there was an outline to serve, how many corners were handed out, of which cycle, the corners with 0 in the unused
   places, and the next state. */
struct nettlestair_turned {
    bool served;
    uint32_t count;
    uint32_t cycle;
    uint32_t places[16];
    struct nettlestair_state state;
};

/* The location code of the pixel (x, y): the binary digits of y and x by turns, the lowest of x worth 1, the lowest of y 2. Every x
   and y has one, so there is no number. */
uint32_t nettlestair_code(uint16_t x, uint16_t y);

/* The number of a block list of an image of side 2^n: 0 where it is accepted, else 1 to 7. */
uint32_t nettlestair_check(uint32_t n, const uint32_t *codes, size_t codes_len, const uint8_t *levels, size_t levels_len,
                           const uint16_t *colours, size_t colours_len);

/* The merged block list of a raster (row by row, north row first) of 4^n entries: 0, or 1, 9, 8. Each of the three lists has
   room for 4^n entries. */
struct nettlestair_written nettlestair_blocks_from_raster(uint32_t n, const uint16_t *raster, size_t raster_len,
                                                          uint32_t *codes, size_t codes_len, uint8_t *levels,
                                                          size_t levels_len, uint16_t *colours, size_t colours_len);

/* The raster of a block list: 0, or 1 to 8. The raster has room for 4^n entries. */
struct nettlestair_written nettlestair_raster_from_blocks(uint32_t n, const uint32_t *codes, size_t codes_len,
                                                          const uint8_t *levels, size_t levels_len,
                                                          const uint16_t *colours, size_t colours_len, uint16_t *raster,
                                                          size_t raster_len);

/* A raster (row by row, north row first) of 4^n entries in block order, which is rising location code: 0, or 1, 9, 8. The
   stored raster has room for 4^n entries. */
struct nettlestair_written nettlestair_to_block_order(uint32_t n, const uint16_t *raster, size_t raster_len,
                                                      uint16_t *stored, size_t stored_len);

/* The raster (row by row, north row first) of 4^n entries that are stored in block order: 0, or 1, 9, 8. The raster has
   room for 4^n entries. Each way followed by the other gives the first raster. */
struct nettlestair_written nettlestair_from_block_order(uint32_t n, const uint16_t *stored, size_t stored_len,
                                                        uint16_t *raster, size_t raster_len);

/* The merged list of one block list laid over another, whose every pixel has the larger of the two colours: 0, or 1, 2 to 7 of the
   first list, 2 to 7 of the second, 8. Each of the three lists written has room for 4^n entries. Several lists laid over one another
   give one list, whatever their order and grouping. */
struct nettlestair_written nettlestair_overlay(uint32_t n, const uint32_t *first_codes, size_t first_codes_len,
                                               const uint8_t *first_levels, size_t first_levels_len,
                                               const uint16_t *first_colours, size_t first_colours_len,
                                               const uint32_t *second_codes, size_t second_codes_len,
                                               const uint8_t *second_levels, size_t second_levels_len,
                                               const uint16_t *second_colours, size_t second_colours_len,
                                               uint32_t *codes, size_t codes_len, uint8_t *levels,
                                               size_t levels_len, uint16_t *colours, size_t colours_len);

/* The merged list of a block list's image with the pixel (x, y) alone changed to a colour, which may be the one that it has: 0, or 1
   to 7, 21 where x or y is not below 2^n, 8. Each of the three new lists has room for 4^n entries. The number of regions moves by at
   most 4, that of the unit edges of all outlines by at most 8. */
struct nettlestair_written nettlestair_touch_up(uint32_t n, const uint32_t *codes, size_t codes_len, const uint8_t *levels,
                                                size_t levels_len, const uint16_t *colours, size_t colours_len,
                                                uint32_t x, uint32_t y, uint16_t colour, uint32_t *new_codes,
                                                size_t new_codes_len, uint8_t *new_levels, size_t new_levels_len,
                                                uint16_t *new_colours, size_t new_colours_len);

/* The region number of each block, at its place in the labels, and how many regions there are: 0, or 1 to 8. The labels have
   room for one entry a block, the work list for 2 times 4^n; on acceptance that many of its entries are 0. */
struct nettlestair_numbered nettlestair_number(uint32_t n, const uint32_t *codes, size_t codes_len, const uint8_t *levels,
                                               size_t levels_len, const uint16_t *colours, size_t colours_len,
                                               uint32_t *labels, size_t labels_len, uint32_t *work, size_t work_len);

/* Judges an order of region numbers in which areas are cut from the inside out: 0 where each surrounded region comes before each region
   that surrounds it, or 1 to 8, 19 where the order is not every region once, 20 where a region stands before one it surrounds. A region
   surrounds another if no path from the other through pixels outside it, with diagonal steps allowed, reaches a pixel at the image's
   edge. The order is only read. Labels and work list are as for nettlestair_number, and are written with 19 and 20 too. */
uint32_t nettlestair_check_order(uint32_t n, const uint32_t *codes, size_t codes_len, const uint8_t *levels, size_t levels_len,
                                 const uint16_t *colours, size_t colours_len, const uint32_t *order, size_t order_len,
                                 uint32_t *labels, size_t labels_len, uint32_t *work, size_t work_len);

/* Of all orders that nettlestair_check_order answers 0 to, the one with the least number at the first place, then at the second, and so
   on, and how many regions it has: 0, or 1 to 8. Labels and work list are as for nettlestair_number. The order has room for one entry a
   block, and is filled up to the number of regions. */
struct nettlestair_written nettlestair_least_order(uint32_t n, const uint32_t *codes, size_t codes_len, const uint8_t *levels,
                                                   size_t levels_len, const uint16_t *colours, size_t colours_len,
                                                   uint32_t *labels, size_t labels_len, uint32_t *work, size_t work_len,
                                                   uint32_t *order, size_t order_len);

/* The outlines of all regions: 0, or 1 to 8. Labels and work list are as for nettlestair_number. For each cycle the owners hold
   its region, the ends the index after its last corner and the areas its signed area; the corners, y times 512 plus x each, stand
   cycle after cycle. An area is the sum over the cycle's unit edges of x times the change of y: above zero for a region's first
   cycle, below zero for its other ones. The areas of a region's cycles add to its number of pixels, those of all cycles to 4^n.
   Owners, ends and areas have room for 4^n entries each, the corners for 4 times 4^n. */
struct nettlestair_traced nettlestair_trace(uint32_t n, const uint32_t *codes, size_t codes_len, const uint8_t *levels,
                                            size_t levels_len, const uint16_t *colours, size_t colours_len,
                                            uint32_t *labels, size_t labels_len, uint32_t *work, size_t work_len,
                                            uint32_t *owners, size_t owners_len, uint32_t *ends, size_t ends_len,
                                            uint32_t *corners, size_t corners_len, int32_t *areas, size_t areas_len);

/* The block list that given outlines came from: 0, or 1, 8, 18 where no accepted block list of this n has these counts, owners, ends,
   corners and region colours. Counts and lists are as nettlestair_trace gives them, without the areas; the region colours have one entry a
   region. Entries beyond the counts are not looked at; a list that is shorter than its count is 18. Traced, the block list gives the same
   outlines. Each of the three lists written has room for 4^n entries, the work list for 8 times 4^n; its first 8 times 4^n entries are 0 after
   0 and after 18. */
struct nettlestair_written nettlestair_blocks_from_outlines(uint32_t n, uint32_t regions, uint32_t cycles, uint32_t corner_count,
                                                            const uint32_t *owners, size_t owners_len, const uint32_t *ends,
                                                            size_t ends_len, const uint32_t *corners, size_t corners_len,
                                                            const uint16_t *region_colours, size_t region_colours_len,
                                                            uint32_t *codes, size_t codes_len, uint8_t *levels,
                                                            size_t levels_len, uint16_t *colours, size_t colours_len,
                                                            uint32_t *work, size_t work_len);

/* Where the corners of cycle k stand in a corner list, by an end list and a cycle count; {0, 0} where there are none. */
struct nettlestair_stretch nettlestair_cycle(const uint32_t *corners, size_t corners_len, const uint32_t *ends,
                                             size_t ends_len, uint32_t count, uint32_t k);

/* Opens the outline of a cycle at the cutter, behind those that are open: 0, or 22 where the cycle is not below the count of cycles, 23 where
   it is already open, 24 where eight are open. On acceptance the unused places of the next state are 0. A closed outline may be opened
   again: it begins with its first corner. */
struct nettlestair_opened nettlestair_open(struct nettlestair_state state, uint32_t cycle, uint32_t count);

/* Serves the open outline at the front: hands out the corners that are due, 16 at most, in order. Due are those of the cycle's stretch
   (nettlestair_cycle) in the lists and the count lent for this turn, less those already handed out. If more is due the outline goes to the
   back, else it closes. Where none is open, none is served, with count, cycle and places 0 and the state as it was; else the unused places of
   the next state are 0. The lists are only read. As long as every opening and turn, from the fresh state on, is lent the lists and counts of
   one accepted tracing, every open outline gets corners within eight turns, whatever is opened meanwhile; with other lists an outline that
   has nothing due closes with count 0. */
struct nettlestair_turned nettlestair_turn(struct nettlestair_state state, const uint32_t *corners, size_t corners_len,
                                           const uint32_t *ends, size_t ends_len, uint32_t count);

/* One outline as SVG path data: 0, or 16, 8. The text has room for 9 bytes and 4 a corner. A corner is y times 512 plus x. */
struct nettlestair_written nettlestair_svg(const uint32_t *corners, size_t corners_len, uint8_t *text, size_t text_len);

/* The corners of a chain code from its start corner, y times 512 plus x: 0, or 17, 8. The list has room for them. */
struct nettlestair_written nettlestair_read_chain(uint32_t start, const uint8_t *chain, size_t chain_len,
                                                  uint32_t *corners, size_t corners_len);

/* Reads a binary PGM of any length into the raster, row by row, north row first: 0, or 10 to 14, 8 with zeros beside it. A sample is
   one byte for a maxval up to 255 and two above it, the most significant first. The raster has room for 4^n entries. */
struct nettlestair_picture nettlestair_read_pgm(const uint8_t *bytes, size_t bytes_len, uint16_t *raster, size_t raster_len);

#ifdef __cplusplus
}
#endif

#endif
