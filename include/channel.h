/* Wickfeather's call for planning programs: one sheet in, thirteen numbers out.
 *
 * Link with libplan.a. What the call computes, and when it refuses, is docs/DEFINITION.md, section 9. */
#ifndef CHANNEL_H
#define CHANNEL_H

#include <stddef.h>
#include <stdint.h>

#ifdef __cplusplus
extern "C" {
#endif

/* The bytes of a sheet, and those that the numbers take. */
#define CHANNEL_SHEET 28
#define CHANNEL_PLACE 52

/* The fields of a sheet, most significant bit first: number, bits, least to greatest, and what it is. Then 7 spare bits,
 * zero.
 *   1 20 1-600000   deadweight, t
 *   2 12 700-2500   draft, cm
 *   3 16 2000-40000 length, cm
 *   4 13 500-7000   beam, cm
 *   5  4 2-12       speed, knots
 *   6 12 0-3000     natural bed below chart datum, cm
 *   7  2 0-3        soil grade: 0 mud, 1 deposited soil (silty sand, shells, gravel), 2 dense settled soil (sand, clay,
 *                   bedrock), 3 (the sources have no words for it)
 *   8  9 0-300      wave allowance z2, cm, read by hand from the graph
 *   9 10 0-900      silting P, per mille a year
 *  10  3 0-5        dredging interval: 0 is 25, 1 33, 2 50, 3 100, 4 200, 5 300 hundredths of a year
 *  11  2 0-2        lanes: 0 by the traffic, 1 one, 2 two
 *  12 18 1-200000   channel length, m
 *  13 15 0-20000    ships a day, hundredths
 *  14  1 0-1        water: 0 open, 1 sheltered
 *  15  2 0-2        handling: 0 good, 1 fair, 2 poor
 *  16  7 0-99       cross wind, knots
 *  17  6 0-60       cross current, tenths of a knot
 *  18  6 0-60       along current, tenths of a knot
 *  19 11 0-1500     wave height, cm
 *  20  2 0-3        aids to navigation (marks, VTS, AIS): 0 complete, 1 good, 2 middle, 3 poor
 *  21  2 0-2        bed: 0 soft, 1 hard and smooth, 2 hard and rough
 *  22  2 0-2        cargo: 0 of low danger, 1 of middle danger (oil), 2 of high danger (LPG, chemicals)
 *  23  1 0-1        left bank: 0 sloping, 1 steep (a revetment or a solid structure)
 *  24  1 0-1        right bank: 0 sloping, 1 steep (a revetment or a solid structure)
 *  25  8 0-180      turn, degrees
 *  26 15 0-20000    radius, m; 0 exactly where the turn is 0
 *  27  1 0-1        level source: 0 off the record, 1 given
 *  28 11 0-2000     given level plus 500, cm; 0 where the level comes off the record
 *  29  5 0-30       side slope 1/m: the m, metres across for one down; 0 for no check of the critical speed
 */

/* The thirteen numbers, in their order: each a signed 32-bit number, most significant byte first. Lengths are in cm. */
enum channel_number {
    CHANNEL_CODE,        /* 0, or why the sheet is turned away; then every figure is 0 */
    CHANNEL_FIELD,       /* the first bad field's number, 0 unless the code is 3 */
    CHANNEL_LEVEL,       /* the design level, above chart datum */
    CHANNEL_LANES,       /* 1 or 2 */
    CHANNEL_SAILING,     /* the sailing depth s, below the design level */
    CHANNEL_CUT,         /* the cut, below the design level */
    CHANNEL_DATUM_DEPTH, /* the cut, below chart datum */
    CHANNEL_WIDTH,       /* without widening */
    CHANNEL_WIDENING,
    CHANNEL_COLUMNS,     /* tried on the worksheet, 1 to 3 */
    CHANNEL_SHIP_CLASS,  /* 0, special, to 4 */
    CHANNEL_WIDTH_CLASS,
    CHANNEL_DEPTH_CLASS,
    CHANNEL_NUMBERS
};

/* The codes that the call can give; 9 is retired. There is no level table here, so a sheet whose level comes off the record gets 4. */
enum channel_code {
    CHANNEL_ANSWERED = 0,
    CHANNEL_WRONG_LENGTH = 1,       /* not 28 bytes */
    CHANNEL_SPARE_BIT_SET = 2,
    CHANNEL_BAD_FIELD = 3,          /* CHANNEL_FIELD says which */
    CHANNEL_NO_TABLE = 4,           /* a level off the record */
    CHANNEL_BEND_TOO_TIGHT = 7,
    CHANNEL_NO_WIDTH_ENTRY = 8,     /* cross current or wave over what sheltered water has */
    CHANNEL_PLACE_TOO_SMALL = 12,   /* place_length under 52; nothing is written */
    CHANNEL_NO_SQUAT_ENTRY = 13,    /* no depth: the first column that the worksheet cannot use has no squat entry, */
    CHANNEL_SILT_OVER = 14,         /* or silt over 120 cm, or all that is dug silts up before it is dredged again, */
    CHANNEL_CUT_OVER = 15,          /* or a cut over 30 m */
    CHANNEL_SPEED_UNKNOWN = 16,     /* the critical speed needs a blank of its table, or a point outside it */
    CHANNEL_TOO_FAST = 17,          /* over nine tenths of the critical speed */
    CHANNEL_UNDER_THREE_BEAMS = 18  /* the length is under three beams; tested straight after 3 */
};

/* Plans the sheet. 12 is tested first. Otherwise the code is returned and the first 52 bytes of place get the numbers;
 * later bytes stay. Any bytes and any lengths may be passed, but for two rules that C must keep:
 *   - sheet and place do not overlap;
 *   - a pointer is null only with length 0, and otherwise has that many bytes. */
uint32_t channel_plan(const uint8_t *sheet, size_t sheet_length, uint8_t *place, size_t place_length);

#ifdef __cplusplus
}
#endif

#endif
