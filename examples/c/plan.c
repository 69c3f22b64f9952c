/* A planning program in C: reads sheets from standard input and says of each what it needs, or why not.
 *
 *     cc -I include examples/c/plan.c crates/plan/out/libplan.a -o plan && ./plan <examples/sheets.bin
 */
#include <channel.h>
#include <stdio.h>

static int32_t number(const uint8_t *place, enum channel_number which) {
    const uint8_t *at = place + 4 * which;
    uint32_t bits = (uint32_t)at[0] << 24 | (uint32_t)at[1] << 16 | (uint32_t)at[2] << 8 | at[3];
    return bits < 0x80000000u ? (int32_t)bits : -(int32_t)(0xFFFFFFFFu - bits) - 1;
}

static const char *reason(uint32_t code) {
    switch (code) {
    case CHANNEL_WRONG_LENGTH: return "it has not 28 bytes";
    case CHANNEL_SPARE_BIT_SET: return "a spare bit is set";
    case CHANNEL_BAD_FIELD: return "a field is bad";
    case CHANNEL_NO_TABLE: return "its level comes off a record, and there is none here";
    case CHANNEL_BEND_TOO_TIGHT: return "its bend is too tight";
    case CHANNEL_NO_WIDTH_ENTRY: return "sheltered water has no entry for its current or wave";
    case CHANNEL_NO_SQUAT_ENTRY: return "it is too fast for the squat table: slow the ship";
    case CHANNEL_SILT_OVER: return "its silt is over 120 cm, or fills all that is dug: dredge oftener";
    case CHANNEL_CUT_OVER: return "its cut is over 30 m";
    case CHANNEL_SPEED_UNKNOWN: return "the table of critical speeds has no figure for its width, slope or depth";
    case CHANNEL_TOO_FAST: return "it is too fast for its cut: slow the ship, or widen or deepen the cut";
    case CHANNEL_UNDER_THREE_BEAMS: return "its length is under three beams: have length and beam changed places?";
    default: return "no reason that this program knows";
    }
}

static void metres(const char *what, int32_t cm) {
    const char *sign = cm < 0 ? "-" : "";
    unsigned size = cm < 0 ? -(unsigned)cm : (unsigned)cm;
    printf("  %-12s %s%u.%02u m\n", what, sign, size / 100, size % 100);
}

int main(void) {
    uint8_t sheet[CHANNEL_SHEET], place[CHANNEL_PLACE];
    size_t length;
    for (unsigned index = 1; (length = fread(sheet, 1, sizeof sheet, stdin)) > 0; index++) {
        uint32_t code = channel_plan(sheet, length, place, sizeof place);
        if (code != CHANNEL_ANSWERED) {
            printf("sheet %u: %u, %s", index, (unsigned)code, reason(code));
            if (code == CHANNEL_BAD_FIELD)
                printf(": field %d", (int)number(place, CHANNEL_FIELD));
            printf("\n");
            continue;
        }
        printf("sheet %u: %d lane%s, class %d\n", index, (int)number(place, CHANNEL_LANES),
               number(place, CHANNEL_LANES) == 1 ? "" : "s", (int)number(place, CHANNEL_SHIP_CLASS));
        metres("cut", number(place, CHANNEL_CUT));
        metres("below chart", number(place, CHANNEL_DATUM_DEPTH));
        metres("width", number(place, CHANNEL_WIDTH));
        metres("widening", number(place, CHANNEL_WIDENING));
    }
    return ferror(stdin) ? 1 : 0;
}
