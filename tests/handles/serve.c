/* Serves the tests' handles over a pipe: a request is a handle's number, an input and a place; the
   reply is what the handle returned and what the place then holds. All numbers are little-endian. */
#include <channel.h>
#include <stddef.h>
#include <stdint.h>
#include <stdio.h>
#include <stdlib.h>
#include <string.h>

typedef uint32_t call(const void *input, size_t count, void *place, size_t space);

extern call trial_read, trial_write, trial_add, trial_level, trial_depth, trial_plain, trial_worksheet, trial_width, trial_bend, trial_make, trial_classes, trial_speed;
extern uint32_t trial_design(const uint8_t *sheet, size_t length, const uint32_t *table, size_t slots, int32_t *place, size_t space);

/* A plan's part of the place: what the call returned, and the bytes that it is lent with bytes behind them. */
enum { RETURNED = 4, PART = RETURNED + 96 };

/* Null where nothing is lent, as the header allows. */
static const void *lent(const void *at, size_t length) { return length ? at : NULL; }

/* Many plans in one request, since a round trip costs more than a plan. Each case of the input is the sheet's length,
   the length of the place and the sheet. Returns how many were done. */
static uint32_t plans(const void *input, size_t count, void *place, size_t space) {
    const uint8_t *at = input, *end = at + count;
    uint8_t *part = place;
    uint32_t done = 0;
    for (; end - at >= 2 && space >= PART; done++, part += PART, space -= PART) {
        size_t length = at[0], lent_length = at[1];
        if (length > (size_t)(end - at) - 2 || lent_length > PART - RETURNED)
            break;
        uint32_t code = channel_plan(lent(at + 2, length), length, (uint8_t *)lent(part + RETURNED, lent_length), lent_length);
        memcpy(part, &code, RETURNED);
        at += 2 + length;
    }
    return done;
}

/* A design's part of the place: what the call returned, and the numbers that it is lent space for. */
enum { NUMBERS = 13, DESIGN = RETURNED + 4 * NUMBERS };

/* Many designs over one table: the count of its slots, the slots, then each sheet's length with the sheet. Returns how
   many were done. */
static uint32_t designs(const void *input, size_t count, void *place, size_t space) {
    const uint8_t *at = input, *end = at + count;
    uint8_t *part = place;
    uint32_t slots, done = 0;
    if (count < sizeof slots)
        return 0;
    memcpy(&slots, at, sizeof slots);
    at += sizeof slots;
    if (slots > (size_t)(end - at) / 4)
        return 0;
    const void *table = lent(at, slots);
    at += 4 * (size_t)slots;
    for (; end - at >= 1 && space >= DESIGN; done++, part += DESIGN, space -= DESIGN) {
        size_t length = at[0];
        if (length > (size_t)(end - at) - 1)
            break;
        uint32_t code = trial_design(lent(at + 1, length), length, table, slots, (int32_t *)(part + RETURNED), NUMBERS);
        memcpy(part, &code, RETURNED);
        at += 1 + length;
    }
    return done;
}

/* A handle, and the bytes of one element of its input and of its place. */
struct handle {
    call *function;
    size_t input, place;
};

static const struct handle handles[] = {
    {trial_read, 1, 4},
    {trial_write, 4, 1},
    {trial_add, 4, 4},
    {trial_level, 4, 1},
    {trial_depth, 4, 4},
    {trial_plain, 4, 4},
    {trial_worksheet, 4, 4},
    {plans, 1, 1},
    {trial_width, 4, 4},
    {trial_bend, 4, 4},
    {trial_make, 4, 4},
    {designs, 1, 1},
    {trial_classes, 4, 4},
    {trial_speed, 4, 4},
};

static int take(void *to, size_t count) { return fread(to, 1, count, stdin) == count; }

static void give(const void *from, size_t count) {
    if (fwrite(from, 1, count, stdout) != count)
        exit(3);
}

/* A length and that many bytes, in a block of exactly that size, so that a step past it is seen. */
static unsigned char *taken(uint32_t *length) {
    if (!take(length, 4))
        exit(3);
    unsigned char *block = malloc(*length ? *length : 1);
    if (!block || !take(block, *length))
        exit(3);
    return block;
}

int main(void) {
    unsigned char number;
    while (take(&number, 1)) {
        if (number >= sizeof handles / sizeof *handles)
            return 2;
        const struct handle *handle = &handles[number];
        uint32_t length, space;
        unsigned char *input = taken(&length);
        unsigned char *place = taken(&space);
        uint32_t result = handle->function(input, length / handle->input, place, space / handle->place);
        give(&result, 4);
        give(place, space);
        fflush(stdout);
        free(input);
        free(place);
    }
    return 0;
}
