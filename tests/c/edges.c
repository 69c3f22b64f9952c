/* The call at the edges of memory: sheets that may not be written and places, each against memory that may not be
   touched, before and behind. A step outside what is lent stops the program. Takes sheets from standard input. */
#define _DEFAULT_SOURCE
#include <channel.h>
#include <stdio.h>
#include <string.h>
#include <sys/mman.h>
#include <unistd.h>

enum { LONGEST_SHEET = 64, LONGEST_PLACE = 80 };

static size_t page;

/* A page between two that may not be touched; null where there is none. */
static uint8_t *guarded(void) {
    uint8_t *pages = mmap(NULL, 3 * page, PROT_NONE, MAP_PRIVATE | MAP_ANONYMOUS, -1, 0);
    if (pages == MAP_FAILED || mprotect(pages + page, page, PROT_READ | PROT_WRITE))
        return NULL;
    return pages + page;
}

/* Fills a page with a sheet again and again, so that each length at either end begins as the sheet does. */
static int filled(uint8_t *sheets, const uint8_t *sheet, size_t length) {
    if (mprotect(sheets, page, PROT_READ | PROT_WRITE))
        return 0;
    for (size_t k = 0; k < LONGEST_SHEET; k++) {
        sheets[k] = sheet[k % CHANNEL_SHEET];
        if (k < length)
            sheets[page - length + k] = sheet[k % CHANNEL_SHEET];
    }
    return mprotect(sheets, page, PROT_READ) == 0;
}

/* Each place at the start of its page and at its end. */
static unsigned long each_place(const uint8_t *sheet, size_t length, uint8_t *places) {
    unsigned long calls = 0;
    for (size_t lent = 0; lent <= LONGEST_PLACE; lent++) {
        uint32_t at_start = channel_plan(sheet, length, places, lent);
        uint32_t at_end = channel_plan(sheet, length, places + page - lent, lent);
        if (at_start != at_end || (at_start == CHANNEL_PLACE_TOO_SMALL) != (lent < CHANNEL_PLACE))
            return 0;
        calls += 2;
    }
    return calls;
}

int main(void) {
    page = (size_t)sysconf(_SC_PAGESIZE);
    uint8_t *sheets = guarded(), *places = guarded(), sheet[CHANNEL_SHEET];
    unsigned long calls = 0;
    if (!sheets || !places)
        return 2;
    while (fread(sheet, 1, sizeof sheet, stdin) == sizeof sheet) {
        for (size_t length = 0; length <= LONGEST_SHEET; length++) {
            if (!filled(sheets, sheet, length))
                return 2;
            unsigned long first = each_place(sheets, length, places);
            unsigned long last = each_place(sheets + page - length, length, places);
            if (!first || !last)
                return 1;
            calls += first + last;
        }
    }
    printf("%lu calls\n", calls);
    return 0;
}
