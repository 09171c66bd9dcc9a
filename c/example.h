/* Document 01's example sheet with its records, the same sheet damaged, and a line for each thing that a host tries with them: for sheet.c and page.c. */
#ifndef EXAMPLE_H
#define EXAMPLE_H

#include "controller.h"

#include <stdio.h>
#include <string.h>

/* What the bytes of an output are before. */
enum { UNTOUCHED = 0xa5 };

/* One setting, 0x40 = 1; a tick and a Hit. */
static const uint8_t example[] = {1, 0, 0x40, 1, 2, 0, 0, 0, 0, 0, 0, 0, 0, 0, 2, 0, 0, 0, 0, 0, 0, 0};

static const uint8_t records[] = {0, 0x00, 0x00, 0x03, 0, 0x00, 0x00, 0x03, 5, 0x00, 0x00, 0x03};

/* No settings and no events: it runs, and has no records. */
static const uint8_t empty[4];

static int failures;

static void expect(const char *what, int passed)
{
    printf("%s: %s\n", what, passed ? "ok" : "DIFFERENT");
    failures += !passed;
}

/* Hands over each damaged sheet with its name and the number that it is turned down with. */
static void each_damaged(void (*take)(const char *what, const uint8_t *sheet, size_t len, uint8_t number))
{
    static uint8_t large[65536];
    uint8_t lengthened[sizeof example + 1] = {0}, changed[sizeof example];
    memcpy(lengthened, example, sizeof example);

    take("65,536 bytes: 9", large, sizeof large, 9);
    take("a byte short: 10", example, sizeof example - 1, 10);
    take("no byte: 10", example, 0, 10);
    take("a byte more: 11", lengthened, sizeof lengthened, 11);

    /* The Hit, from byte 14 on: of a kind that there is not, or a finer measurement with a field at fault. */
    memcpy(changed, example, sizeof example);
    changed[14] = 5;
    take("kind 5: 12", changed, sizeof changed, 12);
    changed[14] = 4;
    changed[16] = 1;
    take("kind 4 with b 1: 12", changed, sizeof changed, 12);
    changed[16] = 0;
    changed[17] = 1;
    take("kind 4 with byte 3 not 0: 12", changed, sizeof changed, 12);
    changed[17] = 0;
    changed[19] = 0x80;
    take("kind 4 with the word 32768: 12", changed, sizeof changed, 12);
}

#endif
