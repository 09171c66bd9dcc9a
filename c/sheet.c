/* Document 01's example sheet, checked and run by a host in C, and the same sheet damaged. */
#include "example.h"

static void whole(void)
{
    uint8_t output[sizeof records + 1];
    memset(output, UNTOUCHED, sizeof output);
    expect("the sheet will run", sheet_check(example, sizeof example, sizeof records) == 0);
    expect("its records are written", sheet_run(example, sizeof example, output, sizeof output) == sizeof records);
    expect("they are the document's", memcmp(output, records, sizeof records) == 0);
    expect("the byte after them is unchanged", output[sizeof records] == UNTOUCHED);
}

/* The 0 of a run without records is told from that of a refusal by the check. */
static void without_records(void)
{
    uint8_t output[4] = {UNTOUCHED, UNTOUCHED, UNTOUCHED, UNTOUCHED};
    int nothing = sheet_run(empty, sizeof empty, output, sizeof output) == 0 && output[0] == UNTOUCHED;
    expect("no records: nothing is written, and the check gives 0", nothing && sheet_check(empty, sizeof empty, 0) == 0);
}

/* A sheet that is turned down writes nothing. */
static void refused(const char *what, const uint8_t *sheet, size_t len, size_t room, uint8_t number)
{
    uint8_t output[sizeof records], before[sizeof records];
    memset(output, UNTOUCHED, sizeof output);
    memcpy(before, output, sizeof output);
    int passed = sheet_check(sheet, len, room) == number && sheet_run(sheet, len, output, room) == 0;
    expect(what, passed && memcmp(output, before, sizeof output) == 0);
}

static void damaged(const char *what, const uint8_t *sheet, size_t len, uint8_t number)
{
    refused(what, sheet, len, sizeof records, number);
}

int main(void)
{
    whole();
    without_records();
    each_damaged(damaged);
    refused("an output a byte short: 13", example, sizeof example, sizeof records - 1, 13);
    printf("the example sheet: %s\n", failures ? "FAILED" : "passed");
    return failures != 0;
}
