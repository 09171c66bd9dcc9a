/* The page of document 01's example sheet, printed by a host in C, and the same sheet damaged or with too little room. */
#include "example.h"

enum { LINE = 28, LINES = 50, PAGE = LINES * LINE };

static const char *const lines[] = {
    "    0 Free Run      0  0 03\n",
    "    1 Free Run      0  0 03\n",
    "    2 Free Run      0  5 03\n",
};

static const char blank_line[] = "                           \n";

/* Both outputs, each with a byte more than the example needs. */
static uint8_t for_records[sizeof records + 1], for_pages[PAGE + 1];

/* The number of a print with so much of the outputs. */
static uint8_t print(const uint8_t *sheet, size_t len, size_t records_len, size_t pages_len)
{
    memset(for_records, UNTOUCHED, sizeof for_records);
    memset(for_pages, UNTOUCHED, sizeof for_pages);
    return sheet_print(sheet, len, for_records, records_len, for_pages, pages_len);
}

static int untouched(const uint8_t *bytes, size_t len)
{
    while (len > 0 && bytes[len - 1] == UNTOUCHED)
        len--;
    return len == 0;
}

static int both_untouched(void)
{
    return untouched(for_records, sizeof for_records) && untouched(for_pages, sizeof for_pages);
}

/* Whether both outputs have what the example gives, and no byte after it is changed. */
static int both_written(void)
{
    int same = memcmp(for_records, records, sizeof records) == 0;
    for (int i = 0; i < LINES; i++)
        same = same && memcmp(for_pages + i * LINE, i < 3 ? lines[i] : blank_line, LINE) == 0;
    return same && for_records[sizeof records] == UNTOUCHED && for_pages[PAGE] == UNTOUCHED;
}

/* A sheet that is turned down leaves both outputs. */
static void refused(const char *what, const uint8_t *sheet, size_t len, size_t records_len, size_t pages_len, uint8_t number)
{
    expect(what, print(sheet, len, records_len, pages_len) == number && both_untouched());
}

/* With room for all, and with none: 13 comes after the sheet's own numbers. */
static void damaged(const char *what, const uint8_t *sheet, size_t len, uint8_t number)
{
    refused(what, sheet, len, sizeof for_records, sizeof for_pages, number);
    refused("  and with outputs of no byte", sheet, len, 0, 0, number);
}

int main(void)
{
    expect("the sheet is printed", print(example, sizeof example, sizeof for_records, sizeof for_pages) == 0);
    expect("records and page are the document's, the bytes after them unchanged", both_written());
    expect("outputs of the very length will do", print(example, sizeof example, sizeof records, PAGE) == 0 && both_written());
    expect("no records: no page, and 0", print(empty, sizeof empty, sizeof for_records, sizeof for_pages) == 0 && both_untouched());
    expect("no records: outputs of no byte will do", print(empty, sizeof empty, 0, 0) == 0 && both_untouched());
    each_damaged(damaged);
    refused("the records' output a byte short: 13", example, sizeof example, sizeof records - 1, sizeof for_pages, 13);
    refused("the pages' output a byte short: 13", example, sizeof example, sizeof for_records, PAGE - 1, 13);
    refused("no byte for pages: 13", example, sizeof example, sizeof for_records, 0, 13);
    printf("the example's page: %s\n", failures ? "FAILED" : "passed");
    return failures != 0;
}
