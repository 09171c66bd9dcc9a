/* The memory that the libraries take, beside the figures of controller.h: the stack of each function, called on a stack that was painted, and text and
 * data of each library, as `size` writes them to standard input. A figure is at fault if it is too small, or much too large.
 * All calls are made once before the stack is painted, so that the binding of memcpy and memset at their first call does not count. */
#include "controller.h"

#include <stdio.h>

#define LENGTH(array) (sizeof(array) / sizeof *(array))

static int failures;

static void expect(const char *what, const char *of, size_t measured, size_t figure, size_t most_above)
{
    int passed = measured <= figure && figure <= measured + most_above;
    printf("%s of %s: %zu bytes, %zu in controller.h: %s\n", what, of, measured, figure, passed ? "ok" : "DIFFERENT");
    failures += !passed;
}

/* ---- what is lent */

enum { TICK, MEASUREMENT, HIT, WRITE, FINER_MEASUREMENT };

/* The life of a unit: events, each so often. */
static const struct { int count; uint8_t kind, a, b; int32_t word; } life[] = {
    {1, WRITE, 0x40, 1, 0},             /* automatic control */
    {1, WRITE, 0x1d, 8, 0},             /* input 2 revertive */
    {1, MEASUREMENT, 2, 0, 0},
    {78, TICK, 0, 1, 0},
    {1, TICK, 0, 1, 0},                 /* input 2 is selected, and a history builds */
    {15 + 43 * 128 - 1, TICK, 0, 1, 7},
    {1, TICK, 0, 1, 7},                 /* its 43rd block: Ready */
    {1, WRITE, 0x26, 1, 0},             /* a backup */
    {127, TICK, 0, 1, 7},
    {1, TICK, 0, 1, 7},                 /* a block more */
    {1, WRITE, 0x43, 1, 0},             /* a delay of 469 ticks */
    {1, FINER_MEASUREMENT, 1, 0, 0},
    {78 + 469, TICK, 0, 1, 0},
    {1, TICK, 0, 1, 0},                 /* the wait ends: input 1 is selected */
    {781, TICK, 0, 0, 0},
    {1, TICK, 0, 0, 0},                 /* a lock alarm: input 2 is selected */
    {1, HIT, 0, 0, 0},                  /* Holdover */
    {1, WRITE, 0x26, 2, 0},             /* the backup is back */
    {1, WRITE, 0x26, 3, 0},             /* no blocks */
    {1, FINER_MEASUREMENT, 9, 0, 0},    /* refused */
    {1, TICK, 0, 0, 125000001},         /* refused */
    {8, TICK, 0xff, 0, 0},              /* activity alarms */
};

/* The unit before its life and after each line of it, each followed by itself with the next tick in a window. */
static struct unit units[2 * LENGTH(life) + 2];

static void make_units(void)
{
    struct unit u = unit_fresh();
    for (size_t i = 0;; i++) {
        const uint32_t window[16] = {u.core.place, u.core.place + 1};
        units[2 * i] = units[2 * i + 1] = u;
        unit_set_windows(&units[2 * i + 1], 1, window);
        if (i == LENGTH(life))
            return;
        for (int n = 0; n < life[i].count; n++)
            unit_event(&u, life[i].kind, life[i].a, life[i].b, life[i].word);
    }
}

/* The same life as a sheet, after settings of which some are refused; then the sheet with a last event that is none. And the outputs. */
static const uint8_t settings[] = {0x43, 0, 0x44, 127, 0x26, 3, 0x26, 1, 0x45, 127, 0x24, 32, 0x48, 0, 0, 0};
static uint8_t sheets[2][65536], records[250000], pages[250000];
static size_t sheet_len;

static void put(size_t number, int bytes)
{
    for (; bytes > 0; bytes--, number >>= 8)
        sheets[0][sheet_len++] = (uint8_t)number;
}

static void make_sheets(void)
{
    size_t count = 0;
    for (size_t i = 0; i < LENGTH(life); i++)
        count += (size_t)life[i].count;
    put(sizeof settings / 2, 2);
    for (size_t i = 0; i < sizeof settings; i++)
        put(settings[i], 1);
    put(count, 2);
    for (size_t i = 0; i < LENGTH(life); i++)
        for (int n = 0; n < life[i].count; n++) {
            put(life[i].kind, 1);
            put(life[i].a, 1);
            put(life[i].b, 2);
            put((uint32_t)life[i].word, 4);
        }
    memcpy(sheets[1], sheets[0], sizeof sheets[1]);
    sheets[1][sheet_len - 8] = FINER_MEASUREMENT + 1;
}

/* A table that loads, one with a command, one with limits 5 apart; and windows, of which the first eight are accepted. */
static const uint8_t tables[][UNIT_REGISTERS + 1] = {{[16] = 31, [17] = 25}, {[10] = 3, [16] = 31, [17] = 25}, {[16] = 30, [17] = 25}};
static const uint32_t windows[][16] = {{1, 2, 3, 4, 5, 6, 7, 8, 9, 10, 11, 12, 13, 14, 15, 16}, {1, 2, 2, 3}, {0, 1, 4724999, 4725000}};

/* ---- the calls */

/* The values that an argument takes, each with all those of the others. From one unit or sheet to the next the step is its size. */
struct values {
    size_t step, count;
    const uint64_t *value;
};

#define THESE(...) {0, LENGTH(((const uint64_t[]){__VA_ARGS__})), (const uint64_t[]){__VA_ARGS__}}

static struct values range(uint64_t first, size_t step, size_t count)
{
    static uint64_t all[1024], *next = all;
    struct values values = {step, count, next};
    for (; count > 0; count--, first += step)
        *next++ = first;
    return values;
}

#define EACH(array) range((uintptr_t)(array), sizeof *(array), LENGTH(array))

struct function {
    const char *name;
    void (*function)(void);
    size_t figure;
    struct values arguments[6];
};

#define FUNCTION(name, figure, ...) {#name, (void (*)(void))name, figure, {__VA_ARGS__}}

/* Calls a function on the stack that ends at top. Its arguments, up to six, are all passed in registers. */
void call_on(uint64_t *top, void (*function)(void), const uint64_t arguments[6]);
__asm__(".text\n"
        "call_on:\n"
        "    push %rbp\n"
        "    mov %rsp, %rbp\n"
        "    mov %rdi, %rsp\n"
        "    mov %rsi, %rax\n"
        "    mov %rdx, %r10\n"
        "    mov (%r10), %rdi\n"
        "    mov 8(%r10), %rsi\n"
        "    mov 16(%r10), %rdx\n"
        "    mov 24(%r10), %rcx\n"
        "    mov 32(%r10), %r8\n"
        "    mov 40(%r10), %r9\n"
        "    call *%rax\n"
        "    mov %rbp, %rsp\n"
        "    pop %rbp\n"
        "    ret\n");

static _Alignas(16) uint64_t stack[8192];

/* Makes all calls of a function, with a copy of the unit or sheet for each. */
static void call(const struct function *f)
{
    static _Alignas(struct unit) uint8_t lent[sizeof *sheets];
    size_t at[6] = {0}, i;
    do {
        uint64_t arguments[6] = {0};
        for (i = 0; i < 6; i++)
            if (f->arguments[i].count)
                arguments[i] = f->arguments[i].value[at[i]];
        memcpy(lent, (const void *)arguments[0], f->arguments[0].step);
        arguments[0] = (uintptr_t)lent;
        call_on(stack + LENGTH(stack), f->function, arguments);
        for (i = 0; i < 6 && ++at[i] >= f->arguments[i].count; i++)
            at[i] = 0;
    } while (i < 6);
}

/* How much of the stack the calls of a function have changed. */
static size_t stack_of(const struct function *f)
{
    const uint64_t paint = UINT64_C(0x5aa596693cc30ff0);
    size_t unused = 0;
    call(f);
    for (size_t i = 0; i < LENGTH(stack); i++)
        stack[i] = paint;
    call(f);
    while (unused < LENGTH(stack) && stack[unused] == paint)
        unused++;
    return sizeof stack - unused * sizeof *stack;
}

static void stacks(void)
{
    const struct values unit = EACH(units), to_4 = range(0, 1, 5), to_9 = range(0, 1, 10), byte = range(0, 1, 256);
    const struct values sheet = EACH(sheets), len = THESE(0, sheet_len - 1, sheet_len, sheet_len + 1, sizeof *sheets), room = THESE(0, sizeof pages);
    const struct function functions[] = {
        FUNCTION(unit_make, UNIT_MAKE_STACK, unit),
        FUNCTION(unit_load, UNIT_LOAD_STACK, unit, EACH(tables), THESE(0, 26, 27, 28)),
        FUNCTION(unit_event, UNIT_EVENT_STACK, unit, range(0, 1, FINER_MEASUREMENT + 2), byte, THESE(0, 1, 2, 3, 31, 255), THESE(0, 32768, 125000001)),
        FUNCTION(unit_read, UNIT_READ_STACK, unit, byte),
        FUNCTION(unit_set_bucket, UNIT_SET_BUCKET_STACK, unit, to_4, THESE(8), THESE(6, 9), THESE(4, 6), to_4),
        FUNCTION(unit_assign_bucket, UNIT_ASSIGN_BUCKET_STACK, unit, to_9, to_4),
        FUNCTION(unit_set_week, UNIT_SET_WEEK_STACK, unit, THESE(4724999, 4725000)),
        FUNCTION(unit_set_windows, UNIT_SET_WINDOWS_STACK, unit, to_9, EACH(windows)),
        FUNCTION(sheet_check, SHEET_CHECK_STACK, sheet, len, room),
        FUNCTION(sheet_run, SHEET_RUN_STACK, sheet, len, THESE((uintptr_t)records), room),
        FUNCTION(sheet_print, SHEET_PRINT_STACK, sheet, len, THESE((uintptr_t)records), room, THESE((uintptr_t)pages), room),
    };
    for (size_t i = 0; i < LENGTH(functions); i++)
        expect("stack", functions[i].name, stack_of(&functions[i]), functions[i].figure, 64);
}

/* ---- the libraries */

static struct { const char *name; size_t figure, text, data; } libraries[] = {
    {"libhost.a", LIBHOST_TEXT, 0, 0}, {"librun.a", LIBRUN_TEXT, 0, 0}, {"libprint.a", LIBPRINT_TEXT, 0, 0},
};

/* A line of `size` has text, data and bss of a part of the library that is named at its end. */
static void sizes(void)
{
    char line[1024];
    while (fgets(line, sizeof line, stdin)) {
        size_t text, data, bss;
        if (sscanf(line, "%zu %zu %zu", &text, &data, &bss) == 3)
            for (size_t i = 0; i < LENGTH(libraries); i++)
                if (strstr(line, libraries[i].name)) {
                    libraries[i].text += text;
                    libraries[i].data += data + bss;
                }
    }
    for (size_t i = 0; i < LENGTH(libraries); i++) {
        expect("text", libraries[i].name, libraries[i].text, libraries[i].figure, libraries[i].text / 50);
        expect("data", libraries[i].name, libraries[i].data, 0, 0);
    }
}

int main(void)
{
    make_units();
    make_sheets();
    stacks();
    sizes();
    printf("the figures of memory: %s\n", failures ? "FAILED" : "passed");
    return failures != 0;
}
