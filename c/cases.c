/* Document 01's cases A to J ("Marked trials") and cases of document 02's #102, #104, #105, #106 and #107, driven by a host in C through the functions of
 * libhost.a. */
#include "controller.h"

#include <stdio.h>
#include <string.h>

enum { TICK, MEASUREMENT, HIT, WRITE, FINER_MEASUREMENT };

enum { SOAK_TICKS = 79, LOCK_TICKS = 16, BLOCK_TICKS = 128, READY_BLOCKS = 43 };

static int failures;

/* A line for each thing that a case says. */
static void expect(const char *what, long got, long want)
{
    printf("%s: %s\n", what, got == want ? "ok" : "DIFFERENT");
    if (got != want) {
        printf("  got %ld, want %ld\n", got, want);
        failures++;
    }
}

static int write_register(struct unit *u, uint8_t address, uint8_t value)
{
    return unit_event(u, WRITE, address, value, 0);
}

static int measure(struct unit *u, uint8_t input, int8_t offset)
{
    return unit_event(u, MEASUREMENT, input, (uint8_t)offset, 0);
}

/* The offset in 1/64 ppm. */
static int measure_finely(struct unit *u, uint8_t input, int32_t offset)
{
    return unit_event(u, FINER_MEASUREMENT, input, 0, offset);
}

static void ticks(struct unit *u, long n, uint8_t irregular, uint8_t lock, int32_t sample)
{
    while (n-- > 0)
        unit_event(u, TICK, irregular, lock, sample);
}

static void clean_ticks(struct unit *u, long n)
{
    ticks(u, n, 0, 0, 0);
}

static int state_byte(const struct unit *u)
{
    return unit_read(u, 0x48);
}

static int selected(const struct unit *u)
{
    return state_byte(u) % 16;
}

static int ready(const struct unit *u)
{
    return unit_read(u, 0x49) / 4 % 2;
}

/* 0x4a to 0x4d, low byte first, two's complement. */
static int32_t value(const struct unit *u)
{
    uint32_t bits = 0;
    for (int i = 3; i >= 0; i--)
        bits = bits << 8 | unit_read(u, (uint8_t)(0x4a + i));
    return (int32_t)bits;
}

static int activity_alarm(const struct unit *u, int input)
{
    return u->monitors.activity[input - 1];
}

static int frequency_alarm(const struct unit *u, int input)
{
    return u->monitors.frequency[input - 1];
}

/* unit_fresh makes its unit over bytes of 0. */
static void making(void)
{
    struct unit u, fresh = unit_fresh();
    memset(&u, 0xff, sizeof u);
    unit_make(&u);
    expect("unit_make over bytes of 0xff gives the bytes of unit_fresh", memcmp(&u, &fresh, sizeof u), 0);
}

static void activity(void)
{
    struct unit u = unit_fresh();
    ticks(&u, 5, 1, 0, 0);
    expect("A five irregular ticks: no alarm", activity_alarm(&u, 1), 0);
    ticks(&u, 1, 1, 0, 0);
    expect("A a sixth: alarm", activity_alarm(&u, 1), 1);
    clean_ticks(&u, 3);
    expect("B then three clean ticks: alarm", activity_alarm(&u, 1), 1);
    clean_ticks(&u, 1);
    expect("B a fourth: clear", activity_alarm(&u, 1), 0);
}

/* The frequency alarm of input 1 after a measurement of either kind, from fresh, where it is set, or after a measurement of 0 has cleared it. */
static int alarm_after_event(uint8_t kind, uint8_t b, int32_t word, int cleared)
{
    struct unit u = unit_fresh();
    if (cleared)
        measure(&u, 1, 0);
    unit_event(&u, kind, 1, b, word);
    return frequency_alarm(&u, 1);
}

static int alarm_after(int8_t offset, int cleared)
{
    return alarm_after_event(MEASUREMENT, (uint8_t)offset, 0, cleared);
}

static int alarm_after_finer(int32_t offset, int cleared)
{
    return alarm_after_event(FINER_MEASUREMENT, 0, offset, cleared);
}

static void frequency(void)
{
    expect("C offset -128 sets", alarm_after(-128, 1), 1);
    expect("D 32 sets", alarm_after(32, 1), 1);
    expect("D 31 keeps a set alarm", alarm_after(31, 0), 1);
    expect("D 31 keeps a clear one", alarm_after(31, 1), 0);
    expect("D 26 keeps a set alarm", alarm_after(26, 0), 1);
    expect("D 26 keeps a clear one", alarm_after(26, 1), 0);
    expect("D 25 clears", alarm_after(25, 0), 0);
}

/* All bytes are compared around the refusal. */
static void limits(void)
{
    struct unit u = unit_fresh();
    unsigned char before[sizeof u];
    memcpy(before, &u, sizeof u);
    expect("E fresh: 0x44 = 30 gives 4", write_register(&u, 0x44, 30), 4);
    expect("E and leaves the unit as it was", memcmp(&u, before, sizeof u), 0);
    expect("E 0x45 = 24 is accepted", write_register(&u, 0x45, 24), 0);
    expect("E then 0x44 = 30 is accepted", write_register(&u, 0x44, 30), 0);
}

/* A unit in automatic control that has selected one input, the first that qualifies. */
static struct unit tracking(uint8_t input)
{
    struct unit u = unit_fresh();
    write_register(&u, 0x40, 1);
    measure(&u, input, 0);
    clean_ticks(&u, SOAK_TICKS);
    return u;
}

static void first_lock(void)
{
    struct unit u = unit_fresh();
    write_register(&u, 0x40, 1);
    measure(&u, 1, 0);
    clean_ticks(&u, SOAK_TICKS - 1);
    expect("F 78 clean ticks: 0x48 is 0x00", state_byte(&u), 0x00);
    clean_ticks(&u, 1);
    expect("F the 79th: 0x21", state_byte(&u), 0x21);
    ticks(&u, LOCK_TICKS - 1, 0, 1, 0);
    expect("G 15 lock ticks more: 0x21", state_byte(&u), 0x21);
    ticks(&u, 1, 0, 1, 0);
    expect("G a 16th: 0x31", state_byte(&u), 0x31);
}

/* The tick that gives Locked is the first with a sample. */
static void mean_of_43_blocks(void)
{
    struct unit u = tracking(1);
    ticks(&u, LOCK_TICKS - 1, 0, 1, 0);
    ticks(&u, 1, 0, 1, -1);
    ticks(&u, (long)READY_BLOCKS * BLOCK_TICKS - 1, 0, 1, 0);
    expect("H 43 blocks: Ready", ready(&u), 1);
    expect("H sums -1 and 42 times 0: value -1", value(&u), -1);
}

/* A unit that has selected input 2, which is revertive; the next tick makes input 1 available, and is the first of the wait. Both have priority 0. */
static struct unit reverting(uint8_t delay)
{
    struct unit u = tracking(2);
    write_register(&u, 0x1d, 8);
    write_register(&u, 0x43, delay);
    measure(&u, 1, 0);
    clean_ticks(&u, SOAK_TICKS - 1);
    return u;
}

/* How many ticks after the one that makes input 1 available the unit reverts to it from input 2. */
static long reversion(uint8_t delay, long at_most)
{
    struct unit u = reverting(delay);
    clean_ticks(&u, 1);
    long n = 0;
    while (selected(&u) != 1 && n < at_most) {
        ticks(&u, 1, 0, 1, 0);
        n++;
    }
    return n;
}

static void equal_priority(void)
{
    struct unit u = tracking(2);
    measure(&u, 1, 0);
    clean_ticks(&u, SOAK_TICKS);
    expect("J non-revertive: input 1 does not take over", selected(&u), 2);
    expect("J revertive, delay 0: input 1 takes over", reversion(0, 1), 0);
}

/* A switch to input 2 under policy 0, and the loss of that clock before it has a history of its own. */
static void kept_value(void)
{
    struct unit u = tracking(1);
    ticks(&u, LOCK_TICKS - 1 + (long)READY_BLOCKS * BLOCK_TICKS, 0, 1, 7);
    measure(&u, 2, 0);
    clean_ticks(&u, SOAK_TICKS);
    write_register(&u, 0x42, 2);
    clean_ticks(&u, 1);
    expect("#102 input 2 is selected", selected(&u), 2);
    expect("#102 a history builds", u.core.tally.builds != 0, 1);
    expect("#102 Ready stands", ready(&u), 1);
    expect("#102 with the value of input 1", value(&u), 7);
    write_register(&u, 0x42, 0);
    clean_ticks(&u, 1);
    expect("#102 input 2 is lost: Holdover", state_byte(&u), 0x10);
}

/* The refusal of an event, of a call or of a table, and that it left every byte as it was. */
static void expect_refused(const char *what, const struct unit *u, const unsigned char *before, int got, int want)
{
    expect(what, got, want);
    expect("  and leaves the unit as it was", memcmp(u, before, sizeof *u), 0);
}

static void refused_buckets(void)
{
    struct unit u = tracking(1);
    unsigned char before[sizeof u];
    memcpy(before, &u, sizeof u);
    expect_refused("#104 set 4 gives 14", &u, before, unit_set_bucket(&u, 4, 8, 6, 4, 1), 14);
    expect_refused("#104 set level above size gives 14", &u, before, unit_set_bucket(&u, 1, 8, 9, 4, 1), 14);
    expect_refused("#104 clear level at set level gives 14", &u, before, unit_set_bucket(&u, 1, 8, 6, 6, 1), 14);
    expect_refused("#104 decay 4 gives 14", &u, before, unit_set_bucket(&u, 1, 8, 6, 4, 4), 14);
    expect_refused("#104 assigning set 4 gives 14", &u, before, unit_assign_bucket(&u, 8, 4), 14);
    expect_refused("#104 input 0 gives 6", &u, before, unit_assign_bucket(&u, 0, 3), 6);
    expect_refused("#104 input 9 gives 6, with set 4 too", &u, before, unit_assign_bucket(&u, 9, 4), 6);
}

/* Input 1 gets a set of its own: from level 20 to 5 in 15 times 8 clean ticks, of which the last is the first of the soak. */
static void bucket_sets(void)
{
    struct unit u = tracking(1);
    expect("#104 set 1 as 20, 10, 5, 3 is accepted", unit_set_bucket(&u, 1, 20, 10, 5, 3), 0);
    expect("#104 no input has it: no alarm", activity_alarm(&u, 1), 0);
    expect("#104 input 1 gets it", unit_assign_bucket(&u, 1, 1), 0);
    expect("#104 and is at level 20", u.monitors.level[0], 20);
    expect("#104 with the alarm set", activity_alarm(&u, 1), 1);
    expect("#104 input 2 is left as it was", activity_alarm(&u, 2), 0);
    clean_ticks(&u, 119);
    expect("#104 119 clean ticks: alarm, not selected", activity_alarm(&u, 1) + selected(&u), 1);
    clean_ticks(&u, 1);
    expect("#104 the 120th: clear", activity_alarm(&u, 1), 0);
    clean_ticks(&u, SOAK_TICKS - 2);
    expect("#104 77 more: not selected", selected(&u), 0);
    clean_ticks(&u, 1);
    expect("#104 78 more: selected", selected(&u), 1);
    ticks(&u, 9, 1, 1, 0);
    expect("#104 nine irregular ticks: still selected", selected(&u), 1);
    ticks(&u, 1, 1, 1, 0);
    expect("#104 a tenth: alarm, not selected", 10 * activity_alarm(&u, 1) + selected(&u), 10);
    expect("#104 set 1 once more, as it was", unit_set_bucket(&u, 1, 20, 10, 5, 3), 0);
    expect("#104 puts input 1 at level 20 again", u.monitors.level[0], 20);
}

/* The table of a unit that wakes in automatic control: input 2 is preferred, input 1 revertive. */
static const uint8_t buyers_own[UNIT_REGISTERS] = {
    0xf9, 0, 2, 2, 2, 2, 2, 2, /* 0x1c to 0x23 */
    0, 0, 0, 0,                /* 0x24 to 0x27 */
    1, 0, 3, 1, 31, 25,        /* 0x40 to 0x45 */
    0, 0, 0, 0, 0, 0, 0, 0, 0, /* 0x46 to 0x4e */
};

/* The slot of a register in a table. */
static int table_slot(int address)
{
    return address < 0x40 ? address - 0x1c : address - 0x40 + 12;
}

static void refused_tables(void)
{
    static const struct { const char *what; int address; uint8_t value; } wrong[] = {
        {"#105 a command gives 15", 0x26, 3},
        {"#105 a nonzero for the read-only 0x27 gives 15", 0x27, 1},
        {"#105 a nonzero for the read-only 0x46 gives 15", 0x46, 255},
        {"#105 a nonzero for the read-only 0x4e gives 15", 0x4e, 1},
        {"#105 Free Run above 31 gives 15", 0x24, 32},
        {"#105 control above 1 gives 15", 0x40, 2},
        {"#105 limits 5 apart give 15", 0x44, 30},
        {"#105 a reject limit below the other gives 15", 0x44, 24},
    };
    struct unit u = tracking(1);
    unsigned char before[sizeof u];
    memcpy(before, &u, sizeof u);
    uint8_t table[UNIT_REGISTERS + 1] = {0};
    memcpy(table, buyers_own, UNIT_REGISTERS);
    expect_refused("#105 no byte gives 15", &u, before, unit_load(&u, table, 0), 15);
    expect_refused("#105 a byte short gives 15", &u, before, unit_load(&u, table, UNIT_REGISTERS - 1), 15);
    expect_refused("#105 a byte more gives 15", &u, before, unit_load(&u, table, UNIT_REGISTERS + 1), 15);
    for (size_t i = 0; i < sizeof wrong / sizeof *wrong; i++) {
        memcpy(table, buyers_own, UNIT_REGISTERS);
        table[table_slot(wrong[i].address)] = wrong[i].value;
        expect_refused(wrong[i].what, &u, before, unit_load(&u, table, UNIT_REGISTERS), 15);
    }
}

/* A unit with a past is made anew, and locks without a write. */
static void fresh_values(void)
{
    struct unit u = tracking(1);
    ticks(&u, LOCK_TICKS - 1 + (long)READY_BLOCKS * BLOCK_TICKS, 0, 1, 7);
    expect("#105 a unit with a past: Ready", ready(&u), 1);
    expect("#105 and with another bucket set", unit_set_bucket(&u, 0, 20, 10, 5, 3), 0);
    expect("#105 a table loads", unit_load(&u, buyers_own, UNIT_REGISTERS), 0);
    struct unit other;
    memset(&other, 0xff, sizeof other);
    unit_load(&other, buyers_own, UNIT_REGISTERS);
    expect("#105 and gives the same bytes, whatever they were before", memcmp(&u, &other, sizeof u), 0);
    expect("#105 Free Run, selected 0", state_byte(&u), 0x00);
    expect("#105 0x1c without its upper bits", unit_read(&u, 0x1c), 9);
    expect("#105 no longer Ready", ready(&u), 0);
    expect("#105 the bucket set is the fresh one", u.buckets.sets[0].size, 8);
    expect("#105 a frequency alarm, as on any fresh unit", frequency_alarm(&u, 1), 1);
    measure(&u, 1, 0);
    measure(&u, 2, 0);
    clean_ticks(&u, SOAK_TICKS - 1);
    expect("#105 78 clean ticks: 0x48 is 0x00", state_byte(&u), 0x00);
    clean_ticks(&u, 1);
    expect("#105 the 79th: 0x22", state_byte(&u), 0x22);
    ticks(&u, LOCK_TICKS, 0, 1, 0);
    expect("#105 16 lock ticks: 0x32, and no write has come", state_byte(&u), 0x32);
}

/* The fresh limits are 992 and 800 steps of 1/64 ppm. */
static void finer_readings(void)
{
    expect("#106 993 sets", alarm_after_finer(993, 1), 1);
    expect("#106 -993 sets", alarm_after_finer(-993, 1), 1);
    expect("#106 992 keeps a set alarm", alarm_after_finer(992, 0), 1);
    expect("#106 992 keeps a clear one", alarm_after_finer(992, 1), 0);
    expect("#106 -801 keeps a set alarm", alarm_after_finer(-801, 0), 1);
    expect("#106 801 keeps a clear one", alarm_after_finer(801, 1), 0);
    expect("#106 800 clears", alarm_after_finer(800, 0), 0);
    expect("#106 -800 clears", alarm_after_finer(-800, 0), 0);
    expect("#106 -32768 sets", alarm_after_finer(-32768, 1), 1);
    expect("#106 32767 sets", alarm_after_finer(32767, 1), 1);
    struct unit u = unit_fresh();
    write_register(&u, 0x44, 127);
    measure_finely(&u, 1, 0);
    measure_finely(&u, 1, 4064);
    expect("#106 reject limit 127: 4064 keeps a clear alarm", frequency_alarm(&u, 1), 0);
    measure_finely(&u, 1, -4065);
    expect("#106 reject limit 127: -4065 sets", frequency_alarm(&u, 1), 1);
}

/* How often a byte of the old kind does otherwise than 32 times it, from a set alarm and from a clear one. */
static int unlike_old(void)
{
    int n = 0;
    for (int byte = -128; byte <= 127; byte++)
        for (int cleared = 0; cleared <= 1; cleared++)
            n += alarm_after((int8_t)byte, cleared) != alarm_after_finer(32 * byte, cleared);
    return n;
}

static void refused_readings(void)
{
    static const struct { const char *what; uint8_t kind, a, b; int32_t word; int refusal; } wrong[] = {
        {"#106 b 1 gives 12", FINER_MEASUREMENT, 1, 1, 0, 12},
        {"#106 the word 32768 gives 12", FINER_MEASUREMENT, 1, 0, 32768, 12},
        {"#106 the word -32769 gives 12", FINER_MEASUREMENT, 1, 0, -32769, 12},
        {"#106 kind 5 gives 12", FINER_MEASUREMENT + 1, 1, 0, 0, 12},
        {"#106 input 0 gives 6", FINER_MEASUREMENT, 0, 0, 993, 6},
        {"#106 input 9 gives 6", FINER_MEASUREMENT, 9, 0, 993, 6},
        {"#106 input 9 with b 1 gives 12", FINER_MEASUREMENT, 9, 1, 993, 12},
    };
    struct unit u = tracking(1);
    unsigned char before[sizeof u];
    memcpy(before, &u, sizeof u);
    for (size_t i = 0; i < sizeof wrong / sizeof *wrong; i++) {
        int refusal = unit_event(&u, wrong[i].kind, wrong[i].a, wrong[i].b, wrong[i].word);
        expect_refused(wrong[i].what, &u, before, refusal, wrong[i].refusal);
    }
}

/* A reference that drifts out by a step, and back. */
static void drift(void)
{
    struct unit u = tracking(1);
    expect("#106 992 on the selected input is accepted", measure_finely(&u, 1, 992), 0);
    clean_ticks(&u, 1);
    expect("#106 it stays selected", selected(&u), 1);
    expect("#106 a step more is accepted", measure_finely(&u, 1, 993), 0);
    clean_ticks(&u, 1);
    expect("#106 it is lost with the next tick", selected(&u), 0);
    measure_finely(&u, 1, 801);
    clean_ticks(&u, SOAK_TICKS);
    expect("#106 801 does not bring it back", selected(&u), 0);
    measure_finely(&u, 1, 800);
    clean_ticks(&u, SOAK_TICKS - 1);
    expect("#106 800 and 78 clean ticks: not selected", selected(&u), 0);
    clean_ticks(&u, 1);
    expect("#106 the 79th: selected", selected(&u), 1);
}

enum { WEEK = 4725000 };

/* Sets so many windows, of which the first two have these starts and ends. */
static int set_windows(struct unit *u, uint8_t count, uint32_t start, uint32_t end, uint32_t next_start, uint32_t next_end)
{
    const uint32_t windows[16] = {start, end, next_start, next_end};
    return unit_set_windows(u, count, windows);
}

static void refused_weeks(void)
{
    static const struct { const char *what; uint8_t count; uint32_t windows[16]; } wrong[] = {
        {"#107 nine windows give 16", 9, {1, 2, 3, 4, 5, 6, 7, 8, 9, 10, 11, 12, 13, 14, 15, 16}},
        {"#107 a start at its end gives 16", 1, {5, 5}},
        {"#107 a start after its end gives 16", 1, {6, 5}},
        {"#107 an end past the week gives 16", 1, {5, WEEK + 1}},
        {"#107 windows that touch give 16", 2, {5, 9, 9, 12}},
        {"#107 windows that do not ascend give 16", 2, {5, 9, 2, 4}},
        {"#107 the first at 0 with the last ending the week gives 16", 2, {0, 1, 9, WEEK}},
        {"#107 a window of the whole week gives 16", 1, {0, WEEK}},
    };
    struct unit u = reverting(0);
    set_windows(&u, 1, 1, 1000, 0, 0);
    clean_ticks(&u, 1);
    unsigned char before[sizeof u];
    memcpy(before, &u, sizeof u);
    expect_refused("#107 place 4,725,000 gives 16", &u, before, unit_set_week(&u, WEEK), 16);
    for (size_t i = 0; i < sizeof wrong / sizeof *wrong; i++) {
        uint32_t lent[16];
        memcpy(lent, wrong[i].windows, sizeof lent);
        expect_refused(wrong[i].what, &u, before, unit_set_windows(&u, wrong[i].count, lent), 16);
        expect("  and the numbers too", memcmp(lent, wrong[i].windows, sizeof lent), 0);
    }
}

/* Input 1 is waited for from place 1,000 on, in two windows with one free tick between. */
static void busy_hours(void)
{
    struct unit u = reverting(0);
    expect("#107 each tick advances the place", (long)u.core.place, 2 * SOAK_TICKS - 1);
    expect("#107 two windows with a free tick between are accepted", set_windows(&u, 2, 1000, 1010, 1011, 1020), 0);
    expect("#107 and leave the place as it is", (long)u.core.place, 2 * SOAK_TICKS - 1);
    expect("#107 place 1,000 is accepted", unit_set_week(&u, 1000), 0);
    clean_ticks(&u, 10);
    expect("#107 ten ticks in the window: not selected", selected(&u), 2);
    expect("#107 the wait is n + 1 = 1", (long)u.core.choice.wait, 1);
    struct unit free_tick = u, other = u, lost = u, made_anew = u, full = u;
    static const uint32_t eight[16] = {1, 2, 3, 4, 5, 6, 7, 8, 9, 10, 11, 12, 13, 14, 15, 16};
    expect("#107 eight windows are accepted", unit_set_windows(&full, 8, eight), 0);
    expect("#107 place 4,724,999 is accepted", unit_set_week(&full, WEEK - 1), 0);
    clean_ticks(&free_tick, 1);
    expect("#107 its end is free: selected", selected(&free_tick), 1);
    unit_set_week(&other, 1011);
    clean_ticks(&other, 9);
    expect("#107 in the second window: not selected", selected(&other), 2);
    clean_ticks(&other, 1);
    expect("#107 after it: selected", selected(&other), 1);
    unit_set_week(&lost, 1000);
    write_register(&lost, 0x42, 0xfd);
    clean_ticks(&lost, 1);
    expect("#107 a lost reference is left in a window", selected(&lost), 1);
    expect("#107 a table loads in a window", unit_load(&made_anew, buyers_own, UNIT_REGISTERS), 0);
    static const uint32_t none[16];
    expect("#107 and leaves place 0", (long)made_anew.core.place, 0);
    expect("#107 and no windows", memcmp(made_anew.windows, none, sizeof none), 0);
}

/* A window that ends the week, and the place that follows. */
static void end_of_the_week(void)
{
    struct unit u = reverting(0);
    expect("#107 a window that ends the week is accepted", set_windows(&u, 1, WEEK - 2, WEEK, 0, 0), 0);
    expect("#107 place 4,724,998 is accepted", unit_set_week(&u, WEEK - 2), 0);
    clean_ticks(&u, 2);
    expect("#107 two ticks: place 0, not selected", 10 * (long)u.core.place + selected(&u), 2);
    unit_event(&u, TICK, 0, 0, 125000001);
    expect("#107 a refused tick leaves the place", (long)u.core.place, 0);
    clean_ticks(&u, 1);
    expect("#107 the next: place 1, selected", 10 * (long)u.core.place + selected(&u), 11);
}

/* The longest wait, in a window, and windows taken away. */
static void longest_wait(void)
{
    struct unit u = reverting(255);
    unit_set_week(&u, 0);
    set_windows(&u, 1, 0, WEEK - 1, 0, 0);
    ticks(&u, 200000, 0, 1, 0);
    expect("#107 delay 255, in a window: the wait stops at 119,533", (long)u.core.choice.wait, 119533);
    expect("#107 not selected", selected(&u), 2);
    expect("#107 no windows are accepted", set_windows(&u, 0, 7, 7, 7, 7), 0);
    ticks(&u, 1, 0, 1, 0);
    expect("#107 the next tick: selected", selected(&u), 1);
}

int main(void)
{
    making();
    activity();
    frequency();
    limits();
    first_lock();
    mean_of_43_blocks();
    expect("I delay 1: n = 469", reversion(1, 1000), 469);
    expect("I delay 255: n = 119,532", reversion(255, 200000), 119532);
    equal_priority();
    kept_value();
    refused_buckets();
    bucket_sets();
    refused_tables();
    fresh_values();
    finer_readings();
    expect("#106 each byte of the old kind is as 32 times it", unlike_old(), 0);
    refused_readings();
    drift();
    refused_weeks();
    busy_hours();
    end_of_the_week();
    longest_wait();
    printf("cases A to J, #102, #104, #105, #106 and #107: %s\n", failures ? "FAILED" : "passed");
    return failures != 0;
}
