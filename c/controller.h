/* The reference controller of the eight-input timing unit, for a host in C. Three libraries, of which a program links those that it uses:
 *   libhost.a:  unit_make, unit_load, unit_event, unit_read, unit_set_bucket, unit_assign_bucket, unit_set_week, unit_set_windows
 *   librun.a:   sheet_check, sheet_run
 *   libprint.a: sheet_print
 *
 * The host owns a unit's state. It makes it fresh by unit_make, or with fresh values of its own by unit_load; it lends it to unit_event for each event, to
 * unit_set_bucket and unit_assign_bucket for other numbers of the activity buckets, to unit_set_week and unit_set_windows for the busy hours, and to unit_read
 * for each read, and writes it by nothing else. A tick is 128 ms. Documents 01 and 02 say what each event and call does and what each register shows.
 *
 * The interface is the registers, by unit_read, and the records and pages of a run sheet. The fields of struct unit are for the eye: they may change from one
 * version to the next, and what is said of them here holds of a unit that is kept so.
 */
#ifndef CONTROLLER_H
#define CONTROLLER_H

#include <stddef.h>
#include <stdint.h>
#include <string.h>

#ifdef __cplusplus
#define CONTROLLER_ASSERT(test, text) static_assert(test, text)
#define CONTROLLER_ALIGN(type) alignof(type)
extern "C" {
#else
#define CONTROLLER_ASSERT(test, text) _Static_assert(test, text)
#define CONTROLLER_ALIGN(type) _Alignof(type)
#endif

/* How many registers there are: 0x1c to 0x27 and 0x40 to 0x4e. */
#define UNIT_REGISTERS 27

/* The monitors, a row for each number: element i - 1 is input i. An alarm is 0 or 1. */
struct unit_monitors {
    uint16_t level[8];     /* activity bucket: its level */
    uint16_t decay[8];     /* activity bucket: its decay count */
    uint16_t activity[8];  /* activity alarm */
    uint16_t frequency[8]; /* frequency alarm */
    uint16_t remainder[8]; /* lock alarm: ticks that remain */
    uint16_t soak[8];      /* good ticks, 79 at most */
};

/* A set of an activity bucket's numbers: one word of four bytes. */
struct unit_set {
    uint8_t size;        /* the largest level */
    uint8_t set_level;   /* the alarm is set at this level or more */
    uint8_t clear_level; /* it is cleared at this level or less */
    uint8_t decay_last;  /* the last decay count: the clean tick after it takes 1 off the level; 0, 1, 3 or 7 */
};

/* The four sets: element n is set n. And the set that each input has: element i - 1 is input i. */
struct unit_buckets {
    struct unit_set sets[4];
    uint16_t assigned[8]; /* an input's set, 0 to 3 */
};

/* The history's open block and counts. */
struct unit_tally {
    int64_t open;    /* sum of the open block */
    uint16_t filled; /* samples in the open block */
    uint8_t count;   /* blocks in use */
    uint8_t built;   /* blocks of the building history */
    uint8_t backed;  /* blocks in the backup */
    uint8_t builds;  /* not 0 while a history builds */
    uint8_t last;    /* the reference 1 to 8 selected last, 0 for none */
    uint8_t command; /* the last accepted command */
};

/* The history: the blocks in use, of which Ready, the value and command 1 speak, and beside them, while one builds, the history that is to replace them.
 * What lies after the sums that are counted means nothing.
 * Sums are written only where a block completes and by commands. A complete block goes to the front of the history that fills: the building one, or the sums
 * in use while nothing builds; the 43rd building block copies building to sums. Command 1 copies sums to backup, 2 backup to sums; 2 and 3 set building to 0.
 * A switch that starts building changes the tally alone. */
struct unit_history {
    int64_t sums[64];     /* the first core.tally.count: the block sums in use, newest first */
    int64_t building[64]; /* the first core.tally.built: the building history's, newest first */
    int64_t backup[64];   /* the first core.tally.backed: the backup's */
};

/* The selection. */
struct unit_choice {
    uint32_t wait;     /* reversion wait in ticks */
    uint32_t selected; /* 0 none, 1 to 8, 9 Free Run as a candidate */
    uint32_t awaited;  /* the best that the wait is for */
};

/* The PLL. */
struct unit_loop {
    uint32_t unlock; /* unlock run */
    uint32_t mode;   /* state, as in 0x48 */
    uint32_t lock;   /* lock run */
};

/* The numbers of the unit as a whole. */
struct unit_core {
    struct unit_tally tally;
    struct unit_choice choice;
    uint32_t holding; /* ticks in Holdover after the event that entered it, 255 hours at most */
    uint32_t place;   /* place in the week of the next tick, 0 to 4,724,999 */
    struct unit_loop pll;
};

/* The whole state. There is no padding in it: two units with the same fields have the same bytes, and a check sum over a stored unit is stable. */
struct unit {
    struct unit_core core;
    struct unit_monitors monitors;
    struct unit_buckets buckets;
    struct unit_history history;
    uint32_t windows[16]; /* start and end of each window in turn, and 0 and 0 where there is none; a pair whose start is not before its end is no window */
    uint8_t regs[32];     /* a byte for each register in address order, 0 for 0x26 and those that are read only; the five after them are 0 */
};

CONTROLLER_ASSERT(sizeof(struct unit_monitors) == 96, "size of unit_monitors");
CONTROLLER_ASSERT(sizeof(struct unit_set) == 4, "size of unit_set");
CONTROLLER_ASSERT(sizeof(struct unit_buckets) == 32, "size of unit_buckets");
CONTROLLER_ASSERT(sizeof(struct unit_tally) == 16, "size of unit_tally");
CONTROLLER_ASSERT(sizeof(struct unit_history) == 1536, "size of unit_history");
CONTROLLER_ASSERT(sizeof(struct unit_choice) == 12, "size of unit_choice");
CONTROLLER_ASSERT(sizeof(struct unit_loop) == 12, "size of unit_loop");
CONTROLLER_ASSERT(sizeof(struct unit_core) == 48, "size of unit_core");
CONTROLLER_ASSERT(sizeof(struct unit) == 1808, "size of unit");
CONTROLLER_ASSERT(CONTROLLER_ALIGN(struct unit) == 8, "alignment of unit");

CONTROLLER_ASSERT(offsetof(struct unit_monitors, level) == 0, "offset of level");
CONTROLLER_ASSERT(offsetof(struct unit_monitors, decay) == 16, "offset of decay");
CONTROLLER_ASSERT(offsetof(struct unit_monitors, activity) == 32, "offset of activity");
CONTROLLER_ASSERT(offsetof(struct unit_monitors, frequency) == 48, "offset of frequency");
CONTROLLER_ASSERT(offsetof(struct unit_monitors, remainder) == 64, "offset of remainder");
CONTROLLER_ASSERT(offsetof(struct unit_monitors, soak) == 80, "offset of soak");
CONTROLLER_ASSERT(offsetof(struct unit_set, size) == 0, "offset of size");
CONTROLLER_ASSERT(offsetof(struct unit_set, set_level) == 1, "offset of set_level");
CONTROLLER_ASSERT(offsetof(struct unit_set, clear_level) == 2, "offset of clear_level");
CONTROLLER_ASSERT(offsetof(struct unit_set, decay_last) == 3, "offset of decay_last");
CONTROLLER_ASSERT(offsetof(struct unit_buckets, sets) == 0, "offset of sets");
CONTROLLER_ASSERT(offsetof(struct unit_buckets, assigned) == 16, "offset of assigned");
CONTROLLER_ASSERT(offsetof(struct unit_tally, open) == 0, "offset of open");
CONTROLLER_ASSERT(offsetof(struct unit_tally, filled) == 8, "offset of filled");
CONTROLLER_ASSERT(offsetof(struct unit_tally, count) == 10, "offset of count");
CONTROLLER_ASSERT(offsetof(struct unit_tally, built) == 11, "offset of built");
CONTROLLER_ASSERT(offsetof(struct unit_tally, backed) == 12, "offset of backed");
CONTROLLER_ASSERT(offsetof(struct unit_tally, builds) == 13, "offset of builds");
CONTROLLER_ASSERT(offsetof(struct unit_tally, last) == 14, "offset of last");
CONTROLLER_ASSERT(offsetof(struct unit_tally, command) == 15, "offset of command");
CONTROLLER_ASSERT(offsetof(struct unit_history, sums) == 0, "offset of sums");
CONTROLLER_ASSERT(offsetof(struct unit_history, building) == 512, "offset of building");
CONTROLLER_ASSERT(offsetof(struct unit_history, backup) == 1024, "offset of backup");
CONTROLLER_ASSERT(offsetof(struct unit_choice, wait) == 0, "offset of wait");
CONTROLLER_ASSERT(offsetof(struct unit_choice, selected) == 4, "offset of selected");
CONTROLLER_ASSERT(offsetof(struct unit_choice, awaited) == 8, "offset of awaited");
CONTROLLER_ASSERT(offsetof(struct unit_loop, unlock) == 0, "offset of unlock");
CONTROLLER_ASSERT(offsetof(struct unit_loop, mode) == 4, "offset of mode");
CONTROLLER_ASSERT(offsetof(struct unit_loop, lock) == 8, "offset of lock");
CONTROLLER_ASSERT(offsetof(struct unit_core, tally) == 0, "offset of tally");
CONTROLLER_ASSERT(offsetof(struct unit_core, choice) == 16, "offset of choice");
CONTROLLER_ASSERT(offsetof(struct unit_core, holding) == 28, "offset of holding");
CONTROLLER_ASSERT(offsetof(struct unit_core, place) == 32, "offset of place");
CONTROLLER_ASSERT(offsetof(struct unit_core, pll) == 36, "offset of pll");
CONTROLLER_ASSERT(offsetof(struct unit, core) == 0, "offset of core");
CONTROLLER_ASSERT(offsetof(struct unit, monitors) == 48, "offset of monitors");
CONTROLLER_ASSERT(offsetof(struct unit, buckets) == 144, "offset of buckets");
CONTROLLER_ASSERT(offsetof(struct unit, history) == 176, "offset of history");
CONTROLLER_ASSERT(offsetof(struct unit, windows) == 1712, "offset of windows");
CONTROLLER_ASSERT(offsetof(struct unit, regs) == 1776, "offset of regs");

/* No padding: the sizes of the fields add up to that of their struct. */
#define CONTROLLER_FIELD(name, field) sizeof(((struct name *)0)->field)
CONTROLLER_ASSERT(sizeof(struct unit_monitors) == CONTROLLER_FIELD(unit_monitors, level) + CONTROLLER_FIELD(unit_monitors, decay) +
                  CONTROLLER_FIELD(unit_monitors, activity) + CONTROLLER_FIELD(unit_monitors, frequency) + CONTROLLER_FIELD(unit_monitors, remainder) +
                  CONTROLLER_FIELD(unit_monitors, soak), "padding in unit_monitors");
CONTROLLER_ASSERT(sizeof(struct unit_set) == CONTROLLER_FIELD(unit_set, size) + CONTROLLER_FIELD(unit_set, set_level) +
                  CONTROLLER_FIELD(unit_set, clear_level) + CONTROLLER_FIELD(unit_set, decay_last), "padding in unit_set");
CONTROLLER_ASSERT(sizeof(struct unit_buckets) == CONTROLLER_FIELD(unit_buckets, sets) + CONTROLLER_FIELD(unit_buckets, assigned), "padding in unit_buckets");
CONTROLLER_ASSERT(sizeof(struct unit_tally) == CONTROLLER_FIELD(unit_tally, open) + CONTROLLER_FIELD(unit_tally, filled) + CONTROLLER_FIELD(unit_tally, count) +
                  CONTROLLER_FIELD(unit_tally, built) + CONTROLLER_FIELD(unit_tally, backed) + CONTROLLER_FIELD(unit_tally, builds) +
                  CONTROLLER_FIELD(unit_tally, last) + CONTROLLER_FIELD(unit_tally, command), "padding in unit_tally");
CONTROLLER_ASSERT(sizeof(struct unit_history) == CONTROLLER_FIELD(unit_history, sums) + CONTROLLER_FIELD(unit_history, building) +
                  CONTROLLER_FIELD(unit_history, backup), "padding in unit_history");
CONTROLLER_ASSERT(sizeof(struct unit_choice) == CONTROLLER_FIELD(unit_choice, wait) + CONTROLLER_FIELD(unit_choice, selected) +
                  CONTROLLER_FIELD(unit_choice, awaited), "padding in unit_choice");
CONTROLLER_ASSERT(sizeof(struct unit_loop) == CONTROLLER_FIELD(unit_loop, unlock) + CONTROLLER_FIELD(unit_loop, mode) +
                  CONTROLLER_FIELD(unit_loop, lock), "padding in unit_loop");
CONTROLLER_ASSERT(sizeof(struct unit_core) == CONTROLLER_FIELD(unit_core, tally) + CONTROLLER_FIELD(unit_core, choice) + CONTROLLER_FIELD(unit_core, holding) +
                  CONTROLLER_FIELD(unit_core, place) + CONTROLLER_FIELD(unit_core, pll), "padding in unit_core");
CONTROLLER_ASSERT(sizeof(struct unit) == CONTROLLER_FIELD(unit, core) + CONTROLLER_FIELD(unit, monitors) + CONTROLLER_FIELD(unit, buckets) +
                  CONTROLLER_FIELD(unit, history) + CONTROLLER_FIELD(unit, windows) + CONTROLLER_FIELD(unit, regs), "padding in unit");

/* Makes the lent unit the standard fresh one: document 01's values in its registers. What the unit held before plays no part, but its bytes must have been
 * written. */
void unit_make(struct unit *u);

/* The standard fresh unit as a value. Its bytes are written first, as unit_make asks. */
static inline struct unit unit_fresh(void)
{
    struct unit u;
    memset(&u, 0, sizeof u);
    unit_make(&u);
    return u;
}

/* Makes the lent unit anew, as a fresh one with the values of the table in its registers: the refusal number, 15 or 0. What the unit held before plays no
 * part, but its bytes must have been written.
 *   table: a byte for each register in address order, 0x1c to 0x27 and then 0x40 to 0x4e; 0 for the command 0x26 and for those that are read only
 *   len:   UNIT_REGISTERS
 * Bits 7-4 of 0x1c to 0x23 are dropped. All else is as in any fresh unit, bucket sets, week and windows, history and backup too: it is in Free Run with
 * selected 0, and nothing is left of the unit as it was.
 * Another length, a nonzero where 0 has to be, a value above the register's largest, or reject - qualification under 6 give 15. A refusal leaves every byte of
 * the unit as it was. Unit and table do not overlap. */
uint8_t unit_load(struct unit *u, const uint8_t *table, size_t len);

/* One event on the lent unit: the refusal number, 0 if it is accepted. The fields are those of an event of a run sheet:
 *   kind 0, tick:        a irregular mask, b lock flag 0 or 1, word frequency sample in parts per 10^12
 *   kind 1, measurement: a input 1 to 8, b offset in 0.5 ppm as a byte in two's complement, word 0
 *   kind 2, Hit:         a, b and word 0
 *   kind 3, write:       a address, b value, word 0
 *   kind 4, measurement: a input 1 to 8, b 0, word offset in 1/64 ppm, -32768 to 32767
 * A measurement of kind 1 means 32 times its byte, and the limits 0x44 and 0x45 are compared as 32 times theirs.
 * Fields that are no event give 12. A refusal leaves every byte of the unit as it was. */
uint8_t unit_event(struct unit *u, uint8_t kind, uint8_t a, uint8_t b, int32_t word);

/* Sets one of the four bucket sets, which start as 8, 6, 4, 1: the refusal number, 14 or 0.
 *   set:         0 to 3
 *   size:        the largest level; an irregular tick adds 1 up to it
 *   set_level:   the activity alarm is set at this level or more
 *   clear_level: it is cleared at this level or less, and kept between the two
 *   decay:       0 to 3; the level falls by 1 in 1, 2, 4 or 8 clean ticks
 * Bounds: clear_level < set_level <= size. Numbers out of these bounds, or a set over 3, give 14.
 * Each input that has the set now is put at level size, its alarm set and its decay count 0, also where the numbers are as they were. Its soak, and all else,
 * is for the next tick to change. A refusal leaves every byte of the unit as it was. */
uint8_t unit_set_bucket(struct unit *u, uint8_t set, uint8_t size, uint8_t set_level, uint8_t clear_level, uint8_t decay);

/* Gives an input one of the four bucket sets; each starts with set 0: the refusal number, 6, 14 or 0.
 *   input: 1 to 8, else 6
 *   set:   0 to 3, else 14; 6 comes first where both are out of bounds
 * The input is put at the set's size, as by unit_set_bucket, also where it had the set before. A refusal leaves every byte of the unit as it was. */
uint8_t unit_assign_bucket(struct unit *u, uint8_t input, uint8_t set);

/* Sets the place in the week, which starts at 0: the refusal number, 16 or 0. The week has 4,725,000 ticks; each accepted tick takes the place that stands,
 * and after its selection the place moves on by 1, from 4,724,999 to 0.
 *   place: of the next accepted tick, 0 to 4,724,999, else 16
 * It may be set at any time, in a window too. A refusal leaves every byte of the unit as it was. */
uint8_t unit_set_week(struct unit *u, uint32_t place);

/* Sets the windows of the busy hours, all at once: the refusal number, 16 or 0. A fresh unit has none. At a place in a window no reversion switches; a
 * selected candidate that is lost is left at once, there as elsewhere.
 *   count:   0 to 8; 0 for no windows
 *   windows: start and end of each of the first count, in ticks from the week's start: a window has the places from its start up to but not including its
 *            end. There must be 16 numbers, all of them written; those after the first count have no effect.
 * A count over 8, a start not before its end, an end over 4,725,000, a start that is not after the end of the window before it, so that no free tick is
 * between, or a first start of 0 with a last end of 4,725,000 give 16. A refusal leaves every byte of the unit as it was. Unit and windows do
 * not overlap. */
uint8_t unit_set_windows(struct unit *u, uint8_t count, const uint32_t windows[16]);

/* A read of the lent unit: 256 times the refusal, plus the byte.
 * Each read of 0x4a to 0x4d computes the value anew and gives one byte of it. All four are of one moment if no event or call on the unit comes between the
 * reads. Where other threads or interrupts use the unit, the host holds them off meanwhile, or holds them off for a copy of the unit and reads from that. */
uint16_t unit_read(const struct unit *u, uint8_t address);

/* Checks a run sheet of len bytes against an output of output_len bytes: its refusal number, 9 to 13, or 0 if it will run. */
uint8_t sheet_check(const uint8_t *sheet, size_t len, size_t output_len);

/* Runs a sheet on the standard fresh unit and writes its records at the front of the output, 4 bytes each: how many bytes that is. The bytes after them are
 * unchanged. Sheet and output do not overlap.
 * A refused sheet gives 0, and so does a sheet without settings and events, which runs and has no records: sheet_check tells the two apart. */
size_t sheet_run(const uint8_t *sheet, size_t len, uint8_t *output, size_t output_len);

/* Runs a sheet as sheet_run does and prints its records: its refusal number, 9 to 13, or 0 if it ran. The records stand at the front of the first output,
 * 4 bytes each, their pages at the front of the second, 1,400 bytes each. The bytes after the records and after the last page are unchanged; a refused
 * sheet leaves both outputs as they were. Sheet and outputs do not overlap.
 * A page has 50 lines of 27 columns and a line feed. Each record has a line, with a blank between its columns: the index, from 0 over the whole run, in 5,
 * the state's name in 12, selected and refusal in 2 each, 0x49 in two hexadecimal digits; the name stands to the left, the numbers to the right. The last
 * page is filled with lines of 27 spaces. A sheet without settings and events runs, and has no page.
 * 13 is for either output, one under 4 bytes a record or one under 1,400 bytes a page. The most that a sheet gives are 8,383 records: 33,532 bytes, and
 * 235,200 for their 168 pages. */
uint8_t sheet_print(const uint8_t *sheet, size_t len, uint8_t *records, size_t records_len, uint8_t *pages, size_t pages_len);

/* Memory, in bytes. A unit takes sizeof(struct unit). A library has text, its code and constants, and no data; no function allocates. The stack is the most
 * that c/memory.c sees a call of the function take, its return address included; it is measured and not proved, and it is without the binding of memcpy
 * and memset where that is left to their first call. The figures are of the toolchain in toolchain.txt; bin/cases holds them to what it measures. */
#define LIBHOST_TEXT 8977
#define LIBRUN_TEXT 8802
#define LIBPRINT_TEXT 10121
#define UNIT_MAKE_STACK 56
#define UNIT_LOAD_STACK 56
#define UNIT_EVENT_STACK 136
#define UNIT_READ_STACK 16
#define UNIT_SET_BUCKET_STACK 16
#define UNIT_ASSIGN_BUCKET_STACK 48
#define UNIT_SET_WEEK_STACK 8
#define UNIT_SET_WINDOWS_STACK 8
#define SHEET_CHECK_STACK 56
#define SHEET_RUN_STACK 3976
#define SHEET_PRINT_STACK 4008

#ifdef __cplusplus
}
#endif

#endif
