/* The calls on sheets, each through a pointer of its full type: answers and bytes, every field. Lists of one type have
 * figures of their own, so that no two can be exchanged. */
#include "same.h"

static CueSheet (*const check)(const uint8_t *, size_t) = cue_sheet_check;
static CueEntry (*const cue)(const uint8_t *, size_t, size_t) = cue_sheet_cue;
static CueTable (*const table)(const uint8_t *, size_t, size_t) = cue_sheet_table;
static CueAnswer (*const write_sheet)(const uint32_t *, size_t, const uint16_t *, size_t, const uint16_t *, size_t,
                                      const uint64_t *, size_t, const uint64_t *, size_t, uint64_t, uint64_t,
                                      uint64_t, uint8_t *, size_t) = cue_sheet_write;
static CueAnswer (*const report)(const uint8_t *, size_t, uint8_t *, size_t) = cue_sheet_report;

/* Faults of 0.4, 0.5 and 1; cue 7 {0, ~2} {1}, cue 300 {2, ~0, ~1}; allowance 16909060, budget 200. */
static const uint32_t weights[3] = {400000000, 500000000, 1000000000};
static const uint16_t numbers[2] = {7, 300}, counts[2] = {2, 1};
static const uint64_t present[3] = {1, 2, 4}, absent[3] = {4, 0, 3};

#define WORD(w) (w), 0, 0, 0, 0, 0, 0, 0
static const uint8_t sheet[88] = {
    3, 0, 2, 0, 4, 3, 2, 1, 200, 0, 0, 0,
    7, 0, 2, 0, 40, 0, 0, 0,
    44, 1, 1, 0, 72, 0, 0, 0,
    0x00, 0x84, 0xd7, 0x17, 0x00, 0x65, 0xcd, 0x1d, 0x00, 0xca, 0x9a, 0x3b,
    WORD(1), WORD(4), WORD(2), WORD(0),
    WORD(4), WORD(3),
};

/* ---- reading; a sheet that lacks its last byte is refused 8 */

static void same_head(int line, CueSheet h, const uint64_t want[6])
{
    same(line, "number", h.number, want[0]);
    same(line, "faults", h.faults, want[1]);
    same(line, "cues", h.cues, want[2]);
    same(line, "allowance", h.allowance, want[3]);
    same(line, "budget", h.budget, want[4]);
    same(line, "mode", h.mode, want[5]);
}

static void same_entry(int line, CueEntry e, const uint64_t want[5])
{
    same(line, "number", e.number, want[0]);
    same(line, "past", e.past, want[1]);
    same(line, "cue", e.cue, want[2]);
    same(line, "ways", e.ways, want[3]);
    same(line, "start", e.start, want[4]);
}

/* Number, past, faults, ways; then three weights, present and absent words, behind which there are zeros. */
static void same_table(int line, CueTable t, const uint64_t want[13])
{
    same(line, "number", t.number, want[0]);
    same(line, "past", t.past, want[1]);
    same(line, "faults", t.faults, want[2]);
    same(line, "ways", t.ways, want[3]);
    for (size_t i = 0; i < 64; i++) {
        same(line, "weights", t.weights[i], i < 3 ? want[4 + i] : 0);
    }
    for (size_t i = 0; i < 128; i++) {
        same(line, "present", t.present[i], i < 3 ? want[7 + i] : 0);
        same(line, "absent", t.absent[i], i < 3 ? want[10 + i] : 0);
    }
}

static void reading(void)
{
    static const uint64_t head[6] = {0, 3, 2, 16909060, 200, 0}, cut[13] = {8};
    static const uint64_t entries[3][5] = {{0, 0, 7, 2, 40}, {0, 0, 300, 1, 72}, {0, 1, 0, 0, 0}};
    static const uint64_t tables[3][13] = {
        {0, 0, 3, 2, 400000000, 500000000, 1000000000, 1, 2, 0, 4, 0, 0},
        {0, 0, 3, 1, 400000000, 500000000, 1000000000, 4, 0, 0, 3, 0, 0},
        {0, 1, 0, 0, 0, 0, 0, 0, 0, 0, 0, 0, 0},
    };
    same_head(__LINE__, check(sheet, 88), head);
    same_head(__LINE__, check(sheet, 87), cut);
    for (size_t i = 0; i < 3; i++) {
        same_entry(__LINE__, cue(sheet, 88, i), entries[i]);
        same_entry(__LINE__, cue(sheet, 87, i), cut);
        same_table(__LINE__, table(sheet, 88, i), tables[i]);
        same_table(__LINE__, table(sheet, 87, i), cut);
    }
}

/* The last two bytes of the head are one number, the mode: 1 is told, and whatever is above it is refused. */
static void modes(void)
{
    static const uint64_t share[6] = {0, 3, 2, 16909060, 200, 1}, other[13] = {3};
    static const uint8_t above[4][2] = {{2, 0}, {0, 1}, {1, 1}, {255, 255}};
    static uint8_t copy[88];
    memcpy(copy, sheet, 88);
    copy[10] = 1;
    same_head(__LINE__, check(copy, 88), share);
    for (size_t i = 0; i < 4; i++) {
        memcpy(copy + 10, above[i], 2);
        same_head(__LINE__, check(copy, 88), other);
        same_entry(__LINE__, cue(copy, 88, 0), other);
        same_table(__LINE__, table(copy, 88, 0), other);
    }
}

/* ---- writing */

static uint8_t space[90], kept[90];

static void clear_space(void)
{
    memset(space, 99, sizeof space);
    memset(kept, 99, sizeof kept);
}

/* 12 looks at a fourth absent word too, which no cue counts; 21 comes after it. */
static void refused_writing(void)
{
    static const uint64_t four[4] = {4, 0, 3, 7}, far[4] = {4, 0, 3, 8};
    clear_space();
    REFUSED(write_sheet(weights, 3, numbers, 2, counts, 0, present, 3, absent, 3, 0, 200, 0, space, 90), 2);
    REFUSED(write_sheet(weights, 3, numbers, 2, counts, 0, present, 3, absent, 3, 0, 200, 2, space, 90), 2);
    REFUSED(write_sheet(weights, 3, counts, 2, numbers, 2, present, 3, absent, 3, 0, 200, 2, space, 90), 3);
    REFUSED(write_sheet(weights, 3, numbers, 2, counts, 2, present, 3, absent, 3, 0, 200, 256, space, 90), 3);
    REFUSED(write_sheet(weights, 3, numbers, 2, counts, 2, present, 3, absent, 3, 0, 200, 65536, space, 90), 3);
    REFUSED(write_sheet(weights, 3, numbers, 2, counts, 2, present, 3, absent, 3, 0, 200, 65537, space, 90), 3);
    REFUSED(write_sheet(weights, 3, numbers, 2, counts, 2, present, 3, absent, 3, 0, 65576, 4294967297, space, 0), 3);
    REFUSED(write_sheet(weights, 3, counts, 2, numbers, 2, present, 3, absent, 3, 0, 200, 0, space, 90), 5);
    REFUSED(write_sheet(weights, 3, numbers, 2, counts, 2, present, 3, far, 4, 0, 200, 0, space, 90), 12);
    REFUSED(write_sheet(weights, 3, numbers, 2, counts, 2, present, 3, present, 3, 0, 200, 0, space, 90), 13);
    REFUSED(write_sheet(weights, 3, numbers, 2, counts, 2, present, 3, absent, 3, 5000000000, 65576, 0, space, 90), 14);
    REFUSED(write_sheet(weights, 3, numbers, 2, counts, 2, present, 3, absent, 3, 0, 65576, 0, space, 90), 15);
    REFUSED(write_sheet(weights, 3, numbers, 2, counts, 2, present, 3, four, 4, 0, 200, 0, space, 90), 21);
    REFUSED(write_sheet(weights, 3, numbers, 2, counts, 1, present, 3, absent, 3, 0, 200, 0, space, 90), 21);
    REFUSED(write_sheet(weights, 3, numbers, 2, counts, 2, present, 3, absent, 3, 0, 200, 0, space, 87), 22);
    REFUSED(write_sheet(weights, 3, numbers, 2, counts, 2, present, 3, absent, 3, 0, 200, 1, space, 87), 22);
    HOLDS(memcmp(space, kept, sizeof space) == 0);
}

static void writing(void)
{
    clear_space();
    ACCEPTED(write_sheet(weights, 3, numbers, 2, counts, 2, present, 3, absent, 3, 16909060, 200, 0, space, 90),
             0, 1000000000, 88);
    HOLDS(memcmp(space, sheet, 88) == 0);
    HOLDS(memcmp(space + 88, kept, 2) == 0);

    /* By share only the last two bytes of the head differ. */
    clear_space();
    ACCEPTED(write_sheet(weights, 3, numbers, 2, counts, 2, present, 3, absent, 3, 16909060, 200, CUE_SHARE, space, 88),
             0, 1000000000, 88);
    HOLDS(memcmp(space, sheet, 10) == 0);
    SAME(space[10], 1);
    SAME(space[11], 0);
    HOLDS(memcmp(space + 12, sheet + 12, 76) == 0);
    HOLDS(memcmp(space + 88, kept, 2) == 0);
}

/* Cue 7: {0, ~2} never happens, {1} has 0.5. Cue 300: 0.6 * 0.5 * 1. */
static void reporting(void)
{
    static const char text[] = "cue low high steps verdict\n"
                               "7 500000000 500000000 0 met\n"
                               "300 300000000 300000000 0 met\n";
    clear_space();
    REFUSED(report(sheet, 88, space, 84), 22);
    HOLDS(memcmp(space, kept, sizeof space) == 0);
    ACCEPTED(report(sheet, 88, space, 90), 0, 1000000000, 85);
    HOLDS(memcmp(space, text, 85) == 0);
    HOLDS(memcmp(space + 85, kept, 5) == 0);
    ACCEPTED(report(sheet, 87, space, 90), 0, 1000000000, 10);
    HOLDS(memcmp(space, "refused 8\n", 10) == 0);
}

void on_sheets(void)
{
    reading();
    modes();
    refused_writing();
    writing();
    reporting();
}
