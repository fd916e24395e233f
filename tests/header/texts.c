/* The calls on sheets as text, each through a pointer of its full type: answers and bytes, every field. */
#include "same.h"

static CueAnswer (*const import_text)(const uint8_t *, size_t, uint8_t *, size_t) = cue_csv_import;
static CueAnswer (*const export_sheet)(const uint8_t *, size_t, uint8_t *, size_t) = cue_csv_export;

/* Faults of 0.4, 0.5 and 1; cue 7 {0, ~2} {1}, cue 300 {2, ~0, ~1}; allowance 16909060, budget 200. */
static const char text[] = "run,16909060,200\r\n"
                           "weights,400000000,500000000,1000000000\r\n"
                           "7,1,-3\r\n7,2\r\n300,-1,-2,3\r\n";
static const char other[] = "\"run\",16909060,\"200\"\r\n"
                            "weights,400000000,500000000,1000000000\r\n"
                            "7,-3,1\r\n\"7\",2\r\n300,3,\"-2\",-1";

#define WORD(w) (w), 0, 0, 0, 0, 0, 0, 0
static const uint8_t sheet[88] = {
    3, 0, 2, 0, 4, 3, 2, 1, 200, 0, 0, 0,
    7, 0, 2, 0, 40, 0, 0, 0,
    44, 1, 1, 0, 72, 0, 0, 0,
    0x00, 0x84, 0xd7, 0x17, 0x00, 0x65, 0xcd, 0x1d, 0x00, 0xca, 0x9a, 0x3b,
    WORD(1), WORD(4), WORD(2), WORD(0),
    WORD(4), WORD(3),
};

/* The same by share, as text. */
static const char by_share[] = "run,16909060,200,1\r\n"
                               "weights,400000000,500000000,1000000000\r\n"
                               "7,1,-3\r\n7,2\r\n300,-1,-2,3\r\n";
static const char by_share_other[] = "run,16909060,200,\"1\"\r\n"
                                     "weights,400000000,500000000,1000000000\r\n"
                                     "7,-3,1\r\n7,2\r\n300,3,-2,-1";

static uint8_t space[100], kept[100];

static void clear_space(void)
{
    memset(space, 99, sizeof space);
    memset(kept, 99, sizeof kept);
}

static CueAnswer import(const char *t, size_t n)
{
    return import_text((const uint8_t *)t, strlen(t), space, n);
}

/* 23 counts the record; no other refusal counts. */
static void misread(int line, CueAnswer a, uint64_t at)
{
    const uint64_t want[6] = {23, 0, 1000000000, at, 0, 0};
    same_answer(line, a, want);
}

static void importing(void)
{
    clear_space();
    misread(__LINE__, import("", 90), 1);
    misread(__LINE__, import("run,1,2\r\nweights,5\r\n7\r\n7,1\r\n", 90), 4);
    REFUSED(import("run,1,2\r\nweights,5\r\n", 90), 2);
    REFUSED(import("run,1,256\r\nweights,5\r\n7,1,-1\r\n", 90), 13);
    REFUSED(import(text, 87), 22);
    HOLDS(memcmp(space, kept, sizeof space) == 0);
    ACCEPTED(import(text, 90), 0, 1000000000, 88);
    HOLDS(memcmp(space, sheet, 88) == 0);
    HOLDS(memcmp(space + 88, kept, 12) == 0);
    clear_space();
    ACCEPTED(import(other, 88), 0, 1000000000, 88);
    HOLDS(memcmp(space, sheet, 88) == 0);
    HOLDS(memcmp(space + 88, kept, 12) == 0);
}

/* The text has 18 + 40 + 8 + 5 + 13 bytes. */
static void exporting(void)
{
    clear_space();
    REFUSED(export_sheet(sheet, 87, space, 90), 8);
    REFUSED(export_sheet(sheet, 88, space, 83), 22);
    HOLDS(memcmp(space, kept, sizeof space) == 0);
    ACCEPTED(export_sheet(sheet, 88, space, 90), 0, 1000000000, 84);
    HOLDS(memcmp(space, text, 84) == 0);
    HOLDS(memcmp(space + 84, kept, 16) == 0);
}

/* The third number is 1 and nothing else, so that no text is refused 3. The text has two bytes more than the other. */
static void sharing(void)
{
    static uint8_t shared[88];
    memcpy(shared, sheet, 88);
    shared[10] = 1;
    clear_space();
    misread(__LINE__, import("run,1,2,0\r\nweights,5\r\n7\r\n", 90), 1);
    misread(__LINE__, import("run,1,2,2\r\nweights,5\r\n7\r\n", 90), 1);
    misread(__LINE__, import("run,1,2,1,1\r\nweights,5\r\n7\r\n", 90), 1);
    misread(__LINE__, import("run,1000000001,256,2\r\nweights\r\n", 0), 1);
    REFUSED(import("run,1000000001,256,1\r\nweights,5\r\n7\r\n", 0), 14);
    REFUSED(import(by_share, 87), 22);
    REFUSED(export_sheet(shared, 88, space, 85), 22);
    HOLDS(memcmp(space, kept, sizeof space) == 0);
    ACCEPTED(import(by_share, 88), 0, 1000000000, 88);
    HOLDS(memcmp(space, shared, 88) == 0);
    HOLDS(memcmp(space + 88, kept, 12) == 0);
    clear_space();
    ACCEPTED(import(by_share_other, 88), 0, 1000000000, 88);
    HOLDS(memcmp(space, shared, 88) == 0);
    clear_space();
    ACCEPTED(export_sheet(shared, 88, space, 86), 0, 1000000000, 86);
    HOLDS(memcmp(space, by_share, 86) == 0);
    HOLDS(memcmp(space + 86, kept, 14) == 0);
    shared[11] = 1;
    REFUSED(export_sheet(shared, 88, space, 0), 3);
}

void on_texts(void)
{
    importing();
    exporting();
    sharing();
}
