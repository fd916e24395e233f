/* Comparing, for the cases of this folder: each figure that differs is a line on standard output. main (words.c) calls
 * the cases. Every figure in them comes from the rules, worked out by hand unless the case says otherwise. */
#include <stdio.h>
#include <string.h>
#include "cue_risk.h"

extern int differs;

void on_trees(void);
void on_sheets(void);
void on_texts(void);
void on_logs(void);

static inline void same(int line, const char *what, uint64_t got, uint64_t want)
{
    if (got != want) {
        printf("line %d: %s is %llu, not %llu\n", line, what, (unsigned long long)got, (unsigned long long)want);
        differs = 1;
    }
}

#define SAME(got, want) same(__LINE__, #got, (got), (want))
#define HOLDS(what) same(__LINE__, #what, (what) ? 1 : 0, 1)

/* The six fields of an answer, the number first. */
static inline void same_answer(int line, CueAnswer a, const uint64_t want[6])
{
    same(line, "number", a.number, want[0]);
    same(line, "low", a.low, want[1]);
    same(line, "high", a.high, want[2]);
    same(line, "count", a.count, want[3]);
    same(line, "verdict", a.verdict, want[4]);
    same(line, "figure", a.figure, want[5]);
}

/* An accepted run. */
static inline void ended(int line, CueAnswer a, uint64_t low, uint64_t high, uint64_t count, uint64_t verdict,
                         uint64_t figure)
{
    const uint64_t want[6] = {0, low, high, count, verdict, figure};
    same_answer(line, a, want);
}

/* Any other accepted call: it has neither verdict nor figure. */
static inline void accepted(int line, CueAnswer a, uint64_t low, uint64_t high, uint64_t count)
{
    ended(line, a, low, high, count, 0, 0);
}

static inline void refused(int line, CueAnswer a, uint64_t number)
{
    const uint64_t want[6] = {number, 0, 1000000000, 0, 0, 0};
    same_answer(line, a, want);
}

#define ENDED(call, low, high, count, verdict, figure) ended(__LINE__, (call), (low), (high), (count), (verdict), (figure))
#define ACCEPTED(call, low, high, count) accepted(__LINE__, (call), (low), (high), (count))
#define REFUSED(call, number) refused(__LINE__, (call), (number))
