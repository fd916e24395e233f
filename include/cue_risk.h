/*
 * Cue risk: certified intervals for the chance that a cue fails, for callers in C (C99 and later) and C++.
 *
 * Link with libcuerisk.a, for 64-bit x86, and compare cue_version() with CUE_VERSION once, at the start. Each function
 * has a proved contract (crates/cuerisk/src/lib.rt), which says what it answers and what it leaves in tree and space,
 * for every input, as long as the caller keeps the duties below. Examples: examples/table.c, examples/tree.c.
 *
 * TABLES
 * Chances are in billionths: CUE_BILLION is chance 1. A table has 1 to 64 faults and 0 to 128 ways, both numbered from
 * 0. The weight of a fault is its chance; faults are independent. Way i is two words: bit f of present[i] says that it
 * names fault f present, bit f of absent[i] that it names it absent. A way happens if all that it names is so; an
 * empty way, both words 0, always happens. An interval [low, high] encloses the chance that some way of the table
 * happens; of a table without ways it is 0, 0.
 *
 * TREES
 * A tree belongs to one table. Each refinement turns a leaf into an inner node with two leaves, and may narrow the
 * interval at the root:
 *   by independence      if the leaf's ways fall into groups that share no fault: the left child has the group of
 *                        the lowest numbered way, the right child all other ways;
 *   by the common part   if there are faults that all its ways name in the same sense: the left child is one way,
 *                        just these faults, and is closed; the right child has the ways without them;
 *   by a fault           that its ways name: the left child fixes it present, the right child absent.
 * At every node a way that names all faults of another way that remains there, in the same sense, says nothing new and
 * is left out; of equal ways the lowest numbered stays. Children take over only what stays. A leaf is open, and can be
 * refined, if two or more ways stay, none of them empty, and its low is below its high. A tree has at most 255
 * refinements, so at most 511 nodes. A place is the path from the root to a node, one byte for each step: 0 left, 1
 * right, at most 64 steps.
 *
 * RECORDS
 * Record 0 holds the root, records 2k - 1 and 2k the left and the right child of the k-th refinement that was made; so
 * `used` is 1 + 2 * refinements, and all records behind are blank, all zero. A way of a node names what it names in the
 * table, without the faults that are fixed or left out there. Of a node refined by the common part the left child has
 * the lowest numbered way alone, and all that this way names besides is left out; the right child has all ways, and
 * the common part is left out. Every other child has out as its parent has it. The record of an inner node keeps the
 * ways, the faults fixed and left out and the own interval of the leaf that it was; low and high are the overlap of
 * that interval with what the children combine to, and live is 0. Refusal 16 accepts this order and these figures
 * alone: read records, do not write them. A tree has no pointers; it may be copied, stored and lent again, with its
 * table.
 *
 * SHEETS
 * A sheet has several cues over the same faults. Its bytes, every number little-endian, nothing in between:
 *   head      12 bytes         faults (2), cues (2), allowance (4), budget (2), mode (2)
 *   contents   8 for a cue     cue number (2), ways (2), where its body starts, from the start of the sheet (4)
 *   weights    4 for a fault   its weight
 *   bodies    16 for a way     present word (8), absent word (8); the bodies in the order of the contents
 * There are 1 to 24 cues, with numbers from 1 and rising, of 0 to 128 ways each. The length in bytes is
 * 12 + 8 a cue + 4 a fault + 16 a way, at most CUE_SHEET. From a sheet to a tree: cue_sheet_check for allowance, budget
 * and mode, cue_sheet_table for a CueTable t, then cue_open(&tree, t.weights, t.faults, t.present, t.ways, t.absent,
 * t.ways).
 *
 * THE REPORT
 * The report on a sheet is text: a line of headings, then a line for each cue in the order of the contents.
 *   cue low high steps verdict
 *   7 300000000 350000000 1 spent
 * The fields are the cue's number, the interval at the root after one run on the newly opened table with the head's
 * allowance, budget and mode, the refinements that the run made, and why it stopped (cue_run): met, done, full or
 * spent. Numbers are decimal, one blank stands between fields, a line feed after each line. A sheet that is refused has
 * one line, such as `refused 7`.
 *
 * TEXT
 * A sheet as comma separated text (RFC 4180), such as a spreadsheet keeps; CR LF ends every record:
 *   run,10000000,40                            allowance, budget; with ,1 behind them the allowance is a share
 *   weights,500000000,500000000,200000000      the weight of each fault
 *   7,1,-2                                     a way: its cue, then its faults, counted from 1; a minus: absent
 *   7,0                                        a way that names no fault
 *   9                                          a cue without ways
 * Export writes it with bare fields and rising faults. Import takes quoted fields too, the faults of a way in any
 * order, and a last record without its CR LF. Numbers are decimal, of at most 10 digits, without plus or leading
 * zeros; a cue begins where the number changes. Exported and imported again a sheet is the same, byte for byte.
 *
 * LOGS
 * A log has the sequence byte of each streaming ACN packet (ANSI E1.31) that a node heard, in the order in which they
 * came. Its first packet is accepted and not judged. For every further one the last accepted number is subtracted from
 * the new one on eight bits and the result read as signed; if that is at most 0 and above -20 the packet is discarded,
 * else the new number becomes the last. So twenty numbers are discarded, the last accepted one and the 19 before it on
 * the circle of 256. The fraction of a log is the packets discarded of those judged; that of several logs, or of
 * several fractions, has the sums of both numbers and is not reduced. A log begins anew: no number is carried over from
 * the log before it. The weight of a fraction is discarded * CUE_BILLION / judged, rounded up; it is a fault's weight
 * in a table or a sheet.
 *
 * DUTIES OF THE CALLER
 *  - a pointer with a count points to that many elements of its type, aligned; where the count is 0 nothing is read or
 *    written through it, and it may be NULL;
 *  - a pointer to a tree is not NULL, is aligned and points to a whole CueTree; its bytes may be anything, but are set
 *    (cue_open reads none of them);
 *  - during the call nobody else uses what is not const, and it overlaps no other argument;
 *  - CUE_STACK bytes of stack are left. The stack is no part of what is proved; it is tested: each call on its largest
 *    input, a log and lists of a million elements, in a thread with just so much.
 * No call keeps a pointer, allocates, prints or locks. Calls at the same time on different trees and spaces are fine.
 *
 * REFUSALS
 * An answer's number is 0 if the call is accepted, else the first number that applies; cue_refusal has words for it.
 * The numbers that concern a call stand with it below. They are tried in ascending order, only 23 before all others,
 * each over the whole input before the next. What a rule judges is judged as it is given, in all its bits. If the call
 * is refused,
 *  - a CueAnswer has the number, low 0, high CUE_BILLION, count, verdict and figure 0; only with 23 the count is a
 *    record;
 *  - a CueSheet, CueEntry, CueTable, CueFraction, CueWeight or CueOrder has the number and zeros: it has no interval;
 *  - tree and space are as they were. Only a refused cue_open writes its tree: it has no nodes then, used 0 and every
 *    record blank, and 16 refuses it later.
 */
#ifndef CUE_RISK_H
#define CUE_RISK_H

#include <stddef.h>
#include <stdint.h>

#define CUE_VERSION 6u          /* of this header */
#define CUE_BILLION 1000000000u /* chance 1 */
#define CUE_FAULTS 64           /* the most faults */
#define CUE_WAYS 128            /* the most ways of a table */
#define CUE_NODES 511           /* records in a tree */
#define CUE_TEXT 939            /* no report is longer */
#define CUE_SHEET 49612         /* the longest sheet */
#define CUE_CSV 781023          /* the longest text that cue_csv_export writes */
#define CUE_JUDGED 4000000000u  /* the most packets judged in a fraction */
#define CUE_STACK 262144        /* bytes of stack to leave for a call */

/* CueAnswer.verdict: why a run stopped. Every other call has none. */
enum { CUE_NONE = 0, CUE_MET = 1, CUE_DONE = 2, CUE_FULL = 3, CUE_SPENT = 4 };

/* The mode of a run and of a sheet: the allowance is a distance from the chance, or a share of it (cue_run). */
enum { CUE_DISTANCE = 0, CUE_SHARE = 1 };

/* The argument `what` of cue_refine. */
enum { CUE_INDEPENDENCE = 0, CUE_FAULT = 1, CUE_COMMON = 2 };

/* CueNode.kind */
enum { CUE_BLANK = 0, CUE_LEAF = 1, CUE_INDEPENDENT_OR = 2, CUE_SHANNON = 3, CUE_INDEPENDENT_AND = 4 };

/* CueOrder.order: the first fraction beside the second. */
enum { CUE_LESS = 1, CUE_EQUAL = 2, CUE_GREATER = 3 };

/* The answer of a call on a tree, and of a call that fills a space: writer, report, import and export. */
typedef struct CueAnswer {
    uint64_t number;  /* 0 accepted, else the refusal */
    uint64_t low;     /* the interval then at the root; of a call that fills a space 0 and CUE_BILLION */
    uint64_t high;
    uint64_t count;   /* the refinements made, or the bytes written; with number 23 the record */
    uint64_t verdict; /* of an accepted run, else 0 */
    uint64_t figure;  /* of an accepted run in CUE_DISTANCE: low plus half of high - low, rounded down; else 0 */
} CueAnswer;

/* One node of a tree. */
typedef struct CueNode {
    uint64_t kind;    /* CUE_LEAF; CUE_INDEPENDENT_OR, refined by independence; CUE_SHANNON, by a fault;
                         CUE_INDEPENDENT_AND, by the common part; CUE_BLANK */
    uint64_t fault;   /* of a CUE_SHANNON node, else 0 */
    uint64_t live;    /* 1 for an open leaf, else 0 */
    size_t parent;    /* record of the parent; 0 for the root */
    size_t left;      /* record of the left child, the right one follows it; 0 for a leaf */
    uint64_t waysa;   /* bit i: way i stays, 0 to 63 */
    uint64_t waysb;   /* bit i: way 64 + i stays */
    uint64_t present; /* bit f: fault f is fixed present on the path here */
    uint64_t absent;  /* bit f: fixed absent */
    uint64_t out;     /* bit f: fault f is left out of the ways on the path here */
    uint64_t low;     /* the node's interval */
    uint64_t high;
    uint64_t ownlow;  /* its interval as a leaf */
    uint64_t ownhigh;
} CueNode;

/* A tree: the root is nodes[0], `used` records are in use. */
typedef struct CueTree {
    CueNode nodes[CUE_NODES];
    size_t used;
} CueTree;

/* What cue_widest finds. */
typedef struct CueSpot {
    uint64_t found; /* 1, or 0 if no record counts */
    size_t at;      /* the record; 0 if none */
} CueSpot;

/* The head of a sheet. */
typedef struct CueSheet {
    uint64_t number; /* 0, or the refusal of the sheet */
    uint64_t faults;
    uint64_t cues;
    uint64_t allowance;
    uint64_t budget;
    uint64_t mode; /* CUE_DISTANCE or CUE_SHARE */
} CueSheet;

/* The cue at a position of a sheet's contents. Past the last cue: past 1, the rest 0. */
typedef struct CueEntry {
    uint64_t number; /* 0, or the refusal of the sheet */
    uint64_t past;   /* 1 past the last cue, else 0 */
    uint64_t cue;    /* the cue's number */
    uint64_t ways;   /* how many it has */
    uint64_t start;  /* where its body starts */
} CueEntry;

/* The table of the cue at a position of a sheet's contents. Past the last cue: past 1, the rest 0. */
typedef struct CueTable {
    uint64_t number;              /* 0, or the refusal of the sheet */
    uint64_t past;                /* 1 past the last cue, else 0 */
    uint64_t faults;              /* how many weights */
    uint64_t ways;                /* how many words of either kind */
    uint32_t weights[CUE_FAULTS]; /* zeros behind the last, in all three */
    uint64_t present[CUE_WAYS];
    uint64_t absent[CUE_WAYS];
} CueTable;

/* A fraction: discarded of judged. */
typedef struct CueFraction {
    uint64_t number;    /* 0, or 25 */
    uint64_t discarded; /* at most judged */
    uint64_t judged;    /* 0 to CUE_JUDGED */
} CueFraction;

/* The weight of a fraction. */
typedef struct CueWeight {
    uint64_t number; /* 0, 24 or 25 */
    uint64_t weight; /* 0 to CUE_BILLION */
} CueWeight;

/* The comparison of two fractions. */
typedef struct CueOrder {
    uint64_t number; /* 0, 24 or 25 */
    uint64_t order;  /* CUE_LESS, CUE_EQUAL or CUE_GREATER; 0 if refused */
} CueOrder;

/* Words for a refusal's number. */
static inline const char *cue_refusal(uint64_t number)
{
    static const char *const words[] = {
        /*  0 */ "accepted",
        /*  1 */ "the sheet is shorter than 12 bytes",
        /*  2 */ "the sheet's faults are 0 or above 64, or its cues are 0 or above 24",
        /*  3 */ "the mode is above 1",
        /*  4 */ "the sheet is shorter than head, contents and weights together",
        /*  5 */ "a cue number is 0 or not above the one before it",
        /*  6 */ "a cue counts more than 128 ways",
        /*  7 */ "a body's place is not where the weights, or the body before it, end",
        /*  8 */ "the sheet's length is not the end of its last body",
        /*  9 */ "a table has 0 or more than 64 weights",
        /* 10 */ "a weight is above one billion",
        /* 11 */ "a table has more than 128 ways, or present and absent words in different numbers",
        /* 12 */ "a way names a fault at or above the number of faults",
        /* 13 */ "a way names one fault both present and absent",
        /* 14 */ "the allowance is above one billion",
        /* 15 */ "the budget is above 255",
        /* 16 */ "the tree is not one that this table and some series of accepted refinements gives",
        /* 17 */ "the place named is longer than 64 or has no leaf",
        /* 18 */ "the leaf there is closed",
        /* 19 */ "the tree has 255 refinements",
        /* 20 */ "the fault named does not occur in the leaf, or independence is asked where its ways hang together, "
                 "or the common part where it is empty",
        /* 21 */ "the writer's lists do not agree in length with each other or with the ways its cues count",
        /* 22 */ "the space lent for writing is shorter than the output",
        /* 23 */ "a record of the text is missing, is of no shape there, or names a fault twice in the same sense",
        /* 24 */ "no packet was judged",
        /* 25 */ "more than 4000000000 packets were judged, or more were discarded than judged",
    };
    return number < sizeof words / sizeof words[0] ? words[number] : "unknown number";
}

#ifdef __cplusplus
extern "C" {
#endif

/* The archive's version: CUE_VERSION, or its structs and functions are not those of this header. */
uint64_t cue_version(void);

/* ---- trees */

/* Opens a table: the tree becomes its root leaf alone, count 0. Refusals 9 to 13. */
CueAnswer cue_open(CueTree *tree,
                   const uint32_t *weights, size_t n_weights,
                   const uint64_t *present, size_t n_present,
                   const uint64_t *absent, size_t n_absent);

/* Refines the leaf at a place, count 1. `what` is CUE_FAULT, or CUE_INDEPENDENCE or CUE_COMMON, where `fault` is not
   looked at. Refusals 9 to 13, 16 to 20. A step other than 0 and 1 leads to no leaf: 17. A fault occurs in a leaf if a
   way that stays there still names it, so that one of 64 or more never does: 20. Any other `what` asks for such a
   fault. */
CueAnswer cue_refine(CueTree *tree,
                     const uint32_t *weights, size_t n_weights,
                     const uint64_t *present, size_t n_present,
                     const uint64_t *absent, size_t n_absent,
                     const uint8_t *place, size_t n_place,
                     uint64_t what, uint64_t fault);

/* Refines again and again, count the refinements made. It stops with the first of these that applies:
     CUE_MET    with the allowance e (0 to CUE_BILLION), low and high at the root, S for CUE_BILLION:
                in CUE_DISTANCE high - low <= 2 * e, in CUE_SHARE (S - e) * high <= (S + e) * low
     CUE_DONE   no leaf is open
     CUE_FULL   the tree has 255 refinements
     CUE_SPENT  it has made `budget` refinements (0 to 255)
   Else it takes the widest open leaf, of equally wide ones the one at the leftmost place, and refines it by
   independence if its ways fall apart, else by the common part if it is not empty, else by the fault that most of its
   ways name, of several the lowest numbered.
   In CUE_DISTANCE the allowance is a distance in billionths: with CUE_MET the chance is at most that far from the
   answer's figure, above or below. With any other verdict the figure is the middle of the interval, and the chance lies
   somewhere in the interval.
   In CUE_SHARE, for chances that are small, it is a share of the chance, in billionths of that chance: 10000000 for a
   hundredth of it.
   With CUE_MET every number from (S - e) * high / S to (S + e) * low / S is at most that share of the chance away from
   the chance, above or below, and there is at least one such number; neither quotient is rounded, and both products fit
   64 bits. With any other verdict the chance lies somewhere in the interval. The figure is 0, whatever the verdict.
   Refusals 3, 9 to 16. */
CueAnswer cue_run(CueTree *tree,
                  const uint32_t *weights, size_t n_weights,
                  const uint64_t *present, size_t n_present,
                  const uint64_t *absent, size_t n_absent,
                  uint64_t allowance, uint64_t budget, uint64_t mode);

/* The widest open leaf in any records, whatever they hold: those of kind CUE_LEAF, live 1 and low below high count. Of
   equally wide ones it is the first by record, where a run takes the leftmost by place. Never refused. */
CueSpot cue_widest(const CueNode *records, size_t n_records);

/* ---- sheets */

/* Reads a whole sheet. Refusals 1 to 8, 10, 12 to 15. */
CueSheet cue_sheet_check(const uint8_t *sheet, size_t n_sheet);

/* The cue at a position of the contents, from 0; any position may be asked for. A sheet that cue_sheet_check refuses
   is refused at every position, by the same number. */
CueEntry cue_sheet_cue(const uint8_t *sheet, size_t n_sheet, size_t position);

/* The table of that cue, likewise. */
CueTable cue_sheet_table(const uint8_t *sheet, size_t n_sheet, size_t position);

/* Writes a sheet to the front of the space, count its bytes; the rest of the space stays. Cue i has the number
   numbers[i] and the next counts[i] of the words. Refusals 2, 3, 5, 6, 10, 12 to 15, 21, 22. If lists differ in length,
     2 looks at n_weights, n_numbers and n_counts, each by itself; 5, 6 and 10 look at their own list, to its end;
     12 and 13 look at as many ways as the longer list of words has, also beyond what the cues count, and a word that
     the shorter one lacks is 0;
     21 comes after these: n_numbers is not n_counts, n_present is not n_absent, or not the sum of the counts. */
CueAnswer cue_sheet_write(const uint32_t *weights, size_t n_weights,
                          const uint16_t *numbers, size_t n_numbers,
                          const uint16_t *counts, size_t n_counts,
                          const uint64_t *present, size_t n_present,
                          const uint64_t *absent, size_t n_absent,
                          uint64_t allowance, uint64_t budget, uint64_t mode,
                          uint8_t *space, size_t n_space);

/* Writes the report on a sheet to the front of the space, count its bytes; the rest of the space stays. A sheet that
   cue_sheet_check refuses has a report too. Refusal 22, never for a space of CUE_TEXT bytes. */
CueAnswer cue_sheet_report(const uint8_t *sheet, size_t n_sheet,
                           uint8_t *space, size_t n_space);

/* ---- sheets as text */

/* Writes the sheet that a text says to the front of the space, count its bytes; the rest of the space stays. A text of
   any length may be given; a space of CUE_SHEET bytes is always long enough. Refusals 23, then 2, 5, 6, 10, 12 to 15,
   22. With 23 count is the first record, from 1, that is missing (of the first two), is of no shape after those before
   it, or names a fault twice in the same sense. */
CueAnswer cue_csv_import(const uint8_t *text, size_t n_text,
                         uint8_t *space, size_t n_space);

/* Writes the text of a sheet to the front of the space, count its bytes; the rest of the space stays. A space of
   CUE_CSV bytes is always long enough. Refusals 1 to 8, 10, 12 to 15, 22. */
CueAnswer cue_csv_export(const uint8_t *sheet, size_t n_sheet,
                         uint8_t *space, size_t n_space);

/* ---- logs */

/* The fraction of one log, of any length. A log of no packet or of one has 0 of 0. Refusal 25, for a log of more than
   4000000001 bytes. */
CueFraction cue_log(const uint8_t *log, size_t n_log);

/* The fraction of several logs, whose bytes stand one behind the other: the next lengths[i] bytes are log i. A log of
   which bytes are lacking has those that are there; bytes behind the last log are no log. No log at all has 0 of 0.
   Refusal 25, for any log and for the sums. In whatever order the logs are given, the answer is the same. */
CueFraction cue_logs(const uint8_t *bytes, size_t n_bytes,
                     const uint64_t *lengths, size_t n_lengths);

/* The sum of fractions, discarded[i] of judged[i]. There are as many as the longer list has, and a number that the
   shorter one lacks is 0. No fraction at all has 0 of 0. Refusal 25, for any fraction and for the sums. In whatever
   order the fractions are given, the answer is the same. */
CueFraction cue_fractions(const uint64_t *discarded, size_t n_discarded,
                          const uint64_t *judged, size_t n_judged);

/* The weight of a fraction: the smallest whole number of billionths that is not below it. Refusals 24, 25. */
CueWeight cue_fraction_weight(uint64_t discarded, uint64_t judged);

/* Compares a fraction with another, exactly. Refusals 24, for either of them, then 25, for either. */
CueOrder cue_fraction_compare(uint64_t discarded, uint64_t judged,
                              uint64_t other_discarded, uint64_t other_judged);

#ifdef __cplusplus
}
#endif

/* The layout that the archive was built for. */
#if defined(__cplusplus)
#if __cplusplus >= 201103L
#define CUE_ASSERT(c) static_assert(c, #c)
#endif
#elif defined(__STDC_VERSION__) && __STDC_VERSION__ >= 201112L
#define CUE_ASSERT(c) _Static_assert(c, #c)
#endif
#ifdef CUE_ASSERT
CUE_ASSERT(sizeof(size_t) == 8);
CUE_ASSERT(sizeof(CueAnswer) == 48);
CUE_ASSERT(sizeof(CueNode) == 112);
CUE_ASSERT(sizeof(CueTree) == 57240);
CUE_ASSERT(sizeof(CueSpot) == 16);
CUE_ASSERT(sizeof(CueSheet) == 48);
CUE_ASSERT(sizeof(CueEntry) == 40);
CUE_ASSERT(sizeof(CueTable) == 2336);
CUE_ASSERT(sizeof(CueFraction) == 24);
CUE_ASSERT(sizeof(CueWeight) == 16);
CUE_ASSERT(sizeof(CueOrder) == 16);
#undef CUE_ASSERT
#endif

#endif
