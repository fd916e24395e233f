/* The calls on logs and fractions, each through a pointer of its full type: every field. Arguments of one type have
 * figures of their own, so that no two can be exchanged; they are judged in all their bits. */
#include "same.h"

static CueFraction (*const one_log)(const uint8_t *, size_t) = cue_log;
static CueFraction (*const all_logs)(const uint8_t *, size_t, const uint64_t *, size_t) = cue_logs;
static CueFraction (*const sum)(const uint64_t *, size_t, const uint64_t *, size_t) = cue_fractions;
static CueWeight (*const weight)(uint64_t, uint64_t) = cue_fraction_weight;
static CueOrder (*const compare)(uint64_t, uint64_t, uint64_t, uint64_t) = cue_fraction_compare;

static void same_fraction(int line, CueFraction f, uint64_t number, uint64_t discarded, uint64_t judged)
{
    same(line, "number", f.number, number);
    same(line, "discarded", f.discarded, discarded);
    same(line, "judged", f.judged, judged);
}

static void same_weight(int line, CueWeight w, uint64_t number, uint64_t want)
{
    same(line, "number", w.number, number);
    same(line, "weight", w.weight, want);
}

static void same_order(int line, CueOrder o, uint64_t number, uint64_t want)
{
    same(line, "number", o.number, number);
    same(line, "order", o.order, want);
}

/* Refused, all but the number is 0. */
#define FRACTION(call, discarded, judged) same_fraction(__LINE__, (call), 0, (discarded), (judged))
#define NO_FRACTION(call) same_fraction(__LINE__, (call), 25, 0, 0)
#define WEIGHT(call, want) same_weight(__LINE__, (call), 0, (want))
#define NO_WEIGHT(call, number) same_weight(__LINE__, (call), (number), 0)
#define ORDER(call, want) same_order(__LINE__, (call), 0, (want))
#define NO_ORDER(call, number) same_order(__LINE__, (call), (number), 0)

/* From 1 on: 2 and 3 accepted, 3 and 2 discarded, 5 accepted, 250 (minus 11) and 251 (minus 10) discarded; then 241
 * (minus 20) accepted, and 222 (minus 19) discarded. */
static const uint8_t packets[10] = {1, 2, 3, 3, 2, 5, 250, 251, 241, 222};

static void logs(void)
{
    FRACTION(one_log(NULL, 0), 0, 0);
    FRACTION(one_log(packets, 1), 0, 0);
    FRACTION(one_log(packets, 3), 0, 2);
    FRACTION(one_log(packets, 4), 1, 3);
    FRACTION(one_log(packets, 8), 4, 7);
    FRACTION(one_log(packets, 9), 4, 8);
    FRACTION(one_log(packets, 10), 5, 9);
}

/* The number that a packet has after another, in C's own eight bits. */
static void pairs(void)
{
    for (unsigned last = 0; last < 256; last++) {
        for (unsigned next = 0; next < 256; next++) {
            const uint8_t log[2] = {(uint8_t)last, (uint8_t)next};
            const int difference = (int8_t)(uint8_t)(next - last);
            FRACTION(one_log(log, 2), difference <= 0 && difference > -20 ? 1 : 0, 1);
        }
    }
}

/* The packets as logs: {1, 2, 3} {3, 2} {5, 250, 251, 241} have 0 of 2, 1 of 1 and 2 of 3, {222} has none judged. */
static void lists(void)
{
    static const uint64_t parts[5] = {3, 2, 4, 1, 7}, huge[2] = {4294967298, UINT64_MAX};
    FRACTION(all_logs(NULL, 0, NULL, 0), 0, 0);
    FRACTION(all_logs(packets, 10, NULL, 0), 0, 0);
    FRACTION(all_logs(NULL, 0, parts, 5), 0, 0);
    FRACTION(all_logs(packets, 10, parts, 1), 0, 2);
    FRACTION(all_logs(packets, 10, parts, 2), 1, 3);
    FRACTION(all_logs(packets, 10, parts, 3), 3, 6);
    FRACTION(all_logs(packets, 10, parts, 5), 3, 6);
    FRACTION(all_logs(packets, 8, parts, 5), 3, 5);
    FRACTION(all_logs(packets, 6, parts, 5), 1, 3);
    FRACTION(all_logs(packets, 10, huge, 2), 5, 9);
    FRACTION(all_logs(packets, 10, huge + 1, 1), 5, 9);
}

/* 1 of 2, 3 of 4 and 5 of 3999999994: together as many are judged as may be. */
static void sums(void)
{
    static const uint64_t some[3] = {1, 3, 5}, of[4] = {2, 4, 3999999994, 1};
    static const uint64_t wide[2] = {UINT64_MAX, 2}, above[1] = {4000000001}, cut[1] = {4294967297};
    FRACTION(sum(NULL, 0, NULL, 0), 0, 0);
    FRACTION(sum(some, 1, of, 1), 1, 2);
    FRACTION(sum(some, 2, of, 2), 4, 6);
    FRACTION(sum(some, 3, of, 3), 9, 4000000000);
    FRACTION(sum(NULL, 0, of, 3), 0, 4000000000);
    FRACTION(sum(some, 1, of, 3), 1, 4000000000);
    NO_FRACTION(sum(some, 3, of, 4));
    NO_FRACTION(sum(some, 3, of, 2));
    NO_FRACTION(sum(some, 1, NULL, 0));
    NO_FRACTION(sum(of, 3, some, 3));
    NO_FRACTION(sum(wide, 2, wide, 2));
    NO_FRACTION(sum(NULL, 0, above, 1));
    NO_FRACTION(sum(some, 1, cut, 1));
    NO_FRACTION(sum(cut, 1, of, 1));
}

static void weights(void)
{
    WEIGHT(weight(0, 5), 0);
    WEIGHT(weight(1, 3), 333333334);
    WEIGHT(weight(2, 3), 666666667);
    WEIGHT(weight(3, 3), 1000000000);
    WEIGHT(weight(1, 8), 125000000);
    WEIGHT(weight(1, 4000000000), 1);
    WEIGHT(weight(3999999996, 4000000000), 999999999);
    WEIGHT(weight(3999999997, 4000000000), 1000000000);
    NO_WEIGHT(weight(0, 0), 24);
    NO_WEIGHT(weight(1, 0), 24);
    NO_WEIGHT(weight(5, 4), 25);
    NO_WEIGHT(weight(1, 4000000001), 25);
    NO_WEIGHT(weight(1, 4294967299), 25);
    NO_WEIGHT(weight(4294967297, 3), 25);
    NO_WEIGHT(weight(1, 4294967296), 25);
}

/* 24 is tried over both fractions before 25 over either. */
static void orders(void)
{
    ORDER(compare(1, 3, 2, 6), 2);
    ORDER(compare(0, 7, 0, 9), 2);
    ORDER(compare(1, 3, 333333333, 1000000000), 3);
    ORDER(compare(1, 3, 333333334, 1000000000), 1);
    ORDER(compare(2, 5, 3, 7), 1);
    ORDER(compare(3, 7, 2, 5), 3);
    ORDER(compare(3999999999, 4000000000, 3999999998, 3999999999), 3);
    ORDER(compare(3999999998, 3999999999, 3999999999, 4000000000), 1);
    NO_ORDER(compare(0, 0, 1, 2), 24);
    NO_ORDER(compare(1, 2, 0, 0), 24);
    NO_ORDER(compare(5, 4, 0, 0), 24);
    NO_ORDER(compare(0, 0, 5, 4), 24);
    NO_ORDER(compare(1, 0, 1, 4000000001), 24);
    NO_ORDER(compare(5, 4, 1, 2), 25);
    NO_ORDER(compare(1, 2, 5, 4), 25);
    NO_ORDER(compare(1, 4000000001, 1, 2), 25);
    NO_ORDER(compare(1, 2, 1, 4000000001), 25);
    NO_ORDER(compare(1, 4294967298, 1, 3), 25);
    NO_ORDER(compare(1, 3, 1, 4294967298), 25);
    NO_ORDER(compare(4294967297, 3, 1, 2), 25);
    NO_ORDER(compare(1, 2, 4294967297, 3), 25);
}

void on_logs(void)
{
    logs();
    pairs();
    lists();
    sums();
    weights();
    orders();
}
