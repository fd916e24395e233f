/* The calls on trees, each through a pointer of its full type: answers and records, every field. Arguments of one type
 * have figures of their own, so that no two can be exchanged; they are judged in all their bits. */
#include "same.h"

static CueAnswer (*const open_table)(CueTree *, const uint32_t *, size_t, const uint64_t *, size_t,
                                     const uint64_t *, size_t) = cue_open;
static CueAnswer (*const refine)(CueTree *, const uint32_t *, size_t, const uint64_t *, size_t,
                                 const uint64_t *, size_t, const uint8_t *, size_t, uint64_t, uint64_t) = cue_refine;
static CueAnswer (*const run)(CueTree *, const uint32_t *, size_t, const uint64_t *, size_t,
                              const uint64_t *, size_t, uint64_t, uint64_t, uint64_t) = cue_run;
static CueSpot (*const widest)(const CueNode *, size_t) = cue_widest;

enum { MILLION = 1000000 };

static CueTree tree, before;

/* A record's fields in the order of the header. */
static void same_record(int line, const CueNode *n, const uint64_t want[14])
{
    same(line, "kind", n->kind, want[0]);
    same(line, "fault", n->fault, want[1]);
    same(line, "live", n->live, want[2]);
    same(line, "parent", n->parent, want[3]);
    same(line, "left", n->left, want[4]);
    same(line, "waysa", n->waysa, want[5]);
    same(line, "waysb", n->waysb, want[6]);
    same(line, "present", n->present, want[7]);
    same(line, "absent", n->absent, want[8]);
    same(line, "out", n->out, want[9]);
    same(line, "low", n->low, want[10] * MILLION);
    same(line, "high", n->high, want[11] * MILLION);
    same(line, "ownlow", n->ownlow, want[12] * MILLION);
    same(line, "ownhigh", n->ownhigh, want[13] * MILLION);
}

/* The records in use, and all others blank. */
static void same_records(int line, size_t used, const uint64_t (*want)[14])
{
    static const uint64_t blank[14] = {0};
    same(line, "used", tree.used, used);
    for (size_t i = 0; i < 511; i++) {
        same_record(line, &tree.nodes[i], i < used ? want[i] : blank);
    }
}

/* Faults of 0.4, 0.5, 0.2 and 0.3. Ways 0 and 1 are {0, 1, ~3}, 2 to 68 {1, ~3}, 69 is {2, ~3}; 2 and 69 stay. */
static const uint32_t weights[4] = {400 * MILLION, 500 * MILLION, 200 * MILLION, 300 * MILLION};
static uint64_t present[70], absent[70];
#define TABLE weights, 4, present, 70, absent, 70

/* The root alone: low 0.5 * 0.7, high 0.5 * 0.7 + 0.2 * 0.7. Intervals are in millions here. */
static const uint64_t opened[1][14] = {{1, 0, 1, 0, 0, 4, 32, 0, 0, 0, 350, 490, 350, 490}};

/* By fault 3: on the left no way remains, on the right {1} and {2}, low 1 - 0.5 * 0.8 and high 0.5 + 0.2. */
static const uint64_t by_fault[3][14] = {
    {3, 3, 0, 0, 1, 4, 32, 0, 0, 0, 420, 490, 350, 490},
    {1, 0, 0, 0, 0, 0, 0, 8, 0, 0, 0, 0, 0, 0},
    {1, 0, 1, 0, 0, 4, 32, 0, 8, 0, 600, 700, 600, 700},
};

/* Or by the common part {~3}: on the left that alone, as way 2 without fault 1; on the right {1} and {2}. */
static const uint64_t by_common[3][14] = {
    {4, 0, 0, 0, 1, 4, 32, 0, 0, 0, 420, 490, 350, 490},
    {1, 0, 0, 0, 0, 4, 0, 0, 0, 2, 700, 700, 700, 700},
    {1, 0, 1, 0, 0, 4, 32, 0, 0, 8, 600, 700, 600, 700},
};

/* By fault 3, then its right child by independence. */
static const uint64_t then_apart[5][14] = {
    {3, 3, 0, 0, 1, 4, 32, 0, 0, 0, 420, 420, 350, 490},
    {1, 0, 0, 0, 0, 0, 0, 8, 0, 0, 0, 0, 0, 0},
    {2, 0, 0, 0, 3, 4, 32, 0, 8, 0, 600, 600, 600, 700},
    {1, 0, 0, 2, 0, 4, 0, 0, 8, 0, 500, 500, 500, 500},
    {1, 0, 0, 2, 0, 0, 32, 0, 8, 0, 200, 200, 200, 200},
};

static void by_hand(void)
{
    static const uint8_t left[1] = {0}, right[1] = {1}, two[1] = {2}, long_one[65] = {1};
    for (size_t i = 0; i < 70; i++) {
        present[i] = i < 2 ? 3 : i < 69 ? 2 : 4;
        absent[i] = 8;
    }
    ACCEPTED(open_table(&tree, TABLE), 350 * MILLION, 490 * MILLION, 0);
    same_records(__LINE__, 1, opened);
    before = tree;
    ACCEPTED(refine(&tree, TABLE, NULL, 0, 2, 3), 420 * MILLION, 490 * MILLION, 1);
    same_records(__LINE__, 3, by_common);
    tree = before;
    ACCEPTED(refine(&tree, TABLE, NULL, 0, 1, 3), 420 * MILLION, 490 * MILLION, 1);
    same_records(__LINE__, 3, by_fault);
    REFUSED(refine(&tree, TABLE, NULL, 0, 1, 3), 17);
    REFUSED(refine(&tree, TABLE, two, 1, 1, 2), 17);
    REFUSED(refine(&tree, TABLE, long_one, 65, 1, 2), 17);
    REFUSED(refine(&tree, TABLE, left, 1, 1, 2), 18);
    REFUSED(refine(&tree, TABLE, right, 1, 1, 0), 20);
    REFUSED(refine(&tree, TABLE, right, 1, 1, 4294967298), 20);
    REFUSED(refine(&tree, TABLE, right, 1, 2, 2), 20);
    REFUSED(refine(&tree, TABLE, right, 1, 3, 2), 20);
    REFUSED(refine(&tree, TABLE, right, 1, 257, 2), 20);
    REFUSED(refine(&tree, TABLE, right, 1, 4294967297, 2), 20);
    same_records(__LINE__, 3, by_fault);
    ACCEPTED(refine(&tree, TABLE, right, 1, 0, 64), 420 * MILLION, 420 * MILLION, 1);
    same_records(__LINE__, 5, then_apart);
}

/* {0, 1} {0, 2} of 0.5, 0.5 and 0.2. By the common part {0}: on the left that, on the right {1} and {2}. */
static const uint64_t repeater[3][14] = {
    {4, 0, 0, 0, 1, 3, 0, 0, 0, 0, 300, 350, 250, 350},
    {1, 0, 0, 0, 0, 1, 0, 0, 0, 2, 500, 500, 500, 500},
    {1, 0, 1, 0, 0, 3, 0, 0, 0, 1, 600, 700, 600, 700},
};

/* Then its right child by independence: what is taken out stays so. */
static const uint64_t then_both[5][14] = {
    {4, 0, 0, 0, 1, 3, 0, 0, 0, 0, 300, 300, 250, 350},
    {1, 0, 0, 0, 0, 1, 0, 0, 0, 2, 500, 500, 500, 500},
    {2, 0, 0, 0, 3, 3, 0, 0, 0, 1, 600, 600, 600, 700},
    {1, 0, 0, 2, 0, 1, 0, 0, 0, 1, 500, 500, 500, 500},
    {1, 0, 0, 2, 0, 2, 0, 0, 0, 1, 200, 200, 200, 200},
};

/* And {0, 1, 2} {0, 1, 3} of 0.5, whose common part has two faults: low 0.25 * 0.75, high 0.25 * 1. */
static void common_part(void)
{
    static const uint8_t left[1] = {0}, right[1] = {1};
    static const uint32_t w[3] = {500 * MILLION, 500 * MILLION, 200 * MILLION};
    static const uint32_t halves[4] = {500 * MILLION, 500 * MILLION, 500 * MILLION, 500 * MILLION};
    static const uint64_t p[2] = {3, 5}, r[2] = {7, 11}, q[2] = {0, 0};
    ACCEPTED(open_table(&tree, w, 3, p, 2, q, 2), 250 * MILLION, 350 * MILLION, 0);
    before = tree;
    REFUSED(refine(&tree, w, 3, p, 2, q, 2, NULL, 0, 258, 0), 20);
    REFUSED(refine(&tree, w, 3, p, 2, q, 2, NULL, 0, 4294967298, 0), 20);
    HOLDS(memcmp(&tree, &before, sizeof tree) == 0);
    ACCEPTED(refine(&tree, w, 3, p, 2, q, 2, NULL, 0, 2, 64), 300 * MILLION, 350 * MILLION, 1);
    same_records(__LINE__, 3, repeater);
    REFUSED(refine(&tree, w, 3, p, 2, q, 2, left, 1, 1, 0), 18);
    REFUSED(refine(&tree, w, 3, p, 2, q, 2, left, 1, 2, 0), 18);
    REFUSED(refine(&tree, w, 3, p, 2, q, 2, right, 1, 1, 0), 20);
    REFUSED(refine(&tree, w, 3, p, 2, q, 2, right, 1, 2, 0), 20);
    same_records(__LINE__, 3, repeater);
    ACCEPTED(refine(&tree, w, 3, p, 2, q, 2, right, 1, 0, 0), 300 * MILLION, 300 * MILLION, 1);
    same_records(__LINE__, 5, then_both);
    before = tree;
    tree.nodes[2].out = 0;
    REFUSED(run(&tree, w, 3, p, 2, q, 2, 0, 0, 0), 16);
    tree = before;
    ENDED(run(&tree, w, 3, p, 2, q, 2, 0, 0, 0), 300 * MILLION, 300 * MILLION, 0, 1, 300 * MILLION);

    ACCEPTED(open_table(&tree, halves, 4, r, 2, q, 2), 125 * MILLION, 250 * MILLION, 0);
    ACCEPTED(refine(&tree, halves, 4, r, 2, q, 2, NULL, 0, 2, 0), 187500000, 250 * MILLION, 1);
    SAME(tree.nodes[1].out, 4);
    SAME(tree.nodes[2].out, 3);
}

/* An empty way always happens, no way never. A refused opening leaves no nodes, which 16 refuses. */
static void openings(void)
{
    static const uint64_t none[1] = {0}, one[1] = {1}, beyond[1] = {16};
    ACCEPTED(open_table(&tree, weights, 4, none, 1, none, 1), 1000 * MILLION, 1000 * MILLION, 0);
    ACCEPTED(open_table(&tree, weights, 4, NULL, 0, NULL, 0), 0, 0, 0);
    REFUSED(open_table(&tree, NULL, 0, NULL, 0, NULL, 0), 9);
    same_records(__LINE__, 0, NULL);
    REFUSED(run(&tree, weights, 4, NULL, 0, NULL, 0, 0, 0, 0), 16);
    REFUSED(open_table(&tree, weights, 4, present, 70, absent, 69), 11);
    REFUSED(open_table(&tree, weights, 4, none, 1, beyond, 1), 12);
    REFUSED(open_table(&tree, weights, 4, one, 1, one, 1), 13);
}

/* {0, 1} {0, 2} of 0.5, 0.5 and 0.2. A run takes out the common part {0}, then goes by independence on the right. */
static void runs(void)
{
    static const uint32_t w[3] = {500 * MILLION, 500 * MILLION, 200 * MILLION};
    static const uint64_t p[2] = {3, 5}, q[2] = {0, 0};
    ACCEPTED(open_table(&tree, w, 3, p, 2, q, 2), 250 * MILLION, 350 * MILLION, 0);
    before = tree;
    REFUSED(run(&tree, w, 3, p, 2, q, 2, 5000000000, 65576, 0), 14);
    REFUSED(run(&tree, w, 3, p, 2, q, 2, 0, 65576, 0), 15);
    REFUSED(run(&tree, w, 3, p, 2, q, 2, 1000000001, 255, 0), 14);
    REFUSED(run(&tree, w, 3, p, 2, q, 2, 1000000000, 256, 0), 15);
    HOLDS(memcmp(&tree, &before, sizeof tree) == 0);
    ENDED(run(&tree, w, 3, p, 2, q, 2, 50 * MILLION, 40, 0), 250 * MILLION, 350 * MILLION, 0, 1, 300 * MILLION);
    ENDED(run(&tree, w, 3, p, 2, q, 2, 49999999, 0, 0), 250 * MILLION, 350 * MILLION, 0, 4, 300 * MILLION);
    ENDED(run(&tree, w, 3, p, 2, q, 2, 10 * MILLION, 1, 0), 300 * MILLION, 350 * MILLION, 1, 4, 325 * MILLION);
    ENDED(run(&tree, w, 3, p, 2, q, 2, 25 * MILLION, 40, 0), 300 * MILLION, 350 * MILLION, 0, 1, 325 * MILLION);
    ENDED(run(&tree, w, 3, p, 2, q, 2, 24999999, 40, 0), 300 * MILLION, 300 * MILLION, 1, 1, 300 * MILLION);
    same_records(__LINE__, 5, then_both);
    REFUSED(run(&tree, w, 3, q, 2, p, 2, 0, 40, 0), 16);
}

/* The same by share: 250 and 350 are met from 100 / 600 of a billion on, 300 and 350 from 50 / 650 on, both rounded up, and
 * the figure is 0. The mode is judged first, in all its bits. */
static void shares(void)
{
    static const uint32_t w[3] = {500 * MILLION, 500 * MILLION, 200 * MILLION}, ones[2] = {1, 1};
    static const uint64_t p[2] = {3, 5}, q[2] = {0, 0};
    ACCEPTED(open_table(&tree, w, 3, p, 2, q, 2), 250 * MILLION, 350 * MILLION, 0);
    before = tree;
    REFUSED(run(&tree, NULL, 0, p, 2, q, 2, 1000000001, 300, 2), 3);
    REFUSED(run(&tree, w, 3, p, 2, q, 2, 0, 40, 256), 3);
    REFUSED(run(&tree, w, 3, p, 2, q, 2, 0, 40, 65536), 3);
    REFUSED(run(&tree, w, 3, p, 2, q, 2, 0, 40, 65537), 3);
    REFUSED(run(&tree, w, 3, p, 2, q, 2, 0, 40, 4294967297), 3);
    REFUSED(run(&tree, NULL, 0, p, 2, q, 2, 1000000001, 300, 1), 9);
    REFUSED(run(&tree, w, 3, p, 2, q, 2, 1000000001, 300, 1), 14);
    REFUSED(run(&tree, w, 3, p, 2, q, 2, 1000000000, 300, 1), 15);
    REFUSED(run(&tree, w, 3, q, 2, p, 2, 0, 40, 1), 16);
    HOLDS(memcmp(&tree, &before, sizeof tree) == 0);
    ENDED(run(&tree, w, 3, p, 2, q, 2, 166666667, 40, CUE_SHARE), 250 * MILLION, 350 * MILLION, 0, 1, 0);
    ENDED(run(&tree, w, 3, p, 2, q, 2, 166666666, 0, CUE_SHARE), 250 * MILLION, 350 * MILLION, 0, 4, 0);
    ENDED(run(&tree, w, 3, p, 2, q, 2, 166666666, 40, CUE_SHARE), 300 * MILLION, 350 * MILLION, 1, 1, 0);
    ENDED(run(&tree, w, 3, p, 2, q, 2, 76923077, 40, CUE_SHARE), 300 * MILLION, 350 * MILLION, 0, 1, 0);
    ENDED(run(&tree, w, 3, p, 2, q, 2, 76923077, 4, CUE_DISTANCE), 300 * MILLION, 350 * MILLION, 0, 1, 325000000);
    ENDED(run(&tree, w, 3, p, 2, q, 2, 76923076, 40, CUE_SHARE), 300 * MILLION, 300 * MILLION, 1, 1, 0);
    same_records(__LINE__, 5, then_both);

    ACCEPTED(open_table(&tree, ones, 2, p, 1, q, 1), 0, 1, 0);
    ENDED(run(&tree, ones, 2, p, 1, q, 1, 999999999, 255, CUE_SHARE), 0, 1, 0, 2, 0);
    ENDED(run(&tree, ones, 2, p, 1, q, 1, 1000000000, 255, CUE_SHARE), 0, 1, 0, 1, 0);
}

/* {~1} {1, ~2} {0, ~2} of 0.2, 0.5 and 0.25: low 1 - 0.5 * 0.85; by fault 1 they are {~2}, and certainty. */
static void senses(void)
{
    static const uint32_t w[3] = {200 * MILLION, 500 * MILLION, 250 * MILLION};
    static const uint64_t p[3] = {0, 2, 1}, q[3] = {2, 4, 4};
    ACCEPTED(open_table(&tree, w, 3, p, 3, q, 3), 575 * MILLION, 1000 * MILLION, 0);
    ENDED(run(&tree, w, 3, p, 3, q, 3, 0, 255, 0), 875 * MILLION, 875 * MILLION, 1, 1, 875 * MILLION);
}

/* One way of two thirds: only rounding keeps the ends apart. */
static void done(void)
{
    static const uint32_t thirds[2] = {333333333, 333333333};
    static const uint64_t both[1] = {3}, none[1] = {0};
    ACCEPTED(open_table(&tree, thirds, 2, both, 1, none, 1), 111111110, 111111111, 0);
    ENDED(run(&tree, thirds, 2, both, 1, none, 1, 0, 255, 0), 111111110, 111111111, 0, 2, 111111110);
    ENDED(run(&tree, thirds, 2, both, 1, none, 1, 1, 255, 0), 111111110, 111111111, 0, 1, 111111110);
}

/* 24 faults in a ring, each paired with the next four. The figures are those of tests/reference (`ring`, paper.rs). */
static void full(void)
{
    static uint32_t ninths[24];
    static uint64_t pairs[96], none[96];
    for (unsigned i = 0; i < 96; i++) {
        ninths[i / 4] = 111111111;
        pairs[i] = (uint64_t)1 << i / 4 | (uint64_t)1 << (i / 4 + i % 4 + 1) % 24;
    }
    ACCEPTED(open_table(&tree, ninths, 24, pairs, 96, none, 96), 138491384, 1000000000, 0);
    ENDED(run(&tree, ninths, 24, pairs, 96, none, 96, 0, 255, 0), 522915350, 574287599, 255, 3, 548601474);
    SAME(tree.used, 511);
}

/* {0, 1, 2} {0, 1, 3} {~0, 4, 5} {~0, 4, 6}, all of 0.5: by fault 0, then right by fault 4, left by fault 1. Records 3
 * and 5, at the places 1 0 and 0 0, are then equally wide: the first by record is 3, and a run takes 5. */
static void by_record_and_by_place(void)
{
    static const uint8_t left[1] = {0}, right[1] = {1};
    static const uint64_t p[4] = {7, 11, 48, 80}, q[4] = {0, 0, 1, 1};
    static uint32_t w[7];
    for (size_t i = 0; i < 7; i++) {
        w[i] = 500 * MILLION;
    }
    ACCEPTED(open_table(&tree, w, 7, p, 4, q, 4), 125 * MILLION, 500 * MILLION, 0);
    ACCEPTED(refine(&tree, w, 7, p, 4, q, 4, NULL, 0, 1, 0), 250 * MILLION, 500 * MILLION, 1);
    ACCEPTED(refine(&tree, w, 7, p, 4, q, 4, right, 1, 1, 4), 312500000, 500 * MILLION, 1);
    ACCEPTED(refine(&tree, w, 7, p, 4, q, 4, left, 1, 1, 1), 375 * MILLION, 500 * MILLION, 1);
    SAME(widest(tree.nodes, tree.used).found, 1);
    SAME(widest(tree.nodes, tree.used).at, 3);
    ENDED(run(&tree, w, 7, p, 4, q, 4, 0, 1, 0), 375 * MILLION, 437500000, 1, 4, 406250000);
    SAME(tree.nodes[3].kind, 1);
    SAME(tree.nodes[5].kind, 2);
    SAME(tree.nodes[5].left, 7);
}

/* Records that no tree has: a closed leaf, a narrow one, an inner node, and three that are equally wide. */
static void search(void)
{
    static CueNode records[6];
    for (size_t i = 0; i < 6; i++) {
        records[i].kind = i == 2 ? 3 : 1;
        records[i].live = i == 0 ? 0 : 1;
        records[i].low = 10 * i;
        records[i].high = 10 * i + (i == 1 ? 19 : i < 3 ? 40 : 20);
    }
    SAME(widest(records, 6).found, 1);
    SAME(widest(records, 6).at, 3);
    SAME(widest(records, 1).found, 0);
    SAME(widest(records, 1).at, 0);
    SAME(widest(NULL, 0).found, 0);
}

void on_trees(void)
{
    by_hand();
    common_part();
    openings();
    runs();
    shares();
    senses();
    done();
    full();
    by_record_and_by_place();
    search();
}
