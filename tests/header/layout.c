/* The header's constants, and the place and the type of every field of every struct, against figures written out here.
 * Nothing of this runs: a figure that differs does not compile. */
#include <assert.h>
#include "cue_risk.h"

static_assert(CUE_VERSION == 6, "");
static_assert(CUE_BILLION == 1000000000, "");
static_assert(CUE_FAULTS == 64, "");
static_assert(CUE_WAYS == 128, "");
static_assert(CUE_NODES == 511, "");
static_assert(CUE_TEXT == 939, "");
static_assert(CUE_SHEET == 49612, "");
static_assert(CUE_CSV == 781023, "");
static_assert(CUE_JUDGED == 4000000000, "");
static_assert(CUE_STACK == 262144, "");

static_assert(CUE_NONE == 0, "");
static_assert(CUE_MET == 1, "");
static_assert(CUE_DONE == 2, "");
static_assert(CUE_FULL == 3, "");
static_assert(CUE_SPENT == 4, "");
static_assert(CUE_DISTANCE == 0, "");
static_assert(CUE_SHARE == 1, "");
static_assert(CUE_INDEPENDENCE == 0, "");
static_assert(CUE_FAULT == 1, "");
static_assert(CUE_COMMON == 2, "");
static_assert(CUE_BLANK == 0, "");
static_assert(CUE_LEAF == 1, "");
static_assert(CUE_INDEPENDENT_OR == 2, "");
static_assert(CUE_SHANNON == 3, "");
static_assert(CUE_INDEPENDENT_AND == 4, "");
static_assert(CUE_LESS == 1, "");
static_assert(CUE_EQUAL == 2, "");
static_assert(CUE_GREATER == 3, "");

/* A field's place and its type: pointers to different types cannot stand in one choice. */
#define FIELD(S, type, field, place) \
    static_assert(offsetof(S, field) == (place), ""); \
    static_assert(sizeof(*(1 ? &((S *)0)->field : (type *)0)) == sizeof(type), "")

typedef CueNode Nodes[511];
typedef uint32_t Weights[64];
typedef uint64_t Words[128];

FIELD(CueAnswer, uint64_t, number, 0);
FIELD(CueAnswer, uint64_t, low, 8);
FIELD(CueAnswer, uint64_t, high, 16);
FIELD(CueAnswer, uint64_t, count, 24);
FIELD(CueAnswer, uint64_t, verdict, 32);
FIELD(CueAnswer, uint64_t, figure, 40);
static_assert(sizeof(CueAnswer) == 48, "");

FIELD(CueNode, uint64_t, kind, 0);
FIELD(CueNode, uint64_t, fault, 8);
FIELD(CueNode, uint64_t, live, 16);
FIELD(CueNode, size_t, parent, 24);
FIELD(CueNode, size_t, left, 32);
FIELD(CueNode, uint64_t, waysa, 40);
FIELD(CueNode, uint64_t, waysb, 48);
FIELD(CueNode, uint64_t, present, 56);
FIELD(CueNode, uint64_t, absent, 64);
FIELD(CueNode, uint64_t, out, 72);
FIELD(CueNode, uint64_t, low, 80);
FIELD(CueNode, uint64_t, high, 88);
FIELD(CueNode, uint64_t, ownlow, 96);
FIELD(CueNode, uint64_t, ownhigh, 104);
static_assert(sizeof(CueNode) == 112, "");

FIELD(CueTree, Nodes, nodes, 0);
FIELD(CueTree, size_t, used, 57232);
static_assert(sizeof(CueTree) == 57240, "");

FIELD(CueSpot, uint64_t, found, 0);
FIELD(CueSpot, size_t, at, 8);
static_assert(sizeof(CueSpot) == 16, "");

FIELD(CueSheet, uint64_t, number, 0);
FIELD(CueSheet, uint64_t, faults, 8);
FIELD(CueSheet, uint64_t, cues, 16);
FIELD(CueSheet, uint64_t, allowance, 24);
FIELD(CueSheet, uint64_t, budget, 32);
FIELD(CueSheet, uint64_t, mode, 40);
static_assert(sizeof(CueSheet) == 48, "");

FIELD(CueEntry, uint64_t, number, 0);
FIELD(CueEntry, uint64_t, past, 8);
FIELD(CueEntry, uint64_t, cue, 16);
FIELD(CueEntry, uint64_t, ways, 24);
FIELD(CueEntry, uint64_t, start, 32);
static_assert(sizeof(CueEntry) == 40, "");

FIELD(CueTable, uint64_t, number, 0);
FIELD(CueTable, uint64_t, past, 8);
FIELD(CueTable, uint64_t, faults, 16);
FIELD(CueTable, uint64_t, ways, 24);
FIELD(CueTable, Weights, weights, 32);
FIELD(CueTable, Words, present, 288);
FIELD(CueTable, Words, absent, 1312);
static_assert(sizeof(CueTable) == 2336, "");

FIELD(CueFraction, uint64_t, number, 0);
FIELD(CueFraction, uint64_t, discarded, 8);
FIELD(CueFraction, uint64_t, judged, 16);
static_assert(sizeof(CueFraction) == 24, "");

FIELD(CueWeight, uint64_t, number, 0);
FIELD(CueWeight, uint64_t, weight, 8);
static_assert(sizeof(CueWeight) == 16, "");

FIELD(CueOrder, uint64_t, number, 0);
FIELD(CueOrder, uint64_t, order, 8);
static_assert(sizeof(CueOrder) == 16, "");
