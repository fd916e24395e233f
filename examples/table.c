/* The calls on a tree, and the report on a sheet, from C. Built and run, in the folder of this file:
 *
 *   cc -std=c11 -Wall -Wextra -I../include table.c ../target/staticlib/libcuerisk.a -o table
 *   ./table ../samples/show.sheet
 *
 * `../build.sh cuerisk` makes the library. */
#include <inttypes.h>
#include <stdio.h>
#include "cue_risk.h"

/* Two ways of three faults: {0, 1} and {0, 2}. */
static const uint32_t weights[3] = {500000000, 500000000, 200000000};
static const uint64_t present[2] = {3, 5};
static const uint64_t absent[2] = {0, 0};

static CueTree tree;
static uint8_t sheet[CUE_SHEET + 1];
static uint8_t text[CUE_TEXT];

static void print(const char *call, CueAnswer a)
{
    static const char *const verdicts[5] = {"", " met", " done", " full", " spent"};
    if (a.number != 0) {
        printf("%s refused %" PRIu64 "\n", call, a.number);
    } else {
        printf("%s %" PRIu64 " %" PRIu64 " %" PRIu64 "%s", call, a.low, a.high, a.count, verdicts[a.verdict]);
        if (a.verdict != CUE_NONE) {
            printf(" figure %" PRIu64, a.figure);
        }
        printf("\n");
    }
}

int main(int argc, char **argv)
{
    if (cue_version() != CUE_VERSION) {
        fputs("the library is not of the header's version\n", stderr);
        return 1;
    }
    print("open", cue_open(&tree, weights, 3, present, 2, absent, 2));

    /* Within a fifth of the chance it is already; a run by share has no figure. */
    print("share", cue_run(&tree, weights, 3, present, 2, absent, 2, CUE_BILLION / 5, 255, CUE_SHARE));

    /* The root by fault 0; its place has no steps. */
    print("refine", cue_refine(&tree, weights, 3, present, 2, absent, 2, NULL, 0, CUE_FAULT, 0));

    CueSpot widest = cue_widest(tree.nodes, tree.used);
    printf("widest %" PRIu64 " %zu\n", widest.found, widest.at);

    print("run", cue_run(&tree, weights, 3, present, 2, absent, 2, 0, 255, CUE_DISTANCE));

    /* The root is no leaf any more. */
    print("refine", cue_refine(&tree, weights, 3, present, 2, absent, 2, NULL, 0, CUE_FAULT, 0));

    for (size_t i = 0; i < tree.used; i++) {
        const CueNode *n = &tree.nodes[i];
        printf("node %zu kind %" PRIu64 " fault %" PRIu64 " low %" PRIu64 " high %" PRIu64 "\n", i, n->kind, n->fault, n->low, n->high);
    }

    if (argc < 2) {
        return 0;
    }
    FILE *in = fopen(argv[1], "rb");
    if (in == NULL) {
        return 1;
    }
    size_t n_sheet = fread(sheet, 1, sizeof sheet, in);
    fclose(in);
    CueAnswer a = cue_sheet_report(sheet, n_sheet, text, sizeof text);
    fwrite(text, 1, (size_t)a.count, stdout);
    return 0;
}
