/* The nodes that examples/tree.c has to show, a line for each: path, what was done there, low, high. The cue's table is
 * taken from the sheet's bytes as they lie; the lines come off the records in their order, each path from the parent's.
 * Usage: nodes SHEET CUE BUDGET, of a sheet that is in order and has the cue. */
#include <inttypes.h>
#include <stdio.h>
#include <stdlib.h>
#include <string.h>
#include "cue_risk.h"

static uint8_t sheet[CUE_SHEET];
static CueTree tree;
static uint32_t weights[64];
static uint64_t present[128], absent[128];
static char path[511][65];

static uint64_t field(size_t at, size_t bytes)
{
    return bytes == 0 ? 0 : sheet[at] + 256 * field(at + 1, bytes - 1);
}

static void print_node(size_t i)
{
    const CueNode *n = &tree.nodes[i], *parent = &tree.nodes[n->parent];
    if (i > 0) {
        strcpy(path[i], path[n->parent]);
        strcat(path[i], i == parent->left ? "0" : "1");
    }
    printf("%s ", i > 0 ? path[i] : "root");
    switch (n->kind) {
    case 1: printf(n->live == 1 ? "open leaf" : "closed leaf"); break;
    case 2: printf("independence"); break;
    case 3: printf("fault %" PRIu64, n->fault); break;
    case 4: printf("common part"); break;
    default: printf("kind %" PRIu64, n->kind);
    }
    printf(" %" PRIu64 " %" PRIu64 "\n", n->low, n->high);
}

int main(int argc, char **argv)
{
    FILE *in = argc == 4 ? fopen(argv[1], "rb") : NULL;
    if (in == NULL || fread(sheet, 1, sizeof sheet, in) == 0) {
        return 1;
    }
    size_t faults = field(0, 2), cues = field(2, 2), entry = 12;
    while (field(entry, 2) != strtoul(argv[2], NULL, 10)) {
        entry += 8;
    }
    size_t ways = field(entry + 2, 2), start = field(entry + 4, 4);
    for (size_t i = 0; i < faults; i++) {
        weights[i] = (uint32_t)field(12 + 8 * cues + 4 * i, 4);
    }
    for (size_t i = 0; i < ways; i++) {
        present[i] = field(start + 16 * i, 8);
        absent[i] = field(start + 16 * i + 8, 8);
    }
    cue_open(&tree, weights, faults, present, ways, absent, ways);
    cue_run(&tree, weights, faults, present, ways, absent, ways, field(4, 4), strtoul(argv[3], NULL, 10), field(10, 2));
    for (size_t i = 0; i < tree.used; i++) {
        print_node(i);
    }
    return tree.used == 0;
}
