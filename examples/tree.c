/* The tree of a cue as a picture: opens the cue's table, makes one run and writes the tree to standard output, as an
 * SVG page or with --text as an indented list. Built and run, in the folder of this file:
 *
 *   cc -std=c11 -Wall -Wextra -I../include tree.c ../target/staticlib/libcuerisk.a -o tree
 *   ./tree ../samples/show.sheet 12 8 > finale.svg
 *   ./tree --text ../samples/show.sheet 12 8
 *
 * `../build.sh cuerisk` makes the library. After the sheet come the cue's number, as the report prints it, and the
 * most refinements, 0 to 255. The allowance is the sheet's own, and so is its mode. */
#include <inttypes.h>
#include <stdarg.h>
#include <stdio.h>
#include <stdlib.h>
#include <string.h>
#include "cue_risk.h"

/* A box, the room for it, a line in it, steps of a path on a line; between levels; the page's head, edge, width. */
enum { BOX = 98, ROOM = 110, LINE = 14, STEPS = 13, GAP = 38, HEAD = 84, EDGE = 14, WIDTH = 760 };

/* Where a node stands: its place, a digit for each step, and the middle of its box. */
typedef struct Seat {
    char path[CUE_FAULTS + 1];
    int depth, middle;
} Seat;

static uint8_t sheet[CUE_SHEET + 1];
static CueTree tree;
static uint64_t mode; /* what the allowance is */
static Seat seats[CUE_NODES] = {{"root", 0, 0}};
static int leaves, levels, top[CUE_FAULTS + 1]; /* top: where each level starts */

static _Noreturn void fail(const char *format, ...)
{
    va_list list;
    va_start(list, format);
    fputs("tree: ", stderr);
    vfprintf(stderr, format, list);
    fputc('\n', stderr);
    va_end(list);
    exit(1);
}

/* A number of digits alone, at most `most`. */
static unsigned number(const char *name, const char *text, unsigned most)
{
    unsigned long value = strtoul(text, NULL, 10);
    if (text[0] == '\0' || text[strspn(text, "0123456789")] != '\0' || value > most) {
        fail("%s is a number from 0 to %u, not '%s'", name, most, text);
    }
    return (unsigned)value;
}

static size_t read_sheet(const char *name)
{
    FILE *in = fopen(name, "rb");
    size_t n = in == NULL ? 0 : fread(sheet, 1, sizeof sheet, in);
    if (in == NULL || ferror(in)) {
        fail("cannot read %s", name);
    }
    fclose(in);
    return n;
}

/* The position in the contents of the cue with that number. */
static size_t find(size_t n_sheet, unsigned cue)
{
    size_t position = 0;
    CueEntry entry = cue_sheet_cue(sheet, n_sheet, position);
    while (!entry.past && entry.cue != cue) {
        entry = cue_sheet_cue(sheet, n_sheet, ++position);
    }
    if (entry.past) {
        fail("the sheet has no cue %u", cue);
    }
    return position;
}

static void accepted(uint64_t number)
{
    if (number != 0) {
        fail("refused %" PRIu64 ": %s", number, cue_refusal(number));
    }
}

/* One run on the cue's opened table, with the sheet's allowance and mode. */
static CueAnswer grow(size_t n_sheet, unsigned cue, unsigned budget)
{
    CueSheet head = cue_sheet_check(sheet, n_sheet);
    accepted(head.number);
    mode = head.mode;
    CueTable t = cue_sheet_table(sheet, n_sheet, find(n_sheet, cue));
    CueAnswer a = cue_open(&tree, t.weights, t.faults, t.present, t.ways, t.absent, t.ways);
    accepted(a.number);
    a = cue_run(&tree, t.weights, t.faults, t.present, t.ways, t.absent, t.ways, head.allowance, budget, mode);
    accepted(a.number);
    return a;
}

/* Seats a node and all below it: leaves side by side, an inner node over the middle of its children. */
static void seat(size_t i)
{
    const CueNode *n = &tree.nodes[i];
    int depth = seats[i].depth;
    if (levels <= depth) {
        levels = depth + 1;
    }
    if (n->kind == CUE_LEAF) {
        seats[i].middle = ROOM * leaves++ + ROOM / 2;
        return;
    }
    for (size_t side = 0; side < 2; side++) {
        Seat *child = &seats[n->left + side];
        *child = seats[i];
        child->path[depth] = (char)('0' + side);
        child->path[depth + 1] = '\0';
        child->depth = depth + 1;
        seat(n->left + side);
    }
    seats[i].middle = (seats[n->left].middle + seats[n->left + 1].middle) / 2;
}

/* A run by share has no figure. */
static void print_heading(unsigned cue, CueAnswer a)
{
    static const char *const verdicts[] = {"", "met", "done", "full", "spent"};
    if (mode == CUE_SHARE) {
        printf("Cue %u: %" PRIu64 " to %" PRIu64 " billionths", cue, a.low, a.high);
    } else {
        printf("Cue %u: about %" PRIu64 " billionths, %" PRIu64 " to %" PRIu64, cue, a.figure, a.low, a.high);
    }
    printf(", after %" PRIu64 " refinement%s, %s", a.count, a.count == 1 ? "" : "s", verdicts[a.verdict]);
}

static void print_kind(const CueNode *n)
{
    switch (n->kind) {
    case CUE_SHANNON: printf("fault %" PRIu64, n->fault); break;
    case CUE_INDEPENDENT_OR: printf("independence"); break;
    case CUE_INDEPENDENT_AND: printf("common part"); break;
    default: printf(n->live ? "open leaf" : "closed leaf");
    }
}

/* The class of its box, which has the colour. */
static const char *class_of(const CueNode *n)
{
    switch (n->kind) {
    case CUE_SHANNON: return "fault";
    case CUE_INDEPENDENT_OR: return "apart";
    case CUE_INDEPENDENT_AND: return "common";
    default: return n->live ? "open" : "closed";
    }
}

/* As an indented list. */
static void list(size_t i)
{
    const CueNode *n = &tree.nodes[i];
    printf("%*s%s ", 2 * seats[i].depth, "", seats[i].path);
    print_kind(n);
    printf(" %" PRIu64 " %" PRIu64 "\n", n->low, n->high);
    if (n->kind != CUE_LEAF) {
        list(n->left);
        list(n->left + 1);
    }
}

static const char style[] =
    "<style>text{font:11px ui-monospace,Menlo,Consolas,monospace;fill:#1b1f24;text-anchor:middle}\n"
    ".kind{font:bold 11px sans-serif}.path{fill:#5b636d}\n"
    ".head{font:bold 15px sans-serif;text-anchor:start}.note{font:12px sans-serif;text-anchor:start}\n"
    ".present,.absent{font:italic 10.5px sans-serif;fill:#44546a}.present{text-anchor:start}.absent{text-anchor:end}\n"
    "path{fill:none;stroke:#8a94a0;shape-rendering:crispEdges}rect{fill:#fff}\n"
    ".fault rect{fill:#e6effa;stroke:#38679c}.apart rect{fill:#e7f4e6;stroke:#3a7d44}\n"
    ".common rect{fill:#f2e8f9;stroke:#77479c}.closed rect{fill:#f5f5f5;stroke:#8a8a8a}\n"
    ".open rect{fill:#fff0cc;stroke:#b86e00;stroke-width:2;stroke-dasharray:5 3}</style>\n";

/* The height of the boxes of a level: what was done, low, high and the lines of the path. */
static int box_height(int level)
{
    return (3 + (level == 0 ? 1 : (level + STEPS - 1) / STEPS)) * LINE + 8;
}

/* From its parent down to a node; under a fault with the sense in which that is fixed. */
static void draw_edge(int x, size_t i)
{
    const CueNode *parent = &tree.nodes[tree.nodes[i].parent];
    int to = top[seats[i].depth], middle = to - GAP / 2, end = x + seats[i].middle, left = parent->left == i;
    printf("<path d=\"M%d %dV%dH%dV%d\"/>\n", x + seats[tree.nodes[i].parent].middle, to - GAP, middle, end, to);
    if (parent->kind == CUE_SHANNON) {
        const char *sense = left ? "present" : "absent";
        printf("<text class=\"%s\" x=\"%d\" y=\"%d\">%s</text>\n", sense, left ? end + 4 : end - 4, middle - 4, sense);
    }
}

static void draw_node(int x, size_t i)
{
    const CueNode *n = &tree.nodes[i];
    int y = top[seats[i].depth], middle = x + seats[i].middle;
    printf("<g class=\"%s\">", class_of(n));
    printf("<rect x=\"%d\" y=\"%d\" width=\"%d\" height=\"%d\" rx=\"6\"/><text class=\"kind\" x=\"%d\" y=\"%d\">",
           middle - BOX / 2, y, BOX, box_height(seats[i].depth), middle, y + LINE + 1);
    print_kind(n);
    printf("</text><text x=\"%d\" y=\"%d\">%" PRIu64 "</text>", middle, y + 2 * LINE + 1, n->low);
    printf("<text x=\"%d\" y=\"%d\">%" PRIu64 "</text>", middle, y + 3 * LINE + 1, n->high);
    const char *path = seats[i].path;
    for (size_t at = 0; at < strlen(path); at += STEPS) {
        int line = 4 + (int)(at / STEPS);
        printf("<text class=\"path\" x=\"%d\" y=\"%d\">%.*s</text>", middle, y + line * LINE + 1, STEPS, path + at);
    }
    printf("</g>\n");
}

static void draw_head(int width, int height, unsigned cue, CueAnswer a)
{
    printf("<svg xmlns=\"http://www.w3.org/2000/svg\" width=\"%d\" height=\"%d\"", width, height);
    printf(" viewBox=\"0 0 %d %d\" role=\"img\">\n<title>The tree of cue %u</title>\n<desc>", width, height, cue);
    print_heading(cue, a);
    printf("</desc>\n%s<rect width=\"%d\" height=\"%d\"/>\n", style, width, height);
    printf("<text class=\"head\" x=\"%d\" y=\"28\">", EDGE);
    print_heading(cue, a);
    printf("</text>\n<text class=\"note\" x=\"%d\" y=\"47\">In each box: what was done there, low, high, and the path"
           " from the root, 0 left and 1 right.</text>\n", EDGE);
    printf("<text class=\"note\" x=\"%d\" y=\"64\">A dashed leaf is open: it can be refined further.</text>\n", EDGE);
}

static void draw(unsigned cue, CueAnswer a)
{
    int full = ROOM * leaves, width = full + 2 * EDGE < WIDTH ? WIDTH : full + 2 * EDGE, height = HEAD;
    for (int level = 0; level < levels; level++) {
        top[level] = height;
        height += box_height(level) + GAP;
    }
    draw_head(width, height - GAP + EDGE, cue, a);
    for (size_t i = 1; i < tree.used; i++) {
        draw_edge((width - full) / 2, i);
    }
    for (size_t i = 0; i < tree.used; i++) {
        draw_node((width - full) / 2, i);
    }
    printf("</svg>\n");
}

int main(int argc, char **argv)
{
    int text = argc > 1 && strcmp(argv[1], "--text") == 0;
    if (argc - text != 4) {
        fail("usage: tree [--text] SHEET CUE BUDGET");
    }
    if (cue_version() != CUE_VERSION) {
        fail("the library has version %" PRIu64 ", the header %u", cue_version(), CUE_VERSION);
    }
    unsigned cue = number("CUE", argv[text + 2], 65535), budget = number("BUDGET", argv[text + 3], 255);
    CueAnswer a = grow(read_sheet(argv[text + 1]), cue, budget);
    seat(0);
    if (text) {
        print_heading(cue, a);
        printf("\n");
        list(0);
    } else {
        draw(cue, a);
    }
    if (fflush(stdout) != 0 || ferror(stdout)) {
        fail("cannot write");
    }
    return 0;
}
