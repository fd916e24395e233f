/* The archive's version, the words of the refusals, and then the cases on trees, on sheets, on texts and on logs. */
#include "same.h"

static const char *(*const refusal)(uint64_t) = cue_refusal;
static uint64_t (*const version)(void) = cue_version;

int differs;

static const char *const words[] = {
    "accepted",
    "the sheet is shorter than 12 bytes",
    "the sheet's faults are 0 or above 64, or its cues are 0 or above 24",
    "the mode is above 1",
    "the sheet is shorter than head, contents and weights together",
    "a cue number is 0 or not above the one before it",
    "a cue counts more than 128 ways",
    "a body's place is not where the weights, or the body before it, end",
    "the sheet's length is not the end of its last body",
    "a table has 0 or more than 64 weights",
    "a weight is above one billion",
    "a table has more than 128 ways, or present and absent words in different numbers",
    "a way names a fault at or above the number of faults",
    "a way names one fault both present and absent",
    "the allowance is above one billion",
    "the budget is above 255",
    "the tree is not one that this table and some series of accepted refinements gives",
    "the place named is longer than 64 or has no leaf",
    "the leaf there is closed",
    "the tree has 255 refinements",
    "the fault named does not occur in the leaf, or independence is asked where its ways hang together, "
    "or the common part where it is empty",
    "the writer's lists do not agree in length with each other or with the ways its cues count",
    "the space lent for writing is shorter than the output",
    "a record of the text is missing, is of no shape there, or names a fault twice in the same sense",
    "no packet was judged",
    "more than 4000000000 packets were judged, or more were discarded than judged",
};

int main(void)
{
    SAME(version(), 6);
    SAME(sizeof words / sizeof words[0], 26);
    for (uint64_t i = 0; i < 26; i++) {
        same(__LINE__, words[i], strcmp(refusal(i), words[i]) == 0, 1);
    }
    HOLDS(strcmp(refusal(26), "unknown number") == 0);
    HOLDS(strcmp(refusal(UINT64_MAX), "unknown number") == 0);
    on_trees();
    on_sheets();
    on_texts();
    on_logs();
    return differs;
}
