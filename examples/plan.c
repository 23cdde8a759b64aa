/* Where two crews of net N draw their tackle: builds the tree, checks it, searches it and prints the list. */
#include <stdio.h>
#include "finder.h"

/* Net N: junctions 0 to 4 in a chain, roads of 2, 3, 4 and 1 seconds; yards at 1, 3 and 4. See docs/BOOKS.md. */
static const uint8_t road[] = {0, 0, 0, 29, 1, 0, 5, 0, 4, 0, 0, 0, 1, 0, 2, 0, 1, 0, 2, 0, 3,
                               0, 2, 0, 3, 0, 4, 0, 3, 0, 4, 0, 1};
static const uint8_t yard[] = {0, 0, 0, 9, 1, 0, 3, 0, 1, 0, 3, 0, 4};
/* The sum, the first 2 yards, at most 767 steps (enough for any search), 2 crews: at junctions 0 and 2. */
static const uint8_t query[] = {0, 0, 0, 12, 1, FINDER_SUM, 2, 0, 0, 2, 255, 2, 0, 0, 0, 2};

/* What is lent for the time of a call; it may hold anything before. */
static uint32_t work[FINDER_WORK_WORDS];
static uint8_t tree[FINDER_TREE_BYTES];
static uint32_t results[FINDER_RESULT_WORDS];

static int refused(const char *call, uint32_t refusal)
{
    fprintf(stderr, "%s: refused by test %u: %s\n", call, (unsigned)refusal, finder_refusal_text(refusal));
    return 1;
}

int main(void)
{
    if (finder_version() != FINDER_VERSION_NUMBER) {
        fprintf(stderr, "finder.h is of version %d, the library of %u\n", FINDER_VERSION_NUMBER,
                (unsigned)finder_version());
        return 1;
    }

    /* 1 landmark for each region, at most 3 yards in a leaf */
    struct finder_built built = finder_build(road, sizeof road, yard, sizeof yard, 1, 3,
                                             work, FINDER_WORK_WORDS, tree, sizeof tree);
    if (built.refusal != FINDER_ACCEPTED)
        return refused("build", built.refusal);

    /* a tree just built is accepted; one that was stored is checked once, before it is searched beside these roads */
    uint32_t refusal = finder_check(road, sizeof road, yard, sizeof yard, tree, built.length, work, FINDER_WORK_WORDS);
    if (refusal != FINDER_ACCEPTED)
        return refused("check", refusal);

    /* yards of any kind: these books tell none apart */
    struct finder_found found = finder_search(road, sizeof road, tree, built.length, query, sizeof query,
                                              FINDER_ALL_KINDS, work, FINDER_WORK_WORDS, results, FINDER_RESULT_WORDS);
    if (found.refusal != FINDER_ACCEPTED)
        return refused("search", found.refusal);
    for (uint32_t i = 0; i < found.listed; i++)
        printf("yard %u, %u seconds\n", (unsigned)results[2 * i], (unsigned)results[2 * i + 1]);
    return 0;
}
