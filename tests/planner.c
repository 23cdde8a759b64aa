/* A small planner: asks for the version, builds a tree for net N, checks it, then damaged ones, searches it, for two
 * yards and within drives, also for yards of the same sum, does the same with a yard book of two kinds, and prints. In
 * what it prints every returned field has a number of its own somewhere, so that no two can be exchanged unseen. */
#include <stdio.h>

#include "finder.h"

/* Net N: junctions 0 to 4 in a chain, seconds 2, 3, 4, 1; yards 1, 3, 4. */
static const uint8_t road[] = {
    0, 0, 0, 29, 1, 0, 5, 0, 4,
    0, 0, 0, 1, 0, 2,
    0, 1, 0, 2, 0, 3,
    0, 2, 0, 3, 0, 4,
    0, 3, 0, 4, 0, 1,
};
static const uint8_t yard[] = {0, 0, 0, 9, 1, 0, 3, 0, 1, 0, 3, 0, 4};

/* The same yards with kinds: yard 1 stocks chain, yard 3 slings, yard 4 both. */
#define CHAIN 1
#define SLINGS 2
#define HOOKS 4 /* which no yard stocks */
static const uint8_t kinds_yard[] = {
    0, 0, 0, 12, FINDER_KINDS_VERSION, 0, 3, 0, 1, CHAIN, 0, 3, SLINGS, 0, 4, CHAIN | SLINGS,
};

/* The yard book that trees are built from and checked beside. */
static const uint8_t *yards = yard;
static size_t yards_length = sizeof yard;

/* Sum, k 2, limit 4, crews at junctions 0 and 2. */
static uint8_t query[] = {0, 0, 0, 12, FINDER_BOOK_VERSION, FINDER_SUM, 2, 0, 0, 0, 4, 2, 0, 0, 0, 2};
#define AGGREGATE 5
#define K 6
#define LIMIT 10
#define FIRST_CREW 13
#define LAST_CREW 15

/* The tree's area, and the work and result areas with words after them that no call may change. A search for two yards
 * is lent four result words, a drive search two for each of the tree's three yards. */
#define RESULT_WORDS 4
#define WITHIN_WORDS 6
static uint8_t tree[FINDER_KINDS_TREE_BYTES];
static uint32_t work[FINDER_WORK_WORDS + 2];
static uint32_t results[WITHIN_WORDS + 2];

/* Makes every work and result word 7. */
static void fill_words(void)
{
    size_t i;

    for (i = 0; i < FINDER_WORK_WORDS + 2; i++)
        work[i] = 7;
    for (i = 0; i < WITHIN_WORDS + 2; i++)
        results[i] = 7;
}

/* Prints a call's refusal and what became of the work area. */
static void report(const char *call, uint32_t refusal)
{
    size_t i, zero = 0, kept = 0;

    for (i = 0; i < FINDER_WORK_WORDS + 2; i++) {
        zero += work[i] == 0;
        kept += work[i] == 7;
    }
    printf("%s: %u; work words zeroed %zu, kept %zu\n", call, (unsigned)refusal, zero, kept);
}

/* Builds the tree into the first bytes of its area, with m landmarks for each region and leaves of at most so many
 * yards. */
static size_t build(const char *call, uint32_t m, uint32_t leaf_limit, size_t bytes)
{
    struct finder_built built;

    fill_words();
    built = finder_build(road, sizeof road, yards, yards_length, m, leaf_limit, work, FINDER_WORK_WORDS, tree, bytes);
    report(call, built.refusal);
    printf("  length %u\n", (unsigned)built.length);
    return built.length;
}

/* Checks the first bytes of the tree, with so many work words. */
static void check(const char *call, size_t length, size_t words)
{
    fill_words();
    report(call, finder_check(road, sizeof road, yards, yards_length, tree, length, work, words));
}

/* Prints the tree's bytes, and whether those after them are still 0. */
static void print_tree(size_t length)
{
    size_t i, after = 0;

    printf(" ");
    for (i = 0; i < length; i++)
        printf(" %02x", tree[i]);
    for (; i < sizeof tree; i++)
        after += tree[i] != 0;
    printf("\n  bytes changed after it %zu\n", after);
}

/* Prints what a search returns, the first yard of its list, where the tackle is to be reserved, and every result
 * word. */
static void print_found(const char *call, struct finder_found found)
{
    size_t i;

    report(call, found.refusal);
    printf("  settled %u, listed %u, taken %u, measured %u\n", (unsigned)found.settled, (unsigned)found.listed,
           (unsigned)found.taken, (unsigned)found.measured);
    if (found.listed > 0)
        printf("  meet at yard %u, %u seconds\n", (unsigned)results[0], (unsigned)results[1]);
    printf("  results");
    for (i = 0; i < WITHIN_WORDS + 2; i++)
        printf(" %u", (unsigned)results[i]);
    printf("\n");
}

/* Searches the first bytes of the tree for what the query asks, of the wanted kinds, with so many result words. */
static void search_for(const char *call, size_t length, uint8_t wanted, size_t words)
{
    fill_words();
    print_found(call, finder_search(road, sizeof road, tree, length, query, sizeof query, wanted,
                                    work, FINDER_WORK_WORDS, results, words));
}

/* The same for yards of any kind. */
static void search(const char *call, size_t length, size_t words)
{
    search_for(call, length, FINDER_ALL_KINDS, words);
}

/* Searches the first bytes of the tree for all yards of the wanted kinds within so many seconds, with so many result
 * words. */
static void within_for(const char *call, size_t length, uint8_t wanted, uint32_t seconds, size_t words)
{
    fill_words();
    print_found(call, finder_within(road, sizeof road, tree, length, query, sizeof query, wanted, seconds,
                                    work, FINDER_WORK_WORDS, results, words));
}

/* The same for yards of any kind. */
static void within(const char *call, size_t length, uint32_t seconds, size_t words)
{
    within_for(call, length, FINDER_ALL_KINDS, seconds, words);
}

/* The query's searches: three are settled, one is spent, the others are refused. */
static void search_all(size_t length)
{
    search("search for two yards", length, RESULT_WORDS);
    query[AGGREGATE] = FINDER_MAXIMUM;
    search("search for two yards by the maximum", length, RESULT_WORDS);
    query[AGGREGATE] = FINDER_SUM;
    query[LAST_CREW] = 4; /* every yard is on the way from 0 to 4: all are tied, and all are measured */
    query[LIMIT] = 6;
    search("search for two of three tied yards", length, RESULT_WORDS);
    query[LAST_CREW] = 2;
    query[LIMIT] = 3;
    search("search of three steps", length, RESULT_WORDS);
    query[LIMIT] = 4;
    search("search with short results", length, RESULT_WORDS - 1);
    query[K] = 65;
    search("search for too many yards", length, RESULT_WORDS);
    query[LAST_CREW] = 5; /* there are junctions 0 to 4 */
    search("search for a crew at no junction", length, RESULT_WORDS);
    query[LAST_CREW] = 2;
    query[K] = 2;
}

/* Searches for crews at 1 and 4, to whom yards 1, 3 and 4 are 0 + 8, 7 + 1 and 8 + 0 seconds away: of the same sum, and
 * with the furthest crew at 8, 7 and 8. So yard 3 comes first, then yard 1 by its number. Each yard's key is 8, the
 * root's 0: six steps measure all. By the maximum yard 3 is taken first, and the list is no other. */
static void search_ties(size_t length)
{
    query[FIRST_CREW] = 1;
    query[LAST_CREW] = 4;
    query[LIMIT] = 6;
    search("search for two of three yards of the same sum", length, RESULT_WORDS);
    within("yards within 8 seconds, all of the same sum", length, 8, WITHIN_WORDS);
    within("yards within 7 seconds, a second less", length, 7, WITHIN_WORDS);
    query[AGGREGATE] = FINDER_MAXIMUM;
    search("search for two of them by the maximum", length, RESULT_WORDS);
    query[AGGREGATE] = FINDER_SUM;
    query[LIMIT] = 5;
    search("search for two of them, of five steps", length, RESULT_WORDS);
    query[FIRST_CREW] = 0;
    query[LAST_CREW] = 2;
    query[LIMIT] = 4;
}

/* Searches for one yard and for four, more than there are: as many are measured as have a key that isn't above the last
 * listed distance, and all of them if the list is short. For crews at 0 and 2 they are 5, 13 and 15 seconds away. */
static void search_keys(const char *one, const char *four, size_t length)
{
    query[LIMIT] = 6;
    query[K] = 1;
    search(one, length, RESULT_WORDS);
    query[K] = 4;
    search(four, length, 2 * RESULT_WORDS);
    query[K] = 2;
    query[LIMIT] = 4;
}

/* The same tree with its landmark at junction 2, from where the yards are 3, 4 and 5 seconds away. For crews at 0 and
 * 2 each yard's bound is 5 then, and the yards are 5, 13 and 15 seconds away in sum. */
static void move_landmark(void)
{
    tree[20] = 2;
    tree[24] = 3;
    tree[30] = 4;
    tree[36] = 5;
}

/* The query's drive searches: four are settled, one is spent, the others are refused. */
static void within_all(size_t length)
{
    query[LIMIT] = 6;
    within("yards within 4 seconds", length, 4, WITHIN_WORDS);
    within("yards within 5 seconds", length, 5, WITHIN_WORDS);
    within("yards within 14 seconds", length, 14, WITHIN_WORDS);
    within("yards within any drive", length, UINT32_MAX, WITHIN_WORDS);
    query[LIMIT] = 5;
    within("yards within 14 seconds, of five steps", length, 14, WITHIN_WORDS);
    within("yards within 5 seconds with short results", length, 5, WITHIN_WORDS - 1);
    query[K] = 65;
    within("yards within 5 seconds, k of 65", length, 5, WITHIN_WORDS);
    query[LAST_CREW] = 5; /* there are junctions 0 to 4 */
    within("yards within 5 seconds for a crew at no junction", length, 5, WITHIN_WORDS);
    query[LAST_CREW] = 2;
    query[K] = 2;
}

/* A tree byte changed for a check. */
static void check_with(const char *call, size_t length, size_t at, uint8_t value)
{
    uint8_t before = tree[at];

    tree[at] = value;
    check(call, length, FINDER_WORK_WORDS);
    tree[at] = before;
}

/* Where net N's tree with kinds has the version, the root's kinds, and those of yards 3 and 4. */
#define VERSION 4
#define ROOT_KINDS 19
#define YARD_3_KINDS 35
#define YARD_4_KINDS 42

/* Builds and checks with the yard book of two kinds. */
static size_t build_kinds(void)
{
    size_t length;

    yards = kinds_yard;
    yards_length = sizeof kinds_yard;
    build("build with kinds into an area for none", 1, 3, FINDER_TREE_BYTES);
    build("build with kinds into a short area", 1, 3, sizeof tree - 1);
    length = build("build of net N's tree with kinds", 1, 3, sizeof tree);
    print_tree(length);
    check("check of it", length, FINDER_WORK_WORDS);
    check_with("check of a root that lacks slings", length, ROOT_KINDS, CHAIN);
    check_with("check of a root with hooks", length, ROOT_KINDS, CHAIN | SLINGS | HOOKS);
    check_with("check of a yard that lacks chain", length, YARD_4_KINDS, SLINGS);
    check_with("check of a yard of no kind", length, YARD_3_KINDS, 0);
    check_with("check of a tree of version 3", length, VERSION, 3);
    return length;
}

/* The query's searches for some kinds: those for hooks take no step, the last ones are refused. */
static void search_kinds(size_t length)
{
    query[LIMIT] = 4;
    search("search for two yards of any kind", length, RESULT_WORDS);
    search_for("search for two yards with chain", length, CHAIN, RESULT_WORDS);
    search_for("search for two yards with slings", length, SLINGS, RESULT_WORDS);
    search_for("search for two yards with hooks", length, HOOKS, RESULT_WORDS);
    search_for("search for two yards of no kind", length, 0, RESULT_WORDS);
    search_for("search for two yards of no kind, short results", length, 0, RESULT_WORDS - 1);
    within_for("yards with slings within 14 seconds", length, SLINGS, 14, WITHIN_WORDS);
    within_for("yards with slings or hooks within any drive", length, SLINGS | HOOKS, UINT32_MAX, WITHIN_WORDS);
    within_for("yards with hooks within any drive", length, HOOKS, UINT32_MAX, WITHIN_WORDS);
    within_for("yards with chain within 14 seconds, results for them alone", length, CHAIN, 14, WITHIN_WORDS - 2);
    within_for("yards of no kind within 14 seconds", length, 0, 14, WITHIN_WORDS);
    query[K] = 65;
    search_for("search for too many yards of no kind", length, 0, RESULT_WORDS);
    within_for("yards of no kind within 14 seconds, k of 65", length, 0, 14, WITHIN_WORDS);
    query[K] = 2;
}

int main(void)
{
    size_t length;

    printf("header %d, library %u\n", FINDER_VERSION_NUMBER, (unsigned)finder_version());
    build("build with five landmarks", 5, 3, FINDER_TREE_BYTES);
    build("build with no yard in a leaf", 1, 0, FINDER_TREE_BYTES);
    build("build into a short area", 1, 3, FINDER_TREE_BYTES - 1);
    length = build("build of net N's tree", 1, 3, FINDER_TREE_BYTES);
    print_tree(length);

    check("check of it", length, FINDER_WORK_WORDS);
    check("check with a longer work area", length, FINDER_WORK_WORDS + 1);
    check("check with a short work area", length, FINDER_WORK_WORDS - 1);
    check("check of a book cut short", length - 1, FINDER_WORK_WORDS);

    search_all(length);
    search_ties(length);
    search_keys("search for one yard, keys 5, 13 and 15", "search for four yards", length); /* measured 1, 3 */

    tree[length - 3] = 11; /* yard 4 is 10 seconds away from junction 0: a second too long */
    check("check of a false distance", length, FINDER_WORK_WORDS);
    check("check of a false distance, no work area", length, 0);
    tree[length - 3] = 10;

    tree[length - 1] = 2; /* junction 2 is no yard */
    check("check of another yard", length, FINDER_WORK_WORDS);
    tree[length - 1] = 4;

    move_landmark();
    check("check of another landmark", length, FINDER_WORK_WORDS);
    search_keys("search for one yard, each key 5", "search for four yards", length); /* measured 3, 3 */
    within_all(length);

    length = build_kinds();
    search_kinds(length);
    yards = yard;
    yards_length = sizeof yard;
    check("check of kinds beside yards of every kind", length, FINDER_WORK_WORDS);
    return 0;
}
