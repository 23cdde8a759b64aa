/* How much stack a call takes, against the header's bounds: the call runs on a stack of its own that held one pattern,
 * and the lowest byte that no longer does tells. This is a measurement, and no proof. */
#include <stdio.h>
#include <string.h>
#include <ucontext.h>

#include "books.h"

#define AREA (4 * FINDER_STACK_BYTES)
#define PATTERN 0xa5

static uint8_t area[AREA];
static struct book road, yard, tree, query;
static uint8_t built[FINDER_KINDS_TREE_BYTES];
static uint32_t work[FINDER_WORK_WORDS];
static uint32_t results[FINDER_WITHIN_WORDS];
static uint32_t refusal;
static ucontext_t here, there;

/* A chain of as many junctions as there may be, and a tree as deep as one may be; a build cuts the chain six times. As
 * many crews and yards as one may ask for, with both ends of the chain among the crews. The yard and tree books are of
 * this version. */
static void write_books(unsigned version)
{
    write_chain(&road, FINDER_JUNCTIONS_MAX, 1);
    write_yards(&yard, version, FINDER_LEVELS_MAX);
    write_deep_tree(&tree, version, FINDER_JUNCTIONS_MAX, FINDER_LEVELS_MAX);
    write_query(&query, FINDER_K_MAX, FINDER_CREWS_MAX, (FINDER_JUNCTIONS_MAX - 1) / (FINDER_CREWS_MAX - 1));
}

static void check(void)
{
    refusal = finder_check(road.bytes, road.length, yard.bytes, yard.length, tree.bytes, tree.length,
                           work, FINDER_WORK_WORDS);
}

static void build(void)
{
    refusal = finder_build(road.bytes, road.length, yard.bytes, yard.length, FINDER_LANDMARKS_MAX, 1,
                           work, FINDER_WORK_WORDS, built, sizeof built).refusal;
}

static void search(void)
{
    refusal = finder_search(road.bytes, road.length, tree.bytes, tree.length, query.bytes, query.length,
                            FINDER_ALL_KINDS, work, FINDER_WORK_WORDS, results, FINDER_RESULT_WORDS).refusal;
}

static void within(void)
{
    refusal = finder_within(road.bytes, road.length, tree.bytes, tree.length, query.bytes, query.length,
                            FINDER_ALL_KINDS, UINT32_MAX, work, FINDER_WORK_WORDS,
                            results, FINDER_WITHIN_WORDS).refusal;
}

/* The stack that a call takes, in bytes. */
static size_t stack_of(void (*call)(void))
{
    size_t low = 0;

    memset(area, PATTERN, AREA);
    getcontext(&there);
    there.uc_stack.ss_sp = area;
    there.uc_stack.ss_size = AREA;
    there.uc_link = &here;
    makecontext(&there, call, 0);
    swapcontext(&here, &there);
    while (low < AREA && area[low] == PATTERN)
        low++;
    return AREA - low;
}

/* Prints what a call takes; 0 if that is within its bound. */
static int measure(const char *name, void (*call)(void), size_t bound)
{
    size_t bytes = stack_of(call);

    printf("%s: refusal %u, %zu bytes of stack, at most %zu expected\n", name, (unsigned)refusal, bytes, bound);
    return refusal != FINDER_ACCEPTED || bytes > bound;
}

/* Every call on books of a version; 0 if all are within their bounds. */
static int measure_all(unsigned version)
{
    printf("yard and tree books of version %u\n", version);
    write_books(version);
    return measure("check", check, FINDER_CHECK_STACK_BYTES) + measure("build", build, FINDER_CHECK_STACK_BYTES)
        + measure("search", search, FINDER_STACK_BYTES) + measure("within", within, FINDER_STACK_BYTES);
}

int main(void)
{
    int beyond = measure_all(FINDER_BOOK_VERSION);

    beyond += measure_all(FINDER_KINDS_VERSION);
    return beyond;
}
