/* Each refusal by the header's name, of a drive search by each of its books and areas, of books with kinds by each of
 * their kind bytes, and each of the header's limits: a call at the limit passes, and one above it is refused. Prints
 * what is not as expected. */
#include <stdio.h>
#include <string.h>

#include "books.h"

_Static_assert(FINDER_SETTLING_LIMIT == FINDER_REGIONS_MAX / 2 + 2 * FINDER_YARDS_MAX, "inner regions, twice yards");
_Static_assert(FINDER_WITHIN_WORDS == 2 * FINDER_YARDS_MAX, "two words for each yard");
_Static_assert(FINDER_KINDS_TREE_BYTES
               == FINDER_TREE_BYTES + FINDER_REGIONS_MAX + FINDER_LANDMARKS_MAX * FINDER_YARDS_MAX,
               "a byte for each region and each entry of a list");

static struct book road, yard, tree, query;
static uint8_t wanted = FINDER_ALL_KINDS; /* of all searches */
static uint8_t built[FINDER_KINDS_TREE_BYTES];
static uint32_t work[FINDER_WORK_WORDS];
static uint32_t results[FINDER_WITHIN_WORDS];
static unsigned calls, failures;

static void expect(const char *what, uint32_t refusal, enum finder_refusal wanted)
{
    calls++;
    if (refusal == (uint32_t)wanted)
        return;
    failures++;
    printf("%s: refusal %u, and %u is expected\n", what, (unsigned)refusal, (unsigned)wanted);
}

/* A longest book has as many bytes as the header says. */
static void expect_bytes(const char *what, const struct book *book, size_t bytes)
{
    if (book->length == bytes)
        return;
    failures++;
    printf("%s: %zu bytes, and %zu are expected\n", what, book->length, bytes);
}

static uint32_t check_with(size_t words)
{
    return finder_check(road.bytes, road.length, yard.bytes, yard.length, tree.bytes, tree.length, work, words);
}

static uint32_t check(void)
{
    return check_with(FINDER_WORK_WORDS);
}

static struct finder_built build_with(uint32_t m, uint32_t leaf_limit, size_t bytes)
{
    return finder_build(road.bytes, road.length, yard.bytes, yard.length, m, leaf_limit, work, FINDER_WORK_WORDS,
                        built, bytes);
}

static uint32_t build(uint32_t m, uint32_t leaf_limit)
{
    return build_with(m, leaf_limit, sizeof built).refusal;
}

static struct finder_found search_with(size_t words)
{
    return finder_search(road.bytes, road.length, tree.bytes, tree.length, query.bytes, query.length, wanted,
                         work, FINDER_WORK_WORDS, results, words);
}

static uint32_t search(void)
{
    return search_with(FINDER_RESULT_WORDS).refusal;
}

/* Drive searches of net N: it has three yards, of 5, 13 and 15 seconds. */
#define WITHIN_SECONDS 14
#define WITHIN_WORDS 6

/* What the areas hold before a drive search, and held if it is refused: no two words alike. */
static uint32_t work_before[FINDER_WORK_WORDS];
static uint32_t results_before[FINDER_WITHIN_WORDS];

static void fill_areas(void)
{
    uint32_t i;

    for (i = 0; i < FINDER_WORK_WORDS; i++)
        work[i] = work_before[i] = 0x9e3779b9u * (i + 1);
    for (i = 0; i < FINDER_WITHIN_WORDS; i++)
        results[i] = results_before[i] = 0x85ebca6bu * (i + 1);
}

/* Whether the answer is of a refusal and no more: every other field is 0, and every word is as it was. */
static int refused_alone(const struct finder_found *found)
{
    return found->settled == 0 && found->listed == 0 && found->taken == 0 && found->measured == 0
        && memcmp(work, work_before, sizeof work) == 0 && memcmp(results, results_before, sizeof results) == 0;
}

/* A drive search with so many words of each area. */
static struct finder_found within_with(uint32_t seconds, size_t work_words, size_t result_words)
{
    struct finder_found found;

    fill_areas();
    found = finder_within(road.bytes, road.length, tree.bytes, tree.length, query.bytes, query.length, wanted, seconds,
                          work, work_words, results, result_words);
    if (found.refusal != FINDER_ACCEPTED && !refused_alone(&found)) {
        failures++;
        printf("a drive search refused by %u answers or writes more than that\n", (unsigned)found.refusal);
    }
    return found;
}

static uint32_t within(void)
{
    return within_with(WITHIN_SECONDS, FINDER_WORK_WORDS, WITHIN_WORDS).refusal;
}

/* The call with one byte of a book changed. */
static void change(const char *what, struct book *book, size_t at, uint8_t value, uint32_t (*call)(void),
                   enum finder_refusal wanted)
{
    uint8_t before = book->bytes[at];

    book->bytes[at] = value;
    expect(what, call(), wanted);
    book->bytes[at] = before;
}

/* The tree that a build gives becomes the tree book. */
static void take_built(uint32_t m, uint32_t leaf_limit)
{
    struct finder_built answer = build_with(m, leaf_limit, sizeof built);

    expect("build", answer.refusal, FINDER_ACCEPTED);
    for (tree.length = 0; tree.length < answer.length; tree.length++)
        tree.bytes[tree.length] = built[tree.length];
}

/* Yards 1, 3 and 4; of kinds 1, 2 and 5, if the version has kinds. */
static void write_three_yards(unsigned version)
{
    open_version(&yard, version);
    add16(&yard, 3);
    add16(&yard, 1);
    add_kinds(&yard, 1);
    add16(&yard, 3);
    add_kinds(&yard, 2);
    add16(&yard, 4);
    add_kinds(&yard, 5);
    close_book(&yard);
}

/* Net N: junctions 0 to 4 in a chain, seconds 2, 3, 4, 1; yards 1, 3, 4; the first two for crews at 0 and 2. */
static void write_net_n(void)
{
    open_book(&road);
    add16(&road, 5);
    add16(&road, 4);
    add_road(&road, 0, 1, 2);
    add_road(&road, 1, 2, 3);
    add_road(&road, 2, 3, 4);
    add_road(&road, 3, 4, 1);
    close_book(&road);
    write_three_yards(FINDER_BOOK_VERSION);
    write_query(&query, 2, 2, 2);
}

static void try_refusals(void)
{
    write_net_n();
    take_built(1, 3);
    expect("check", check(), FINDER_ACCEPTED);
    expect("search", search(), FINDER_ACCEPTED);
    change("a count one less", &road, 3, 28, check, FINDER_REFUSED_LENGTH);
    change("version 2 of roads", &road, 4, FINDER_KINDS_VERSION, check, FINDER_REFUSED_VERSION);
    change("version 3 of yards", &yard, 4, FINDER_KINDS_VERSION + 1, check, FINDER_REFUSED_VERSION);
    change("version 3 of a tree", &tree, 4, FINDER_KINDS_VERSION + 1, check, FINDER_REFUSED_VERSION);
    change("no yard", &yard, 6, 0, check, FINDER_REFUSED_HEADER);
    change("a road after the last", &road, 8, 3, check, FINDER_REFUSED_RECORDS);
    change("a road of no seconds", &road, 14, 0, check, FINDER_REFUSED_VALUE);
    change("a junction without a road", &road, 6, 6, check, FINDER_REFUSED_UNREACHED);
    change("a root that holds not all yards", &tree, 10, 2, check, FINDER_REFUSED_SHAPE);
    change("another yard", &tree, 38, 2, check, FINDER_REFUSED_DISAGREE);
    change("a distance one more", &tree, 36, 11, check, FINDER_REFUSED_DISTANCE);
    change("a crew at no junction", &query, 15, 5, search, FINDER_REFUSED_CREWS);
    change("an aggregate that is none", &query, 5, FINDER_MAXIMUM + 1, search, FINDER_REFUSED_NUMBER);
    change("the maximum", &query, 5, FINDER_MAXIMUM, search, FINDER_ACCEPTED);
    expect("a short work area", check_with(FINDER_WORK_WORDS - 1), FINDER_REFUSED_AREA);
    expect("a short tree area", build_with(1, 3, FINDER_TREE_BYTES - 1).refusal, FINDER_REFUSED_AREA);
    expect("a short result area", search_with(3).refusal, FINDER_REFUSED_AREA);
}

/* A book with another length: its count is right. */
static void resize(const char *what, struct book *book, size_t length, enum finder_refusal wanted)
{
    size_t before = book->length;

    book->length = length;
    close_book(book);
    expect(what, within(), wanted);
    book->length = before;
    close_book(book);
}

/* A book's opening and header, by a drive search. Its version is 1 to the latest. */
static void try_opening(struct book *book, uint8_t latest, size_t header)
{
    size_t length = book->length;

    for (book->length = 0; book->length < 5; book->length++)
        expect("fewer than five bytes", within(), FINDER_REFUSED_LENGTH);
    book->length = length - 1;
    expect("a byte less than the count", within(), FINDER_REFUSED_LENGTH);
    book->length = length + 1;
    expect("a byte more than the count", within(), FINDER_REFUSED_LENGTH);
    book->length = length;
    change("version 0", book, 4, 0, within, FINDER_REFUSED_VERSION);
    change("a version after the latest", book, 4, (uint8_t)(latest + 1), within, FINDER_REFUSED_VERSION);
    change("version 255", book, 4, 255, within, FINDER_REFUSED_VERSION);
    resize("a header cut short", book, header - 1, FINDER_REFUSED_HEADER);
    resize("the last record cut short", book, length - 1, FINDER_REFUSED_RECORDS);
    resize("a byte after the last record", book, length + 1, FINDER_REFUSED_RECORDS);
}

/* Every refusal that a drive search can get, by each of its books. */
static void try_refusals_of_within(void)
{
    write_net_n();
    take_built(1, 3);
    expect("within", within(), FINDER_ACCEPTED);
    try_opening(&road, FINDER_BOOK_VERSION, 9);
    try_opening(&tree, FINDER_KINDS_VERSION, 12);
    try_opening(&query, FINDER_BOOK_VERSION, 12);
    change("no junction", &road, 6, 0, within, FINDER_REFUSED_HEADER);
    change("no region", &tree, 8, 0, within, FINDER_REFUSED_HEADER);
    change("no yard", &tree, 10, 0, within, FINDER_REFUSED_HEADER);
    change("no landmark", &tree, 11, 0, within, FINDER_REFUSED_HEADER);
    change("a road after the last", &road, 8, 3, within, FINDER_REFUSED_RECORDS);
    change("a crew after the last", &query, 11, 1, within, FINDER_REFUSED_RECORDS);
    change("a road of no seconds", &road, 14, 0, within, FINDER_REFUSED_VALUE);
    change("distances that fall", &tree, 24, 10, within, FINDER_REFUSED_VALUE);
    change("a junction without a road", &road, 6, 6, within, FINDER_REFUSED_UNREACHED);
    change("a root that holds not all yards", &tree, 10, 2, within, FINDER_REFUSED_SHAPE);
    change("a junction more than the roads have", &tree, 6, 6, within, FINDER_REFUSED_DISAGREE);
    change("a distance one more, which a search takes", &tree, 36, 11, within, FINDER_ACCEPTED);
    change("a crew at no junction", &query, 15, 5, within, FINDER_REFUSED_CREWS);
    change("an aggregate that is none", &query, 5, FINDER_MAXIMUM + 1, within, FINDER_REFUSED_NUMBER);
    change("k of 0", &query, 6, 0, within, FINDER_REFUSED_NUMBER);
    change("k and one more", &query, 6, FINDER_K_MAX + 1, within, FINDER_REFUSED_NUMBER);
    change("k, which is not used", &query, 6, FINDER_K_MAX, within, FINDER_ACCEPTED);
    expect("no work area", within_with(5, 0, WITHIN_WORDS).refusal, FINDER_REFUSED_AREA);
    expect("a short work area", within_with(5, FINDER_WORK_WORDS - 1, WITHIN_WORDS).refusal, FINDER_REFUSED_AREA);
    expect("no result area", within_with(0, FINDER_WORK_WORDS, 0).refusal, FINDER_REFUSED_AREA);
    expect("a short result area", within_with(0, FINDER_WORK_WORDS, WITHIN_WORDS - 1).refusal, FINDER_REFUSED_AREA);
    write_query(&query, 2, 0, 0);
    expect("no crew", within(), FINDER_REFUSED_CREWS);
    write_query(&query, 2, FINDER_CREWS_MAX + 1, 0);
    expect("crews and one more", within(), FINDER_REFUSED_CREWS);
}

/* Of two faults the one that is tested first refuses: road, tree, query, wanted kinds, areas. */
static void try_order_of_within(void)
{
    write_net_n();
    take_built(1, 3);
    wanted = 0;
    expect("no kind wanted, no areas", within_with(5, 0, 0).refusal, FINDER_REFUSED_WANTED);
    query.bytes[6] = 0; /* k */
    expect("k of 0, no kind wanted", within_with(5, 0, 0).refusal, FINDER_REFUSED_NUMBER);
    query.bytes[15] = 5; /* the last crew */
    expect("a crew at no junction, k of 0", within_with(5, 0, 0).refusal, FINDER_REFUSED_CREWS);
    tree.bytes[6] = 6; /* the junctions */
    expect("a tree of more junctions before a bad query", within_with(5, 0, 0).refusal, FINDER_REFUSED_DISAGREE);
    tree.bytes[10] = 2; /* the yards */
    expect("a tree of another shape before that", within_with(5, 0, 0).refusal, FINDER_REFUSED_SHAPE);
    road.bytes[6] = 6; /* the junctions */
    expect("a road book before a tree book", within_with(5, 0, 0).refusal, FINDER_REFUSED_UNREACHED);
    wanted = FINDER_ALL_KINDS;
}

/* Net N with kinds, and its tree of 43 bytes: the root's kinds are at byte 19, those of the list at 28, 35 and 42. */
#define KINDS_TREE_LENGTH 43
#define ROOT_KINDS 19
static const size_t list_kinds[] = {28, 35, 42};

static void write_net_n_with_kinds(void)
{
    write_net_n();
    write_three_yards(FINDER_KINDS_VERSION);
    take_built(1, 3);
    expect("check of kinds", check(), FINDER_ACCEPTED);
    expect("search of kinds", search(), FINDER_ACCEPTED);
    expect("within, of kinds", within(), FINDER_ACCEPTED);
    if (tree.length != KINDS_TREE_LENGTH || tree.bytes[ROOT_KINDS] != 7) {
        failures++;
        printf("net N's tree with kinds has %zu bytes, and kinds %u\n", tree.length, (unsigned)tree.bytes[ROOT_KINDS]);
    }
}

static uint32_t build_1_3(void)
{
    return build(1, 3);
}

/* Each kind byte as 0 and as one that is not true; the other version; a last record that lacks its kind byte. */
static void try_refusals_of_kinds(void)
{
    size_t i;

    write_net_n_with_kinds();
    for (i = 9; i < yard.length; i += 3) {
        change("a yard of no kind", &yard, i, 0, check, FINDER_REFUSED_VALUE);
        change("a yard of no kind, to build with", &yard, i, 0, build_1_3, FINDER_REFUSED_VALUE);
        change("a yard of every kind beside the tree", &yard, i, FINDER_ALL_KINDS, check, FINDER_REFUSED_DISTANCE);
    }
    for (i = 0; i < sizeof list_kinds / sizeof list_kinds[0]; i++) {
        change("an entry of no kind", &tree, list_kinds[i], 0, check, FINDER_REFUSED_VALUE);
        change("an entry of no kind, searched", &tree, list_kinds[i], 0, search, FINDER_REFUSED_VALUE);
        change("an entry of no kind, within", &tree, list_kinds[i], 0, within, FINDER_REFUSED_VALUE);
        change("an entry of another kind", &tree, list_kinds[i], 8, check, FINDER_REFUSED_DISTANCE);
        change("an entry of another kind, which a search takes", &tree, list_kinds[i], 8, search, FINDER_ACCEPTED);
    }
    change("a root of no kind", &tree, ROOT_KINDS, 0, check, FINDER_REFUSED_VALUE);
    change("a root of no kind, within", &tree, ROOT_KINDS, 0, within, FINDER_REFUSED_VALUE);
    change("a root with a bit too many", &tree, ROOT_KINDS, 15, check, FINDER_REFUSED_DISTANCE);
    change("a root with a bit too few", &tree, ROOT_KINDS, 3, check, FINDER_REFUSED_DISTANCE);
    change("a root with a bit too few, within", &tree, ROOT_KINDS, 3, within, FINDER_ACCEPTED);
    change("another yard before other kinds", &tree, list_kinds[2] - 1, 2, check, FINDER_REFUSED_DISAGREE);
    change("kinds in version 1 of yards", &yard, 4, FINDER_BOOK_VERSION, check, FINDER_REFUSED_RECORDS);
    change("kinds in version 1 of a tree", &tree, 4, FINDER_BOOK_VERSION, check, FINDER_REFUSED_RECORDS);
    try_opening(&tree, FINDER_KINDS_VERSION, 12);
}

/* Books of different versions, and the areas of builds. */
static void try_versions_of_kinds(void)
{
    write_net_n_with_kinds();
    expect("a short area", build_with(1, 3, FINDER_KINDS_TREE_BYTES - 1).refusal, FINDER_REFUSED_AREA);
    expect("an area for no kinds", build_with(1, 3, FINDER_TREE_BYTES).refusal, FINDER_REFUSED_AREA);
    write_three_yards(FINDER_BOOK_VERSION);
    expect("yards without kinds beside a tree with them", check(), FINDER_REFUSED_DISTANCE);
    expect("the area for no kinds", build_with(1, 3, FINDER_TREE_BYTES).refusal, FINDER_ACCEPTED);
    take_built(1, 3);
    write_three_yards(FINDER_KINDS_VERSION);
    expect("yards with kinds beside a tree without them", check(), FINDER_REFUSED_DISTANCE);
    yard.bytes[9] = yard.bytes[12] = yard.bytes[15] = FINDER_ALL_KINDS;
    expect("yards of every kind beside a tree without kinds", check(), FINDER_ACCEPTED);
    take_built(1, 3);
    write_three_yards(FINDER_BOOK_VERSION);
    expect("yards without kinds beside a tree of every kind", check(), FINDER_ACCEPTED);
}

/* How many yards are listed for the wanted kinds, by both searches; none takes no step. */
static void want(uint8_t kinds, uint32_t listed)
{
    struct finder_found first, drive;

    wanted = kinds;
    first = search_with(FINDER_RESULT_WORDS);
    drive = within_with(UINT32_MAX, FINDER_WORK_WORDS, WITHIN_WORDS);
    expect("wanted kinds", first.refusal, kinds == 0 ? FINDER_REFUSED_WANTED : FINDER_ACCEPTED);
    expect("wanted kinds within any drive", drive.refusal, kinds == 0 ? FINDER_REFUSED_WANTED : FINDER_ACCEPTED);
    if (first.listed != (listed < 2 ? listed : 2) || drive.listed != listed || (listed == 0) != (drive.taken == 0)) {
        failures++;
        printf("kinds %u: %u and %u yards listed\n", (unsigned)kinds, (unsigned)first.listed, (unsigned)drive.listed);
    }
    wanted = FINDER_ALL_KINDS;
}

/* Every wanted byte beside yards of kinds 1, 2 and 5, and beside a tree without kinds; the first two yards at most. */
static void try_wanted_kinds(void)
{
    unsigned kinds;

    write_net_n_with_kinds();
    for (kinds = 0; kinds < 256; kinds++)
        want((uint8_t)kinds, ((kinds & 1) != 0) + ((kinds & 2) != 0) + ((kinds & 5) != 0));
    write_three_yards(FINDER_BOOK_VERSION);
    take_built(1, 3);
    for (kinds = 0; kinds < 256; kinds++)
        want((uint8_t)kinds, kinds == 0 ? 0 : 3);
}

/* Every pair of 92 junctions, the first so many of them, has a road. */
static void write_pairs(unsigned roads)
{
    unsigned low, high, left = roads;

    open_book(&road);
    add16(&road, 92);
    add16(&road, roads);
    for (low = 0; low < 92; low++)
        for (high = low + 1; high < 92 && left > 0; high++, left--)
            add_road(&road, low, high, 1);
    close_book(&road);
}

static void try_limits_of_roads_and_yards(void)
{
    write_yards(&yard, FINDER_BOOK_VERSION, 1);
    write_pairs(FINDER_ROADS_MAX);
    expect("roads", build(1, 1), FINDER_ACCEPTED);
    expect_bytes("roads", &road, FINDER_ROAD_BOOK_BYTES);
    write_pairs(FINDER_ROADS_MAX + 1);
    expect("roads and one more", build(1, 1), FINDER_REFUSED_HEADER);
    write_chain(&road, FINDER_JUNCTIONS_MAX + 1, 1);
    expect("junctions and one more", build(1, 1), FINDER_REFUSED_HEADER);
    write_chain(&road, FINDER_JUNCTIONS_MAX, FINDER_SECONDS_MAX + 1);
    expect("seconds and one more, which is 0 in 16 bits", build(1, 1), FINDER_REFUSED_VALUE);
    write_chain(&road, FINDER_JUNCTIONS_MAX, FINDER_SECONDS_MAX);
    write_yards(&yard, FINDER_BOOK_VERSION, FINDER_YARDS_MAX + 1);
    expect("yards and one more", build(1, 1), FINDER_REFUSED_HEADER);
    write_yards(&yard, FINDER_KINDS_VERSION, FINDER_YARDS_MAX + 1);
    expect("yards with kinds and one more", build(1, 1), FINDER_REFUSED_HEADER);
    write_yards(&yard, FINDER_KINDS_VERSION, FINDER_YARDS_MAX);
    take_built(FINDER_LANDMARKS_MAX, FINDER_LEAF_LIMIT_MAX);
    expect("check of a full leaf with kinds", check(), FINDER_ACCEPTED);
    expect_bytes("yards", &yard, FINDER_YARD_BOOK_BYTES);
    write_yards(&yard, FINDER_BOOK_VERSION, FINDER_YARDS_MAX);
    expect("landmarks and one more", build(FINDER_LANDMARKS_MAX + 1, 1), FINDER_REFUSED_NUMBER);
    expect("leaf limit and one more", build(1, FINDER_LEAF_LIMIT_MAX + 1), FINDER_REFUSED_NUMBER);
    take_built(FINDER_LANDMARKS_MAX, FINDER_LEAF_LIMIT_MAX);
    expect("check of a full leaf", check(), FINDER_ACCEPTED);
}

/* Every yard of a full tree is within the longest drive, and none within no drive; the words for all are asked for. */
static void try_limits_of_within(void)
{
    struct finder_found all, none;

    expect("words for each yard, one less", within_with(0, FINDER_WORK_WORDS, FINDER_WITHIN_WORDS - 1).refusal,
           FINDER_REFUSED_AREA);
    none = within_with(0, FINDER_WORK_WORDS, FINDER_WITHIN_WORDS);
    expect("within 0 seconds", none.refusal, FINDER_ACCEPTED);
    all = within_with(UINT32_MAX, FINDER_WORK_WORDS, FINDER_WITHIN_WORDS);
    expect("within any drive", all.refusal, FINDER_ACCEPTED);
    if (!none.settled || none.listed != 0 || !all.settled || all.listed != FINDER_YARDS_MAX) {
        failures++;
        printf("drives: settled %u, listed %u; settled %u, listed %u\n", (unsigned)none.settled, (unsigned)none.listed,
               (unsigned)all.settled, (unsigned)all.listed);
    }
}

/* On the district that the limits of roads and yards leave, with a tree of small leaves. */
static void try_limits_of_queries(void)
{
    struct finder_found found;

    take_built(1, 1);
    write_query(&query, FINDER_K_MAX, FINDER_CREWS_MAX, 64);
    expect("result words, one less", search_with(FINDER_RESULT_WORDS - 1).refusal, FINDER_REFUSED_AREA);
    found = search_with(FINDER_RESULT_WORDS);
    expect("k and crews", found.refusal, FINDER_ACCEPTED);
    expect_bytes("crews", &query, FINDER_QUERY_BOOK_BYTES);
    if (!found.settled || found.listed != FINDER_K_MAX) {
        failures++;
        printf("the settling limit: settled %u, listed %u\n", (unsigned)found.settled, (unsigned)found.listed);
    }
    try_limits_of_within();
    write_query(&query, FINDER_K_MAX + 1, FINDER_CREWS_MAX, 64);
    expect("k and one more", search(), FINDER_REFUSED_NUMBER);
    write_query(&query, FINDER_K_MAX, FINDER_CREWS_MAX + 1, 1);
    expect("crews and one more", search(), FINDER_REFUSED_CREWS);
}

/* On net N, with its tree of one leaf. */
static void try_limits_of_trees(void)
{
    write_net_n();
    take_built(1, 3);
    put32(&tree, 33, FINDER_DISTANCE_MAX); /* of the last yard */
    expect("distance", check(), FINDER_REFUSED_DISTANCE);
    put32(&tree, 33, FINDER_DISTANCE_MAX + 1);
    expect("distance and one more", check(), FINDER_REFUSED_VALUE);
    put32(&tree, 7, FINDER_REGIONS_MAX * 65536 + 3); /* the regions, and 3 yards */
    expect("regions", check(), FINDER_REFUSED_RECORDS);
    put32(&tree, 7, (FINDER_REGIONS_MAX + 1) * 65536 + 3);
    expect("regions and one more", check(), FINDER_REFUSED_HEADER);
}

/* Where net N's tree of two leaves has the root's children, its least and greatest; it has 65 bytes. */
#define CHILDREN 16
#define LEAST 21
#define GREATEST 25

/* An inner region's least and greatest may be any numbers of 32 bits in order; only a check tells untrue ones. A region
 * of 1 child or more than 4 has an inner region's size in test 4, and falls to 5. */
static void try_inner_regions(void)
{
    unsigned children;

    write_net_n();
    take_built(1, 2);
    put32(&tree, GREATEST, UINT32_MAX);
    expect("a greatest of any size", check(), FINDER_REFUSED_DISTANCE);
    expect("a greatest of any size, searched", search(), FINDER_ACCEPTED);
    put32(&tree, LEAST, UINT32_MAX);
    expect("a least of any size", check(), FINDER_REFUSED_DISTANCE);
    expect("a least of any size, searched", search(), FINDER_ACCEPTED);
    put32(&tree, GREATEST, UINT32_MAX - 1);
    expect("a least above the greatest", search(), FINDER_REFUSED_VALUE);
    for (children = 1; children < 256; children += children == 1 ? 4 : 1)
        change("a count of children that no region has", &tree, CHILDREN, (uint8_t)children, check,
               FINDER_REFUSED_VALUE);
    change("an inner region taken for a leaf", &tree, CHILDREN, 0, check, FINDER_REFUSED_RECORDS);
}

/* On a chain, with a tree of a version that is as deep as one may be, and one that is deeper. */
static void try_limits_of_depth(unsigned version)
{
    write_chain(&road, 20, 1);
    write_yards(&yard, version, FINDER_LEVELS_MAX);
    write_deep_tree(&tree, version, 20, FINDER_LEVELS_MAX);
    expect("levels", check(), FINDER_ACCEPTED);
    change("children", &tree, 16, FINDER_CHILDREN_MAX, check, FINDER_REFUSED_SHAPE);
    change("children and one more", &tree, 16, FINDER_CHILDREN_MAX + 1, check, FINDER_REFUSED_VALUE);
    write_yards(&yard, version, FINDER_LEVELS_MAX + 1);
    write_deep_tree(&tree, version, 20, FINDER_LEVELS_MAX + 1);
    expect("levels and one more", check(), FINDER_REFUSED_SHAPE);
}

int main(void)
{
    try_refusals();
    try_refusals_of_within();
    try_order_of_within();
    try_refusals_of_kinds();
    try_versions_of_kinds();
    try_wanted_kinds();
    try_limits_of_roads_and_yards();
    try_limits_of_queries();
    try_limits_of_trees();
    try_inner_regions();
    try_limits_of_depth(FINDER_BOOK_VERSION);
    try_limits_of_depth(FINDER_KINDS_VERSION);
    printf("refusals and limits: %u calls, %u not as expected\n", calls, failures);
    return failures != 0;
}
