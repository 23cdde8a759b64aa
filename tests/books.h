/* Books written field by field, for the tests. */
#ifndef TESTS_BOOKS_H
#define TESTS_BOOKS_H

#include "finder.h"

/* A book, with room for any that a test writes. */
struct book {
    uint8_t bytes[32768];
    size_t length;
};

static inline void add8(struct book *book, unsigned value)
{
    book->bytes[book->length++] = (uint8_t)(value % 256);
}

static inline void add16(struct book *book, unsigned value)
{
    add8(book, value / 256);
    add8(book, value);
}

static inline void add32(struct book *book, unsigned value)
{
    add16(book, value / 65536);
    add16(book, value);
}

/* Writes a number over four bytes of the book. */
static inline void put32(struct book *book, size_t at, unsigned value)
{
    size_t length = book->length;

    book->length = at;
    add32(book, value);
    book->length = length;
}

/* The count is put when the book is closed. */
static inline void open_version(struct book *book, unsigned version)
{
    book->length = 4;
    add8(book, version);
}

static inline void open_book(struct book *book)
{
    open_version(book, FINDER_BOOK_VERSION);
}

/* The kinds of a yard or a region, which a book of version 1 has not. */
static inline void add_kinds(struct book *book, unsigned kinds)
{
    if (book->bytes[4] == FINDER_KINDS_VERSION)
        add8(book, kinds);
}

static inline void close_book(struct book *book)
{
    put32(book, 0, (unsigned)(book->length - 4));
}

static inline void add_road(struct book *road, unsigned low, unsigned high, unsigned seconds)
{
    add16(road, low);
    add16(road, high);
    add16(road, seconds);
}

/* The junctions in a chain, each road of so many seconds. */
static inline void write_chain(struct book *road, unsigned junctions, unsigned seconds)
{
    unsigned v;

    open_book(road);
    add16(road, junctions);
    add16(road, junctions - 1);
    for (v = 0; v + 1 < junctions; v++)
        add_road(road, v, v + 1, seconds);
    close_book(road);
}

/* A yard of every kind at each of the first junctions. */
static inline void write_yards(struct book *yard, unsigned version, unsigned yards)
{
    unsigned v;

    open_version(yard, version);
    add16(yard, yards);
    for (v = 0; v < yards; v++) {
        add16(yard, v);
        add_kinds(yard, FINDER_ALL_KINDS);
    }
    close_book(yard);
}

/* A region's start, with its first junction as its landmark. */
static inline void add_region(struct book *tree, unsigned first, unsigned after, unsigned children, unsigned yards)
{
    add16(tree, first);
    add16(tree, after);
    add8(tree, children);
    add16(tree, yards);
    add_kinds(tree, FINDER_ALL_KINDS);
    add16(tree, first);
}

/* A leaf of one junction, which is a yard of every kind. */
static inline void add_leaf(struct book *tree, unsigned yard)
{
    add_region(tree, yard, yard + 1, 0, 1);
    add32(tree, 0);
    add16(tree, yard);
    add_kinds(tree, FINDER_ALL_KINDS);
}

/* The tree of so many levels, and as many yards, beside a chain of roads of 1 second: a region has the leaf of its
 * first junction and the region of all others as its children. */
static inline void write_deep_tree(struct book *tree, unsigned version, unsigned junctions, unsigned levels)
{
    unsigned v;

    open_version(tree, version);
    add16(tree, junctions);
    add16(tree, 2 * levels - 1);
    add16(tree, levels);
    add8(tree, 1);
    for (v = 0; v + 1 < levels; v++) {
        add_region(tree, v, junctions, 2, levels - v);
        add32(tree, 0);
        add32(tree, levels - 1 - v);
        add_leaf(tree, v);
    }
    add_leaf(tree, v);
    close_book(tree);
}

/* The sum for so many crews, each some junctions after the one before, with a limit that settles every search. */
static inline void write_query(struct book *query, unsigned k, unsigned crews, unsigned apart)
{
    unsigned i;

    open_book(query);
    add8(query, FINDER_SUM);
    add8(query, k);
    add32(query, FINDER_SETTLING_LIMIT);
    add8(query, crews);
    for (i = 0; i < crews; i++)
        add16(query, i * apart);
    close_book(query);
}

#endif
