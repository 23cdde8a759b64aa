/* The meeting-yard finder, for C. Link with libfinder.a, which `make library` writes to target/staticlib and
 * `make install` installs, with share/doc/finder/BOOKS.md, which explains the four books byte by byte, and
 * share/doc/finder/plan.c, a whole program.
 *
 * What is lent. A call is lent byte areas (books, and the area that a tree is built into) and word areas, each as a
 * pointer and a count: of bytes, or of 32-bit words for the work and result areas. No pointer is NULL, also where the
 * count is 0, and each is aligned for its type. An area that a call writes (work, results, a built tree's) overlaps no
 * other area of the call. All is lent for the time of the call only: nothing is kept, nothing is allocated, and nothing
 * outside the lent areas is read or written. Books are only read; they may hold any bytes. Calls may run at the same
 * time if no area that one of them writes is lent to another.
 *
 * What comes back. The refusal is 0 if the call is accepted. Otherwise it is the number of the first test that failed
 * (enum finder_refusal), every other field is 0, and no lent byte or word has changed. Books are tested in the order
 * road, yard, tree, query, each through all of its tests; then the call's numbers, then the areas. The work area may
 * hold anything. An accepted call leaves its first FINDER_WORK_WORDS words 0 and the rest as they were.
 *
 * Kinds of yard. A version 2 yard book gives each yard a byte of kinds, one bit for each kind and at least one of them
 * set; what a bit stands for is the caller's affair. The tree that is built from it is of version 2 too and holds the
 * kinds. A search takes a byte of wanted kinds and lists only yards that share a bit with it. Version 1 books have no
 * such bytes and are read as if every byte of kinds were FINDER_ALL_KINDS.
 *
 * Proved and measured. All that is said here of answers and areas is proved, for every input. One thing is measured and
 * not proved: the stack that a call takes (FINDER_STACK_BYTES, FINDER_CHECK_STACK_BYTES).
 */
#ifndef FINDER_H
#define FINDER_H

#include <stddef.h>
#include <stdint.h>

#ifdef __cplusplus
extern "C" {
#endif

#define FINDER_VERSION "2.2.0" /* of this header and the library */
#define FINDER_VERSION_NUMBER 20200 /* the same as finder_version() answers it: 2 * 10000 + 2 * 100 + 0 */
#define FINDER_BOOK_VERSION 1  /* the version byte of a book without kinds; road and query books have no other */
#define FINDER_KINDS_VERSION 2 /* the version byte of a yard book or a tree book with kinds */
#define FINDER_ALL_KINDS 255   /* every kind; as the wanted byte of a search: any yard */

/* The greatest counts and values of books and calls. Of junctions, yards, regions, landmarks, crews, k and the leaf
 * limit the least is 1, and so it is of a road's seconds; there may be no road. */
#define FINDER_JUNCTIONS_MAX 1024
#define FINDER_ROADS_MAX 4096
#define FINDER_SECONDS_MAX 65535     /* of a road */
#define FINDER_YARDS_MAX 256
#define FINDER_REGIONS_MAX 511       /* of a tree */
#define FINDER_LEVELS_MAX 8          /* of a tree, root included */
#define FINDER_CHILDREN_MAX 4        /* of a region: none, or 2 to 4 */
#define FINDER_LANDMARKS_MAX 4       /* m, of each region */
#define FINDER_DISTANCE_MAX 67042305 /* a distance of two junctions, in seconds: 1,023 roads of 65,535 */
#define FINDER_LEAF_LIMIT_MAX 256    /* of a build */
#define FINDER_CREWS_MAX 16
#define FINDER_K_MAX 64
#define FINDER_SETTLING_LIMIT 767    /* steps that settle every search on a tree that passes the check */

/* The longest books that are accepted, in bytes: an array of so many holds any. */
#define FINDER_ROAD_BOOK_BYTES 24585 /* 9 and 6 for each of 4,096 roads */
#define FINDER_YARD_BOOK_BYTES 775   /* 7 and 3 for each of 256 yards; 519 in version 1 */
#define FINDER_QUERY_BOOK_BYTES 44   /* 12 and 2 for each of 16 crews */

/* How long areas have to be; a query of fewer than 64 yards needs only 2 * k result words, and a drive search of a tree
 * with fewer than 256 only two for each. */
#define FINDER_WORK_WORDS 16384
#define FINDER_RESULT_WORDS 128 /* for finder_search */
#define FINDER_WITHIN_WORDS 512 /* result words for finder_within */
#define FINDER_TREE_BYTES 21981       /* for a build from a version 1 yard book; no tree so built is longer */
#define FINDER_KINDS_TREE_BYTES 23516 /* for one from a version 2 yard book; enough for any build */

/* The stack that a call takes at most, with room to spare. Measured by tests/stack.c on x86-64, and not proved. */
#define FINDER_STACK_BYTES 180224       /* of any call: 176 KiB */
#define FINDER_CHECK_STACK_BYTES 131072 /* of a check or a build: 128 KiB */

/* The tests, in their order, but for 13, which comes between 11 and 12; a refusal is the number of the first that
 * failed. */
enum finder_refusal {
    FINDER_ACCEPTED = 0,
    FINDER_REFUSED_LENGTH = 1,    /* fewer than five bytes, or the length is not the count of the bytes after it */
    FINDER_REFUSED_VERSION = 2,   /* the version is not 1, nor, in a yard book or a tree book, 2 */
    FINDER_REFUSED_HEADER = 3,    /* the header is incomplete, or a count in it is outside its limits */
    FINDER_REFUSED_RECORDS = 4,   /* a record is incomplete, or bytes follow the last one */
    FINDER_REFUSED_VALUE = 5,     /* a record's value is outside its range or order, or a byte of kinds is 0 */
    FINDER_REFUSED_UNREACHED = 6, /* some junction can't be reached from junction 0 */
    FINDER_REFUSED_SHAPE = 7,     /* the tree's shape rules don't hold */
    FINDER_REFUSED_DISAGREE = 8,  /* junction counts or yards differ between books, or a yard is no junction */
    FINDER_REFUSED_DISTANCE = 9,  /* in a check only: a stored distance, least, greatest or byte of kinds isn't true */
    FINDER_REFUSED_CREWS = 10,    /* crews are none, more than 16, or at no junction of the road book */
    FINDER_REFUSED_NUMBER = 11,   /* k, the aggregate, m or the leaf limit is outside its range */
    FINDER_REFUSED_AREA = 12,     /* a lent area is too short */
    FINDER_REFUSED_WANTED = 13    /* the wanted byte is 0: no kind is wanted */
};

/* A refusal in words, for messages: of any number, in lower case and without an end of line. */
static inline const char *finder_refusal_text(uint32_t refusal)
{
    switch (refusal) {
    case FINDER_ACCEPTED: return "accepted";
    case FINDER_REFUSED_LENGTH: return "a book is not as long as its first four bytes say";
    case FINDER_REFUSED_VERSION: return "a book's version is none that is read";
    case FINDER_REFUSED_HEADER: return "a book's header is incomplete, or a count in it is outside its limits";
    case FINDER_REFUSED_RECORDS: return "a record is incomplete, or bytes follow the last one";
    case FINDER_REFUSED_VALUE: return "a record's value is outside its range or order, or a byte of kinds is 0";
    case FINDER_REFUSED_UNREACHED: return "some junction can't be reached from junction 0";
    case FINDER_REFUSED_SHAPE: return "the tree's shape rules don't hold";
    case FINDER_REFUSED_DISAGREE: return "junction counts or yards differ between books, or a yard is no junction";
    case FINDER_REFUSED_DISTANCE: return "a distance, least, greatest or byte of kinds in the tree isn't true";
    case FINDER_REFUSED_CREWS: return "crews are none, more than 16, or at no junction of the road book";
    case FINDER_REFUSED_NUMBER: return "k, the aggregate, m or the leaf limit is outside its range";
    case FINDER_REFUSED_AREA: return "a lent area is too short";
    case FINDER_REFUSED_WANTED: return "the wanted byte is 0: no kind is wanted";
    default: return "no refusal has this number";
    }
}

/* The library's version as a number. Where it isn't FINDER_VERSION_NUMBER, header and library don't fit: make no other
 * call. */
uint32_t finder_version(void);

/* What a query's aggregate makes of the drives from the crews. */
enum finder_aggregate { FINDER_SUM = 0, FINDER_MAXIMUM = 1 };

/* Checks a tree book beside a road book and a yard book. It answers 0 if and only if the books are sound, the tree's
 * leaves hold each yard of the yard book once and no other, each stored distance is the least total of seconds of any
 * walk through the roads, with each least and greatest true of its region's yards, every list gives each yard the kinds
 * of the yard book and every region exactly the kinds that some yard of it has, and the work area is long enough. The
 * two books may be of different versions: that of version 1 is read as if every byte of kinds were FINDER_ALL_KINDS. */
uint32_t finder_check(const uint8_t *road, size_t road_len, const uint8_t *yard, size_t yard_len,
                      const uint8_t *tree, size_t tree_len, uint32_t *work, size_t work_len);

struct finder_built {
    uint32_t refusal;
    uint32_t length; /* of the tree, in bytes */
};

/* Writes the tree book of the roads and yards, with m landmarks for each region and leaves of at most leaf_limit yards.
 * The tree is of the yard book's version and has its kinds. It passes the check; the bytes of the area after it stay as
 * they were. */
struct finder_built finder_build(const uint8_t *road, size_t road_len, const uint8_t *yard, size_t yard_len,
                                 uint32_t m, uint32_t leaf_limit, uint32_t *work, size_t work_len,
                                 uint8_t *tree, size_t tree_len);

struct finder_found {
    uint32_t refusal;
    uint32_t settled;  /* 1 if the search is settled, 0 if it is spent or refused */
    uint32_t listed;   /* how many yards are listed; 0 if spent */
    uint32_t taken;    /* how many steps were taken, at most the query's limit */
    uint32_t measured; /* how many yards were measured, those found to be too far too */
};

/* Searches a tree beside a road book for the k wanted yards with the least aggregate of true distances to the crews.
 *
 * A yard is wanted if its kinds in its leaf's first list share a bit with the wanted byte, which isn't 0. The tree's
 * own kinds decide, and FINDER_ALL_KINDS wants every yard; so does any wanted byte on a version 1 tree.
 *
 * A settled search writes its list over the start of results: for each yard listed two words, the yard (its junction)
 * and its aggregate distance in seconds, in yard order: the least aggregate first; of equal ones the yard whose
 * furthest crew is nearer; of those the lower junction. By the maximum the furthest crew's distance is the aggregate,
 * and equal ones go by junction. The result words after the list stay as they were. A search is spent if it took the
 * query's limit of steps and isn't settled; then all of results stays as it was. On a tree that passes the check, a
 * limit of the tree's inner regions plus twice its wanted yards settles every search; no tree needs more than
 * FINDER_SETTLING_LIMIT. If no yard of it is wanted, the search is settled with no yard listed and no step taken.
 *
 * On a tree that passes the check beside these roads the list is exactly the first k of the tree's wanted yards in yard
 * order, or all of them if there are fewer: no wanted yard left out comes before one listed. The settled search has
 * then measured exactly the wanted yards whose key isn't above the last listed distance, or all wanted yards if fewer
 * than k are listed, each once. A yard's key follows from the tree, the roads and the query alone, and is never above
 * its aggregate: on such a tree it is what the landmarks' distances say that the aggregate is at least.
 *
 * A search itself doesn't make the check's test 9. On a tree that a check would refuse by 9 the list's yards are
 * distinct, wanted, in order and with true distances, but a yard may be left out. So check a tree once before searching
 * on it, and again beside other roads. */
struct finder_found finder_search(const uint8_t *road, size_t road_len, const uint8_t *tree, size_t tree_len,
                                  const uint8_t *query, size_t query_len, uint8_t wanted,
                                  uint32_t *work, size_t work_len, uint32_t *results, size_t results_len);

/* Searches a tree beside a road book for every wanted yard, wanted as in finder_search, whose aggregate of true
 * distances to the crews is at most so many seconds, any number from 0 to UINT32_MAX. The query's k is tested, and not
 * used otherwise.
 *
 * The search goes by finder_search's steps, within the query's limit of them, and is settled as soon as no yard or
 * region is left to take whose key is at most the seconds. What it returns and writes is as there: a settled search
 * writes a yard and its aggregate distance for each yard listed, each yard once, in finder_search's yard order; a spent
 * one writes nothing. The limits that settle every search are the same. However many yards are wanted or within the
 * seconds, results holds two words for each yard of the tree, or the call is refused by 12.
 *
 * On a tree that passes the check beside these roads the list is exactly the tree's wanted yards within the seconds.
 * The settled search has then measured exactly the wanted yards whose key, as there, isn't above the seconds, each
 * once; a spent one has measured none whose key is above them. On a tree that a check would refuse by 9 the list's
 * yards are distinct, wanted, in order, with true distances and within the seconds, but a yard may be left out. */
struct finder_found finder_within(const uint8_t *road, size_t road_len, const uint8_t *tree, size_t tree_len,
                                  const uint8_t *query, size_t query_len, uint8_t wanted, uint32_t seconds,
                                  uint32_t *work, size_t work_len, uint32_t *results, size_t results_len);

#ifdef __cplusplus
}
#endif

#endif
