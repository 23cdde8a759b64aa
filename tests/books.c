/* books ROAD YARD TREE M LEAF-LIMIT: three books from files. The tree passes the check, and a build with m and the leaf
 * limit writes the same bytes. Prints what is not so. */
#include <stdio.h>
#include <stdlib.h>
#include <string.h>

#include "books.h"

static struct book road, yard, tree;
static uint8_t built[FINDER_KINDS_TREE_BYTES];
static uint32_t work[FINDER_WORK_WORDS];

static void read_book(const char *path, struct book *book)
{
    FILE *file = fopen(path, "rb");

    if (file == NULL) {
        perror(path);
        exit(2);
    }
    book->length = fread(book->bytes, 1, sizeof book->bytes, file);
    fclose(file);
}

int main(int count, char **words)
{
    struct finder_built answer;
    uint32_t refusal;

    if (count != 6)
        return 2;
    read_book(words[1], &road);
    read_book(words[2], &yard);
    read_book(words[3], &tree);
    refusal = finder_check(road.bytes, road.length, yard.bytes, yard.length, tree.bytes, tree.length,
                           work, FINDER_WORK_WORDS);
    if (refusal != FINDER_ACCEPTED) {
        printf("%s: the check refuses it by %u\n", words[3], (unsigned)refusal);
        return 1;
    }
    answer = finder_build(road.bytes, road.length, yard.bytes, yard.length, (uint32_t)atoi(words[4]),
                          (uint32_t)atoi(words[5]), work, FINDER_WORK_WORDS, built, sizeof built);
    if (answer.length != tree.length || memcmp(built, tree.bytes, tree.length) != 0) {
        printf("%s: a build of refusal %u writes another tree\n", words[3], (unsigned)answer.refusal);
        return 1;
    }
    return 0;
}
