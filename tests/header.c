/* What the header says beside the calls: its version is the library's and the same in figures as in words, and each
 * refusal has a text of its own. Prints what is not so. */
#include <stdio.h>
#include <string.h>

#include "finder.h"

static unsigned failures;

static void fail(const char *what)
{
    failures++;
    printf("header: %s\n", what);
}

/* The number as it is said in words. */
static void try_version(void)
{
    char words[32];

    snprintf(words, sizeof words, "%d.%d.%d", FINDER_VERSION_NUMBER / 10000, FINDER_VERSION_NUMBER / 100 % 100,
             FINDER_VERSION_NUMBER % 100);
    if (strcmp(words, FINDER_VERSION) != 0)
        fail("FINDER_VERSION_NUMBER is not FINDER_VERSION");
    if (finder_version() != FINDER_VERSION_NUMBER)
        fail("the library is of another version");
}

/* Every number up to the last refusal has its own text; those above have one that says so. */
static void try_texts(void)
{
    const char *none = finder_refusal_text(FINDER_REFUSED_WANTED + 1);
    uint32_t one, other;

    for (one = FINDER_ACCEPTED; one <= FINDER_REFUSED_WANTED; one++) {
        const char *text = finder_refusal_text(one);

        if (text[0] == '\0' || strchr(text, '\n') != NULL || strcmp(text, none) == 0)
            fail("a refusal has no text of one line");
        for (other = FINDER_ACCEPTED; other < one; other++)
            if (strcmp(text, finder_refusal_text(other)) == 0)
                fail("two refusals have one text");
    }
    if (strcmp(none, finder_refusal_text(UINT32_MAX)) != 0)
        fail("a number that is no refusal has a text of its own");
}

int main(void)
{
    try_version();
    try_texts();
    printf("header: %u not as expected\n", failures);
    return failures != 0;
}
