/* Memory that a test lends to a call. It stands between two closed pages, which nobody may read or write, at the end
 * that is asked for, and the rest of the space there is guarded byte by byte. So a call that touches what it was not
 * lent ends the test, or is found by `kept`. */
#ifndef LENT_H
#define LENT_H

#include <stdint.h>
#include <stdio.h>
#include <stdlib.h>
#include <string.h>
#include <sys/mman.h>
#include <unistd.h>

/* The end of the space where a buffer stands: its neighbour there is a closed page. */
enum end { LOW, HIGH };

struct lent {
    unsigned char *space;  /* all that is open */
    size_t space_size;
    unsigned char *before; /* the space before the call, byte by byte */
    unsigned char *at;     /* what is lent */
    size_t size;
};

/* Opens so many pages, between the two closed ones. */
static void lent_open(struct lent *lent, size_t pages)
{
    size_t page = (size_t)sysconf(_SC_PAGESIZE), open = pages * page;
    unsigned char *all = mmap(NULL, open + 2 * page, PROT_NONE, MAP_PRIVATE | MAP_ANONYMOUS, -1, 0);
    lent->space = all + page;
    lent->space_size = open;
    lent->before = malloc(open);
    if (all == MAP_FAILED || lent->before == NULL || mprotect(lent->space, open, PROT_READ | PROT_WRITE) != 0) {
        perror("the memory to lend");
        exit(2);
    }
}

/* Lends `size` bytes that hold `content`, or the guard if that is NULL. */
static void *lend(struct lent *lent, const void *content, size_t size, enum end end, unsigned char guard)
{
    if (size > lent->space_size) {
        fprintf(stderr, "there is no space to lend %lu bytes\n", (unsigned long)size);
        exit(2);
    }
    lent->size = size;
    lent->at = end == LOW ? lent->space : lent->space + (lent->space_size - size);
    memset(lent->space, guard, lent->space_size);
    if (content != NULL)
        memcpy(lent->at, content, size);
    memcpy(lent->before, lent->space, lent->space_size);
    return lent->at;
}

/* Is all of the space as it was, but for the first `written` bytes of what was lent? */
static int kept(const struct lent *lent, size_t written)
{
    size_t from = (size_t)(lent->at - lent->space), to = from + written;
    return memcmp(lent->space, lent->before, from) == 0
        && memcmp(lent->space + to, lent->before + to, lent->space_size - to) == 0;
}

#endif
