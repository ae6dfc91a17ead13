/* Memory to lend: it ends, or begins, where memory that cannot be touched begins or ends, and on its other side lie bytes whose change
 * is noticed. A copy says what it held before. */
#ifndef LENT_H
#define LENT_H

#include "draw.h"
#include <stdio.h>
#include <stdlib.h>
#include <sys/mman.h>

enum { PAGE = 4096, ROOM = 3 * PAGE, CANARY = 0xa5 };

typedef struct {
    uint8_t *pages;   /* ROOM bytes between two pages without access */
    uint8_t *start;   /* what is lent, or null where nothing is and the draw says so */
    size_t bytes;
    uint8_t before[ROOM];
} lent;

static void lent_open(lent *to) {
    uint8_t *all = mmap(NULL, ROOM + 2 * PAGE, PROT_NONE, MAP_PRIVATE | MAP_ANONYMOUS, -1, 0);
    if (all == MAP_FAILED || mprotect(all + PAGE, ROOM, PROT_READ | PROT_WRITE) != 0) {
        perror("fuzz: mmap");
        exit(2);
    }
    to->pages = all + PAGE;
}

/* Lends a copy of so many bytes. */
static void *lend(lent *to, const void *content, size_t bytes) {
    size_t at = below(2) ? 0 : ROOM - bytes;
    memset(to->pages, CANARY, ROOM);
    if (bytes > 0)
        memcpy(to->pages + at, content, bytes);
    memcpy(to->before, to->pages, ROOM);
    to->bytes = bytes;
    to->start = bytes == 0 && below(2) ? NULL : to->pages + at;
    return to->start;
}

/* Whether all is as before but for so many bytes at the start of what is lent. */
static int is_kept_after(const lent *of, size_t written) {
    if (of->start == NULL || written == 0)
        return memcmp(of->pages, of->before, ROOM) == 0;
    size_t at = (size_t)(of->start - of->pages), after = at + written;
    return memcmp(of->pages, of->before, at) == 0 && memcmp(of->pages + after, of->before + after, ROOM - after) == 0;
}

#endif
