/* Stands between the library and its memory in tests (tools/refusing.py): each block has pages of its own, with a page
 * beside it that ends the program if it is touched. */
#define _GNU_SOURCE
#include "guarding.h"

#include <stdint.h>
#include <stdio.h>
#include <stdlib.h>
#include <string.h>
#include <sys/mman.h>

enum { PAGE = 4096, KEPT = 512, FILLED = 0xa5 };

/* The first of the pages. The next one is spare, so that the bytes begin in the third in any case. */
struct place {
    size_t pages, size;
    uint8_t *at;
};

static void *kept[KEPT];
static size_t kept_pages[KEPT], next_kept;
static long live;

static void stop(const char *why)
{
    fprintf(stderr, "guarding: %s\n", why);
    abort();
}

/* Pages for so many bytes; the last one may not be touched. */
static struct place *mapped(size_t size)
{
    size_t pages = (size + PAGE - 1) / PAGE + 3;
    uint8_t *whole = mmap(NULL, pages * PAGE, PROT_READ | PROT_WRITE, MAP_PRIVATE | MAP_ANONYMOUS, -1, 0);
    if (whole == MAP_FAILED)
        stop("no pages");
    struct place *made = (struct place *)whole;
    made->pages = pages, made->size = size;
    memset(whole + PAGE, FILLED, (pages - 2) * PAGE);
    if (mprotect(whole + (pages - 1) * PAGE, PAGE, PROT_NONE) != 0)
        stop("a page stays open");
    return made;
}

static uint8_t *end_of(struct place *it)
{
    return (uint8_t *)it + (it->pages - 1) * PAGE;
}

static struct place *place_of(void *at)
{
    struct place *it = (struct place *)((uint8_t *)((uintptr_t)at & ~(uintptr_t)(PAGE - 1)) - 2 * PAGE);
    if (it->at != at)
        stop("a pointer that was never given");
    return it;
}

void *guarding_before(size_t size)
{
    struct place *it = mapped(size);
    return it->at = end_of(it) - size;
}

void *guarding_behind(size_t size)
{
    struct place *it = mapped(size);
    if (mprotect((uint8_t *)it + PAGE, PAGE, PROT_NONE) != 0)
        stop("a page stays open");
    return it->at = (uint8_t *)it + 2 * PAGE;
}

void guarding_seal(void *place)
{
    struct place *it = place_of(place);
    if (mprotect((uint8_t *)it + 2 * PAGE, (it->pages - 3) * PAGE, PROT_READ) != 0)
        stop("a page stays open");
}

/* No byte of the pages may be touched, until so many others have ended. */
void guarding_end(void *place)
{
    struct place *it = place_of(place);
    size_t pages = it->pages;
    if (mprotect(it, pages * PAGE, PROT_NONE) != 0)
        stop("pages stay open");
    if (kept[next_kept] != NULL)
        munmap(kept[next_kept], kept_pages[next_kept] * PAGE);
    kept[next_kept] = it, kept_pages[next_kept] = pages;
    next_kept = (next_kept + 1) % KEPT;
}

void *guarding_malloc(size_t size)
{
    struct place *it = mapped(size);
    live++;
    return it->at = end_of(it) - (size + 15) / 16 * 16;
}

/* The bytes behind a block, up to the page, are as they were. */
static void look_behind(struct place *it)
{
    for (uint8_t *at = it->at + it->size; at < end_of(it); at++)
        if (*at != FILLED)
            stop("a byte behind a block was written");
}

void guarding_free(void *place)
{
    if (place == NULL)
        return;
    live--;
    look_behind(place_of(place));
    guarding_end(place);
}

void *guarding_realloc(void *place, size_t size)
{
    void *made = guarding_malloc(size);
    if (place != NULL) {
        size_t before = place_of(place)->size;
        memcpy(made, place, before < size ? before : size);
        guarding_free(place);
    }
    return made;
}

long guarding_live(void)
{
    return live;
}
