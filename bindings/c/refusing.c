/* Stands between the library and malloc in the library that tools/refusing.py makes for tests. It counts the library's
 * requests for memory and its blocks, and refuses the request that the test names. The requests of the program are not
 * seen. */
#include "refusing.h"

#include <stdlib.h>

/* How many requests are granted before one is refused; none is refused if it is negative. */
static long granted = -1;
static long requests, refused, live;

void refusing_after(long number)
{
    granted = number;
    requests = refused = 0;
}

long refusing_requests(void)
{
    return requests;
}

long refusing_refused(void)
{
    return refused;
}

long refusing_live(void)
{
    return live;
}

static int is_refused(void)
{
    int is_now = granted >= 0 && granted-- == 0;
    requests++;
    refused += is_now;
    return is_now;
}

void *refusing_malloc(size_t size)
{
    void *block = is_refused() ? NULL : malloc(size);
    live += block != NULL;
    return block;
}

void *refusing_realloc(void *place, size_t size)
{
    void *block = is_refused() ? NULL : realloc(place, size);
    live += place == NULL && block != NULL;
    return block;
}

void refusing_free(void *place)
{
    live -= place != NULL;
    free(place);
}
