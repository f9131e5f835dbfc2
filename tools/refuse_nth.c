/* Preloaded into a program, refuses one of its requests for memory, and counts them.
 *
 * REFUSE_REQUEST=N: the Nth request is refused (from 1 on; without it none is).
 * COUNT_REQUESTS=1: as the program ends, the number of its requests is written to standard error, as its last line.
 *
 * A program that looks for refuse_request among its own names may also say itself which request is refused next.
 */
#include <errno.h>
#include <stdio.h>
#include <stdlib.h>
#include <unistd.h>

/* By these names glibc has its own calls. */
extern void *__libc_malloc(size_t), *__libc_calloc(size_t, size_t);
extern void *__libc_realloc(void *, size_t), *__libc_memalign(size_t, size_t);

static unsigned long requests, refused;
static int was_refused;

static unsigned long number_in(const char *variable)
{
    const char *number = getenv(variable);
    return number ? strtoul(number, NULL, 10) : 0;
}

__attribute__((constructor)) static void look_up(void)
{
    refused = number_in("REFUSE_REQUEST");
}

/* Counts a request, and returns whether it is refused. */
static int is_refused(void)
{
    unsigned long now = __atomic_add_fetch(&requests, 1, __ATOMIC_SEQ_CST);
    int is_it = now == refused;
    was_refused |= is_it;
    return is_it;
}

/* From now on the Nth request is refused, counted from this call; with 0 none is. Returns whether one was refused since
 * the last such call. */
int refuse_request(unsigned long number)
{
    int before = was_refused;
    was_refused = 0;
    requests = 0;
    refused = number;
    return before;
}

void *malloc(size_t size)
{
    return is_refused() ? NULL : __libc_malloc(size);
}

void *calloc(size_t count, size_t size)
{
    return is_refused() ? NULL : __libc_calloc(count, size);
}

void *realloc(void *place, size_t size)
{
    return is_refused() ? NULL : __libc_realloc(place, size);
}

void *aligned_alloc(size_t alignment, size_t size)
{
    return is_refused() ? NULL : __libc_memalign(alignment, size);
}

void *memalign(size_t alignment, size_t size)
{
    return is_refused() ? NULL : __libc_memalign(alignment, size);
}

int posix_memalign(void **place, size_t alignment, size_t size)
{
    void *found = is_refused() ? NULL : __libc_memalign(alignment, size);
    *place = found ? found : *place;
    return found ? 0 : ENOMEM;
}

__attribute__((destructor)) static void print_requests(void)
{
    char line[32];
    int length = snprintf(line, sizeof line, "%lu\n", requests);
    if (getenv("COUNT_REQUESTS") && write(2, line, (size_t)length) < 0)
        return;
}
