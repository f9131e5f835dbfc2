/* What a test asks of refusing.c. */
#ifndef REFUSING_H
#define REFUSING_H

#include <stddef.h>

#ifdef __cplusplus
extern "C" {
#endif

/* From now on so many requests of the library are granted, and the next one is refused, once. A negative number refuses
 * none. Both counts of requests begin with 0. */
void refusing_after(long number);

/* How many requests there were since then, and how many of them were refused: one or none. */
long refusing_requests(void);
long refusing_refused(void);

/* How many blocks the library holds. */
long refusing_live(void);

/* What the library calls in place of malloc, realloc and free; a test may, too. */
void *refusing_malloc(size_t size);
void *refusing_realloc(void *place, size_t size);
void refusing_free(void *place);

#ifdef __cplusplus
}
#endif

#endif
