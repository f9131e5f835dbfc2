/* What a test asks of guarding.c. */
#ifndef GUARDING_H
#define GUARDING_H

#include <stddef.h>

/* So many bytes that end where no byte may be touched, or that begin behind such a place. */
void *guarding_before(size_t size);
void *guarding_behind(size_t size);

/* From now on the bytes of such a place may only be read. */
void guarding_seal(void *place);

/* Gives the place back: no byte of it may be touched after that. */
void guarding_end(void *place);

/* What the library calls in place of malloc, realloc and free. Each block ends where no byte may be touched, but for what
 * the alignment leaves, which is looked at as the block is freed. A freed block may not be touched for long. */
void *guarding_malloc(size_t size);
void *guarding_realloc(void *place, size_t size);
void guarding_free(void *place);

/* How many blocks the library holds. */
long guarding_live(void);

#endif
