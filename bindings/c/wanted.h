/* What tests in C share: each counts its cases, and ends at the first that is not as wanted. */
#ifndef WANTED_H
#define WANTED_H

#include <stdio.h>
#include <stdlib.h>

static unsigned long cases;

#define WANT(it)                                                              \
    do {                                                                      \
        cases++;                                                              \
        if (!(it)) {                                                          \
            fprintf(stderr, "%s:%d: not so: %s\n", __FILE__, __LINE__, #it);  \
            exit(1);                                                          \
        }                                                                     \
    } while (0)

#endif
