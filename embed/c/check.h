/* A test that ends the program where it fails. */
#ifndef CHECK_H
#define CHECK_H

#include <stdio.h>
#include <stdlib.h>

#define CHECK(holds)                                                                                                             \
    do {                                                                                                                         \
        if (!(holds)) {                                                                                                          \
            fprintf(stderr, "%s:%d: %s\n", __FILE__, __LINE__, #holds);                                                          \
            abort();                                                                                                             \
        }                                                                                                                        \
    } while (0)

#endif
