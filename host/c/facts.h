/* For the tests in C: facts that must hold, and the line of the first that does not. A function that states facts gives 0 where all of them hold. */
#ifndef FACTS_H
#define FACTS_H

#include <stddef.h>
#include <stdio.h>
#include <stdlib.h>

#define EXPECT(fact)         \
    do {                     \
        if (!(fact))         \
            return __LINE__; \
    } while (0)

/* The exit status: 1, and the line is printed, if one of the functions gave one. */
static inline int exit_status(const char *file, const int *lines, size_t count) {
    for (size_t i = 0; i < count; i++)
        if (lines[i] != 0) {
            printf("%s, line %d\n", file, lines[i]);
            return EXIT_FAILURE;
        }
    return EXIT_SUCCESS;
}

#endif
