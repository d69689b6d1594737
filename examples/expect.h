/* Ends `main` with 1 where a test fails, and says which. */
#include <stdio.h>

#define EXPECT(test) \
    do { \
        if (!(test)) { \
            fprintf(stderr, "%s:%d: not so: %s\n", __FILE__, __LINE__, #test); \
            return 1; \
        } \
    } while (0)
