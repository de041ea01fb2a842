/* Checks that count: a line for each that fails, and at the end how many passed. For C from C99 on and C++. */
#ifndef CHECK_H
#define CHECK_H

#include <stdbool.h>
#include <stdio.h>

static unsigned passed, failed;

static void check(bool holds, const char *what)
{
    if (holds) {
        passed++;
    } else {
        failed++;
        printf("failed: %s\n", what);
    }
}

#define IS(expression, value) check((expression) == (value), #expression " is " #value)

/* what main gives back */
static int finish(const char *test)
{
    printf("%s: %u checks passed, %u failed\n", test, passed, failed);
    return failed == 0 && passed > 0 ? 0 : 1;
}

#endif
