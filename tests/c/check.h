/* Checks that end the program where one fails. */
#ifndef CHECK_H
#define CHECK_H

#include <stdio.h>
#include <stdlib.h>

#define LENGTH(array) (sizeof(array) / sizeof((array)[0]))

static unsigned checks;

static void check(const char *what, size_t found, size_t wanted)
{
    if (found != wanted) {
        fprintf(stderr, "c: %s: found %lu, wanted %lu\n", what,
                (unsigned long)found, (unsigned long)wanted);
        exit(1);
    }
    checks++;
}

/* Says how many there were, and gives the program's status. */
static int all_passed(const char *program)
{
    printf("c: %s: %u checks passed\n", program, checks);
    return 0;
}

#endif
