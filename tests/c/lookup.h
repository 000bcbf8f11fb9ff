/* Checks of a lookup's four numbers. */
#ifndef LOOKUP_H
#define LOOKUP_H

#include "check.h"
#include "comaltzex.h"

#include <string.h>

/* A refusal: its part is empty and at byte 0, and there is no further number. */
static comaltzex_part refused(uint32_t number)
{
    const comaltzex_part part = {number, 0, 0, 0};
    return part;
}

static void check_lookup(const char *what, const char *text, size_t text_len, size_t at,
                         const char *key, comaltzex_part wanted)
{
    comaltzex_part seen = comaltzex_lookup((const uint8_t *)text, text_len, at,
                                           (const uint8_t *)key, strlen(key));
    check(what, seen.number, wanted.number);
    check(what, seen.start, wanted.start);
    check(what, seen.end, wanted.end);
    check(what, seen.further, wanted.further);
}

#endif
