/* A lent book with guard bytes around it, and checks of what a call leaves of it. */
#ifndef BOOK_H
#define BOOK_H

#include "check.h"
#include "comaltzex.h"
#include "order.h"

#include <string.h>

#define UNWRITTEN 0xAA
#define GUARD 100                          /* bytes before the buffer and after it */
#define ROOM (COMALTZEX_TEXT_LIMIT + 1000) /* the longest buffer */

static uint8_t memory[GUARD + ROOM + GUARD], before[sizeof(memory)];
static uint8_t *const book = memory + GUARD;
static size_t used; /* bytes */

/* Makes the book's text; what is past it is marked. */
static void lend(const void *text, size_t length)
{
    memset(memory, UNWRITTEN, sizeof(memory));
    memcpy(book, text, length);
    used = length;
}

/* Whether the new sheet needs a byte 10 first. */
static size_t gap(void)
{
    return used > 0 && book[used - 1] != '\n';
}

static void check_memory(const char *what)
{
    size_t i;
    for (i = 0; i < sizeof(memory); i++)
        if (memory[i] != before[i])
            break;
    check(what, i, sizeof(memory));
}

static void check_answer(const char *what, comaltzex_taken seen, uint32_t number, size_t count)
{
    check(what, seen.number, number);
    check(what, seen.count, count);
}

/* Checks a call that changes nothing. */
static void check_refused(const char *what, const void *bytes, size_t length, size_t room,
                          uint32_t number)
{
    comaltzex_taken seen;
    memcpy(before, memory, sizeof(memory));
    seen = comaltzex_intake(book, room, used, bytes, length);
    check_answer(what, seen, number, used);
    check_memory(what);
}

static void check_order_refused(const char *what, size_t room, uint32_t number)
{
    check_refused(what, order.at, order.length, room, number);
}

/* Checks that the order is refused in any room that holds the text. */
static void check_order_refused_in_any(const char *what, uint32_t number)
{
    check_order_refused(what, used, number);
    check_order_refused(what, used + 1, number);
    check_order_refused(what, used + gap() + sheet.length - 1, number);
    check_order_refused(what, used + gap() + sheet.length, number);
    check_order_refused(what, ROOM, number);
}

/* Checks that the order is taken in: its sheet, and every other byte. */
static void check_taken(const char *what, size_t room)
{
    const size_t count = used + gap() + sheet.length;
    comaltzex_taken seen;
    memcpy(before, memory, sizeof(memory));
    if (gap())
        before[GUARD + used] = '\n';
    memcpy(before + GUARD + used + gap(), sheet.at, sheet.length);
    seen = comaltzex_intake(book, room, used, order.at, order.length);
    check_answer(what, seen, COMALTZEX_OK, count);
    check_memory(what);
    used = count;
}

/* Checks a log that ends with so many bytes in use, and leaves the memory as it is in `before`. */
static void check_log(const char *what, const void *bytes, size_t length, size_t room,
                      uint32_t number, size_t count)
{
    check_answer(what, comaltzex_intake_log(book, room, used, bytes, length), number, count);
    check_memory(what);
    used = count;
}

#endif
