/* An order's buffer, and the sheet that it asks for, made part by part. */
#ifndef ORDER_H
#define ORDER_H

#include "comaltzex.h"

#include <stddef.h>
#include <stdint.h>
#include <string.h>

struct bytes {
    uint8_t at[2 * COMALTZEX_TEXT_LIMIT];
    size_t length;
};

static struct bytes order, sheet;
static size_t count_at; /* where in the order the number of pairs stands */

static void put(struct bytes *to, const void *bytes, size_t length)
{
    memcpy(to->at + to->length, bytes, length);
    to->length += length;
}

static void put_byte(struct bytes *to, size_t byte)
{
    to->at[to->length++] = (uint8_t)byte;
}

/* Puts a title or value after its length. */
static void put_counted(const void *text, size_t length)
{
    put_byte(&order, length % 256);
    put_byte(&order, length / 256);
    put(&order, text, length);
}

static void start_order(const void *title, size_t length)
{
    order.length = sheet.length = 0;
    put_counted(title, length);
    count_at = order.length;
    put_byte(&order, 0);
    put(&sheet, "* ", 2);
    put(&sheet, title, length);
    put(&sheet, "\n:PROPERTIES:\n", 14);
}

static void add_pair(const char *key, const void *value, size_t length)
{
    put_byte(&order, strlen(key));
    put(&order, key, strlen(key));
    put_counted(value, length);
    order.at[count_at]++;
    put(&sheet, ":", 1);
    put(&sheet, key, strlen(key));
    put(&sheet, ": ", length > 0 ? 2 : 1);
    put(&sheet, value, length);
    put(&sheet, "\n", 1);
}

static void end_order(void)
{
    put(&sheet, ":END:\n", 6);
}

#endif
