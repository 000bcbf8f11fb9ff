/* Checks of a reading: its answer, and what it leaves in the table. */
#ifndef READ_H
#define READ_H

#include "check.h"
#include "comaltzex.h"

#define UNTOUCHED 0xABCDEF01u

static uint32_t table[COMALTZEX_RECORD_SIZE * 128];

static void clear_table(void)
{
    size_t i;
    for (i = 0; i < LENGTH(table); i++)
        table[i] = UNTOUCHED;
}

static void check_untouched(const char *what, size_t from)
{
    size_t i;
    for (i = from; i < LENGTH(table); i++)
        if (table[i] != UNTOUCHED)
            break;
    check(what, i, LENGTH(table));
}

/* Reads into a table of table_len numbers and checks the answer. */
static void check_read(const char *what, const char *text, size_t text_len,
                       size_t table_len, uint32_t number, size_t count)
{
    comaltzex_reading answer;
    clear_table();
    answer = comaltzex_read((const uint8_t *)text, text_len, table, table_len);
    check(what, answer.number, number);
    check(what, answer.count, count);
    check_untouched(what, number == COMALTZEX_OK ? count * COMALTZEX_RECORD_SIZE : 0);
}

/* Checks one field of the table's first records. */
static void check_field(const char *what, enum comaltzex_field field,
                        const uint32_t *wanted, size_t count)
{
    size_t i;
    for (i = 0; i < count; i++)
        check(what, table[i * COMALTZEX_RECORD_SIZE + field], wanted[i]);
}

/* Checks the table's first numbers. */
static void check_table(const char *what, const uint32_t *wanted, size_t count)
{
    size_t i;
    for (i = 0; i < count; i++)
        check(what, table[i], wanted[i]);
}

#endif
