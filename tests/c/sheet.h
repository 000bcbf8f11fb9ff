/* Checks of a sheet: the answer, every byte of the output, and what is read back. */
#ifndef SHEET_H
#define SHEET_H

#include "check.h"
#include "comaltzex.h"
#include "order.h"
#include "read.h"

#include <ctype.h>
#include <string.h>

#define UNWRITTEN 0xAA
#define GUARD 100 /* bytes before the output and after it */
#define BARE 22   /* bytes of a sheet without title and pairs */

static uint8_t memory[GUARD + COMALTZEX_TEXT_LIMIT + 2 * GUARD];

static void check_bytes(const char *what, const uint8_t *found, const void *wanted, size_t length)
{
    check(what, memcmp(found, wanted, length) == 0, 1);
}

static void check_unwritten(const char *what, size_t from, size_t to)
{
    size_t i;
    for (i = from; i < to; i++)
        if (memory[i] != UNWRITTEN)
            break;
    check(what, i, to);
}

/* Writes a sheet into so much room, and checks the answer and all the memory around it. */
static void check_call(const char *what, const void *bytes, size_t length, size_t room,
                       comaltzex_written wanted, const void *text)
{
    const size_t written = wanted.number == COMALTZEX_OK ? wanted.count : 0;
    comaltzex_written seen;
    memset(memory, UNWRITTEN, sizeof(memory));
    seen = comaltzex_write_sheet(bytes, length, memory + GUARD, room);
    check(what, seen.number, wanted.number);
    check(what, seen.count, wanted.count);
    check_unwritten(what, 0, GUARD);
    check_bytes(what, memory + GUARD, text, written);
    check_unwritten(what, GUARD + written, sizeof(memory));
}

/* Checks a refusal that does not ask for the room. */
static void check_refused(const char *what, const void *bytes, size_t length, uint32_t number)
{
    static const size_t rooms[] = {0, 1, BARE, GUARD, COMALTZEX_TEXT_LIMIT + GUARD};
    const comaltzex_written refused = {number, 0};
    size_t i;
    for (i = 0; i < LENGTH(rooms); i++)
        check_call(what, bytes, length, rooms[i], refused, "");
}

static void check_order_refused(const char *what, uint32_t number)
{
    check_refused(what, order.at, order.length, number);
}

static void check_too_little(const char *what, size_t room)
{
    const comaltzex_written needed = {COMALTZEX_SHORT_OUTPUT, sheet.length};
    check_call(what, order.at, order.length, room, needed, "");
}

/* Checks that the order is written as its sheet where there is room. */
static void check_written(const char *what)
{
    const comaltzex_written written = {COMALTZEX_OK, sheet.length};
    check_call(what, order.at, order.length, sheet.length, written, sheet.at);
    check_call(what, order.at, order.length, sheet.length + 1, written, sheet.at);
    check_call(what, order.at, order.length, sheet.length + GUARD, written, sheet.at);
    check_too_little(what, sheet.length - 1);
    check_too_little(what, sheet.length / 2);
    check_too_little(what, 1);
    check_too_little(what, 0);
}

/* Checks that the sheet is a heading with one property drawer of so many pairs. */
static void check_reads(const char *what, size_t pairs)
{
    uint32_t kinds[4 + COMALTZEX_PAIR_LIMIT] = {COMALTZEX_DOCUMENT, COMALTZEX_HEADING,
                                                COMALTZEX_SECTION, COMALTZEX_PROPERTY_DRAWER};
    uint32_t parents[4 + COMALTZEX_PAIR_LIMIT] = {0, 0, 1, 2};
    size_t i;
    for (i = 4; i < 4 + pairs; i++) {
        kinds[i] = COMALTZEX_NODE_PROPERTY;
        parents[i] = 3;
    }
    check_read(what, (const char *)sheet.at, sheet.length, LENGTH(table), COMALTZEX_OK, 4 + pairs);
    check_field(what, COMALTZEX_FIELD_KIND, kinds, 4 + pairs);
    check_field(what, COMALTZEX_FIELD_PARENT, parents, 4 + pairs);
    check(what, table[COMALTZEX_RECORD_SIZE + COMALTZEX_FIELD_DETAIL], 1);
}

static char other_case(char letter)
{
    const unsigned char byte = (unsigned char)letter;
    return (char)(islower(byte) ? toupper(byte) : tolower(byte));
}

/* Checks that the sheet gives the value back, whatever the case of the key's letters. */
static void check_value(const char *key, const void *value, size_t length)
{
    char asked[COMALTZEX_KEY_LIMIT];
    const size_t key_len = strlen(key);
    comaltzex_part part;
    size_t i;
    for (i = 0; i < key_len; i++)
        asked[i] = other_case(key[i]);
    part = comaltzex_lookup(sheet.at, sheet.length, 0, (const uint8_t *)asked, key_len);
    check(key, part.number, COMALTZEX_OK);
    check(key, part.end - part.start, length);
    check_bytes(key, sheet.at + part.start, value, length);
}

#endif
