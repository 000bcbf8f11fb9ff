/*
 * The C interface: header and library of one version, document 01's samples, each refusal, and
 * document 02's planning lines and search for a closer.
 */
#include "check.h"
#include "comaltzex.h"
#include "lookup.h"
#include "read.h"

#include <stdio.h>
#include <string.h>

static const char FIRST[] = "* A\n:PROPERTIES:\n:VIN: 7\n:END:\n\nhi\n";
static const char SECOND[] = "* A\n\n:PROPERTIES:\n:VIN: 7\n:END:\n";
static const char THIRD[] = "#+begin_src\n* A\n#+end_src\n";

static const uint32_t FIRST_TABLE[] = {
    1,  0,  35, 0,  35, 0, 0, 0, /* document */
    2,  0,  35, 4,  35, 0, 1, 0, /* heading */
    3,  4,  35, 4,  35, 1, 0, 1, /* section */
    5,  4,  32, 17, 25, 2, 0, 1, /* property drawer */
    6,  17, 25, 23, 24, 3, 0, 2, /* node property */
    16, 32, 35, 32, 35, 2, 0, 5  /* paragraph */
};

static char book[COMALTZEX_TEXT_LIMIT + 1];

static void check_closer(const char *what, const char *text, size_t text_len, size_t at,
                         size_t end, comaltzex_closer wanted)
{
    comaltzex_closer seen = comaltzex_find_closer((const uint8_t *)text, text_len, at, end);
    check(what, seen.found, wanted.found);
    check(what, seen.start, wanted.start);
    check(what, seen.end, wanted.end);
    check(what, seen.compared, wanted.compared);
}

static void one_version(void)
{
    check("version", comaltzex_version(), COMALTZEX_VERSION);
    check("record size", comaltzex_record_size(), COMALTZEX_RECORD_SIZE);
}

static void check_name(uint32_t number, const char *name)
{
    check(name, strcmp(comaltzex_number_name(number), name) == 0, 1);
}

static void number_names(void)
{
    check_name(COMALTZEX_OK, "ok");
    check_name(COMALTZEX_TOO_LONG, "too long");
    check_name(COMALTZEX_TOO_DEEP, "too deep");
    check_name(COMALTZEX_NO_ROOM, "no room");
    check_name(COMALTZEX_NO_HEADING, "no heading");
    check_name(COMALTZEX_NO_DRAWER, "no drawer");
    check_name(COMALTZEX_NO_KEY, "no key");
    check_name(COMALTZEX_BAD_KEY, "bad key");
    check_name(COMALTZEX_BLANK_FIRST, "blank lines first");
    check_name(COMALTZEX_NOT_PROPERTY, "not a property");
    check_name(COMALTZEX_NOT_CLOSED, "not closed");
    check_name(COMALTZEX_NO_DAY, "no calendar day");
    check_name(COMALTZEX_BAD_ORDER, "bad order");
    check_name(COMALTZEX_BAD_TEXT, "bad text");
    check_name(COMALTZEX_BAD_NAME, "bad name");
    check_name(COMALTZEX_REPEATED_KEY, "repeated key");
    check_name(COMALTZEX_SHORT_OUTPUT, "short output");
    check_name(COMALTZEX_MISSING_KEY, "missing key");
    check_name(COMALTZEX_BAD_USED, "bad bytes in use");
    check_name(COMALTZEX_SEEN, "request seen");
    check_name(COMALTZEX_SEEN + 1, "unknown");
    check_name(COMALTZEX_NOT_OPEN, "not open");
    check_name(COMALTZEX_NOT_OPEN + 1, "unknown");
    check_name(COMALTZEX_CUT_LOG - 1, "unknown");
    check_name(COMALTZEX_CUT_LOG, "cut log");
    check_name(COMALTZEX_CUT_LOG + 1, "unknown");
}

static void first_sample(void)
{
    const size_t fitting = LENGTH(FIRST_TABLE);
    check_read("first sample", FIRST, 35, LENGTH(table), COMALTZEX_OK, 6);
    check_table("first sample's table", FIRST_TABLE, fitting);
    check_read("first sample, exact room", FIRST, 35, fitting, COMALTZEX_OK, 6);
    check_read("first sample, room 5", FIRST, 35, fitting - COMALTZEX_RECORD_SIZE,
               COMALTZEX_NO_ROOM, 6);
    check_read("first sample, a number less", FIRST, 35, fitting - 1, COMALTZEX_NO_ROOM, 6);
    check_read("first sample, no room", FIRST, 35, 0, COMALTZEX_NO_ROOM, 6);
    check_lookup("vin", FIRST, 35, 0, "vin", (comaltzex_part){COMALTZEX_OK, 23, 24, 0});
}

static void second_sample(void)
{
    static const uint32_t kinds[] = {COMALTZEX_DOCUMENT, COMALTZEX_HEADING, COMALTZEX_SECTION,
                                     COMALTZEX_DRAWER, COMALTZEX_PARAGRAPH};
    static const uint32_t lines[] = {0, 0, 2, 2, 3};
    check_read("second sample", SECOND, 32, LENGTH(table), COMALTZEX_OK, LENGTH(kinds));
    check_field("second sample's kinds", COMALTZEX_FIELD_KIND, kinds, LENGTH(kinds));
    check_field("second sample's lines", COMALTZEX_FIELD_LINE, lines, LENGTH(lines));
    check_lookup("vin below a blank line", SECOND, 32, 0, "VIN", refused(COMALTZEX_BLANK_FIRST));
}

static void third_sample(void)
{
    static const uint32_t kinds[] = {COMALTZEX_DOCUMENT, COMALTZEX_SECTION, COMALTZEX_PARAGRAPH,
                                     COMALTZEX_HEADING, COMALTZEX_SECTION, COMALTZEX_PARAGRAPH};
    static const uint32_t lines[] = {0, 0, 0, 1, 2, 2};
    check_read("third sample", THIRD, 26, LENGTH(table), COMALTZEX_OK, LENGTH(kinds));
    check_field("third sample's kinds", COMALTZEX_FIELD_KIND, kinds, LENGTH(kinds));
    check_field("third sample's lines", COMALTZEX_FIELD_LINE, lines, LENGTH(lines));
}

static void planning_lines(void)
{
    static const char dates[] = "* A\nSCHEDULED: <2026-01-16>\n:PROPERTIES:\n:END:\n";
    static const char words[] = "* A\nSCHEDULED: ring him back\n:PROPERTIES:\n:END:\n";
    static const uint32_t planned[] = {COMALTZEX_DOCUMENT, COMALTZEX_HEADING, COMALTZEX_SECTION,
                                       COMALTZEX_PLANNING, COMALTZEX_PROPERTY_DRAWER};
    static const uint32_t unplanned[] = {COMALTZEX_DOCUMENT, COMALTZEX_HEADING, COMALTZEX_SECTION,
                                         COMALTZEX_PARAGRAPH, COMALTZEX_DRAWER};
    check_read("line of dates", dates, sizeof(dates) - 1, LENGTH(table), COMALTZEX_OK, 5);
    check_field("line of dates", COMALTZEX_FIELD_KIND, planned, LENGTH(planned));
    check_read("line of words", words, sizeof(words) - 1, LENGTH(table), COMALTZEX_OK, 5);
    check_field("line of words", COMALTZEX_FIELD_KIND, unplanned, LENGTH(unplanned));
}

static void empty_text(void)
{
    static const uint32_t document[] = {1, 0, 0, 0, 0, 0, 0, 0};
    check_read("empty text", "", 0, COMALTZEX_RECORD_SIZE, COMALTZEX_OK, 1);
    check_table("empty text's table", document, LENGTH(document));
    check_read("empty text, a number less", "", 0, COMALTZEX_RECORD_SIZE - 1, COMALTZEX_NO_ROOM, 1);
    check_lookup("empty text", "", 0, 0, "VIN", refused(COMALTZEX_NO_HEADING));
}

static void lookup_refusals(void)
{
    char key[COMALTZEX_KEY_LIMIT + 2];
    memset(key, 'k', sizeof(key) - 1);
    key[sizeof(key) - 1] = '\0';
    check_lookup("key of 65 bytes", FIRST, 35, 0, key, refused(COMALTZEX_BAD_KEY));
    check_lookup("key of 64 bytes", FIRST, 35, 0, key + 1, refused(COMALTZEX_NO_KEY));
    check_lookup("empty key", FIRST, 35, 0, "", refused(COMALTZEX_BAD_KEY));
    check_lookup("blank in key", FIRST, 35, 0, "V N", refused(COMALTZEX_BAD_KEY));
    check_lookup("newline in key", FIRST, 35, 0, "VIN\n", refused(COMALTZEX_BAD_KEY));
    check_lookup("plus at key's end", FIRST, 35, 0, "VIN+", refused(COMALTZEX_BAD_KEY));
    check_lookup("bad key, no heading", FIRST, 35, 1, "VIN+", refused(COMALTZEX_BAD_KEY));
    check_lookup("no heading", FIRST, 35, 1, "VIN", refused(COMALTZEX_NO_HEADING));
    check_lookup("past the end", FIRST, 35, 36, "VIN", refused(COMALTZEX_NO_HEADING));
    check_lookup("other key", FIRST, 35, 0, "FUEL", refused(COMALTZEX_NO_KEY));
}

static void closers(void)
{
    static const char text[] = "x\n #+begin_a\n\r#+end_a\n:END:\n#+end_ab\n #+End_A\r\n"
                               ":b:\n#+end_b\n: c\n";
    const comaltzex_closer none = {0, 0, 0, 0};
    const size_t length = sizeof(text) - 1;
    check_closer("closer", text, length, 2, length, (comaltzex_closer){1, 37, 47, 3});
    check_closer("closer cut by the end", text, length, 2, 45, (comaltzex_closer){1, 37, 45, 3});
    check_closer("closer past the end", text, length, 2, 37, (comaltzex_closer){0, 0, 0, 2});
    check_closer("open drawer", text, length, 47, length, (comaltzex_closer){0, 0, 0, 1});
    check_closer("nothing compared", text, length, 47, 59, none);
    check_closer("no opener", text, length, 0, length, none);
    check_closer("an end line is no opener", text, length, 22, length, none);
    check_closer("in mid-line", text, length, 3, length, none);
    check_closer("at the end", text, length, 2, 2, none);
    check_closer("end past the text", text, length, 2, length + 1, none);
    check_closer("both past the text", text, length, (size_t)-1, (size_t)-1, none);
    check_closer("empty text", "", 0, 0, 0, none);
}

static void closer_in_a_long_text(void)
{
    const size_t start = sizeof(book) - 6;
    memset(book, '\n', sizeof(book));
    memcpy(book, ":a:", 3);
    memcpy(book + start, ":end:", 5);
    check_closer("closer in 65,537 bytes", book, sizeof(book), 0, sizeof(book),
                 (comaltzex_closer){1, start, sizeof(book), 1});
}

static void text_limit(void)
{
    memset(book, 'x', sizeof(book));
    check_read("65,536 bytes", book, sizeof(book) - 1, LENGTH(table), COMALTZEX_OK, 3);
    check_read("65,537 bytes", book, sizeof(book), LENGTH(table), COMALTZEX_TOO_LONG, 0);
    check_lookup("lookup in 65,537 bytes", book, sizeof(book), 0, "", refused(COMALTZEX_TOO_LONG));
}

/* Writes depth blocks, each in the one before, and gives the text's length. */
static size_t nest_blocks(int depth)
{
    char *end = book;
    int i;
    for (i = 1; i <= depth; i++)
        end += sprintf(end, "#+begin_b%d\n", i);
    for (i = depth; i >= 1; i--)
        end += sprintf(end, "#+end_b%d\n", i);
    return (size_t)(end - book);
}

static void depth_limit(void)
{
    size_t length = nest_blocks(COMALTZEX_DEPTH_LIMIT);
    check_read("depth 32", book, length, LENGTH(table), COMALTZEX_OK, 2 + 32);
    length = nest_blocks(COMALTZEX_DEPTH_LIMIT + 1);
    check_read("depth 33", book, length, LENGTH(table), COMALTZEX_TOO_DEEP, 0);
    check_read("depth 33, no room", book, length, 0, COMALTZEX_TOO_DEEP, 0);
}

int main(void)
{
    one_version();
    number_names();
    first_sample();
    second_sample();
    third_sample();
    planning_lines();
    empty_text();
    lookup_refusals();
    closers();
    closer_in_a_long_text();
    text_limit();
    depth_limit();
    return all_passed("sample");
}
