/*
 * The C interface of document 02's order 2: why a heading has no property drawer.
 */
#include "check.h"
#include "comaltzex.h"
#include "lookup.h"

#include <string.h>

/* A lookup of VIN at a text's first byte, and its answer. */
struct sample {
    const char *what;
    const char *text;
    comaltzex_part answer;
};

static char book[COMALTZEX_TEXT_LIMIT + 1];

static void check_samples(const struct sample *samples, size_t count)
{
    size_t i;
    for (i = 0; i < count; i++)
        check_lookup(samples[i].what, samples[i].text, strlen(samples[i].text), 0, "VIN",
                     samples[i].answer);
}

static void blank_lines_first(void)
{
    static const struct sample samples[] = {
        {"after planning, blank line",
         "* A\nSCHEDULED: <2024-01-01>\n\n:PROPERTIES:\n:VIN: 7\n:END:\n",
         {COMALTZEX_BLANK_FIRST, 0, 0, 0}},
        {"blank line and unclosed", "* A\n\n:PROPERTIES:\n", {COMALTZEX_BLANK_FIRST, 0, 0, 0}},
        {"blank lines of 13 and 32",
         "* A\n\r\n \n:properties:\n:end:\n",
         {COMALTZEX_BLANK_FIRST, 0, 0, 0}},
        {"blank line, opener last", "* A\n\t\n :PROPERTIES: ", {COMALTZEX_BLANK_FIRST, 0, 0, 0}},
        {"blank line before planning",
         "* A\n\nSCHEDULED: <2024-01-01>\n:PROPERTIES:\n:END:\n",
         {COMALTZEX_NO_DRAWER, 0, 0, 0}}};
    check_samples(samples, LENGTH(samples));
}

static void never_closed(void)
{
    static const struct sample samples[] = {
        {"never closed", "* A\n:PROPERTIES:\n:VIN: 7\n", {COMALTZEX_NOT_CLOSED, 0, 0, 0}},
        {"opener is the last line", "* A\n:PROPERTIES:", {COMALTZEX_NOT_CLOSED, 0, 0, 0}},
        {"after planning, unclosed",
         "* A\nSCHEDULED: <2024-01-01>\n:PROPERTIES:\n",
         {COMALTZEX_NOT_CLOSED, 0, 0, 0}},
        {"closed past the next heading",
         "* A\n:PROPERTIES:\n:VIN: 7\n** B\n:END:\n",
         {COMALTZEX_NOT_CLOSED, 0, 0, 0}},
        {"unclosed, a line of text", "* A\n:PROPERTIES:\nx\n", {COMALTZEX_NOT_CLOSED, 0, 0, 0}}};
    check_samples(samples, LENGTH(samples));
}

static void lines_that_are_no_properties(void)
{
    static const struct sample samples[] = {
        {"a blank line inside",
         "* A\n:PROPERTIES:\n\n:VIN: 7\n:END:\n",
         {COMALTZEX_NOT_PROPERTY, 0, 0, 17}},
        {"the line's start, not its body's",
         "* A\n:PROPERTIES:\n  x\n:END:\n",
         {COMALTZEX_NOT_PROPERTY, 0, 0, 17}},
        {"such a line after the first :END: is outside",
         "* A\n:PROPERTIES:\n:VIN: 7\n:END:\nx\n:END:\n",
         {COMALTZEX_OK, 23, 24, 0}},
        {"the first of two, below planning",
         "* A\nCLOSED: [2024-01-01]\n:PROPERTIES:\r\n:VIN: 7\r\n:++:\r\nx\r\n:END:",
         {COMALTZEX_NOT_PROPERTY, 0, 0, 48}}};
    check_samples(samples, LENGTH(samples));
}

static void other_headings_without_a_drawer(void)
{
    static const struct sample samples[] = {
        {"no drawer", "* A\nx\n", {COMALTZEX_NO_DRAWER, 0, 0, 0}},
        {"only blank lines", "* A\n\n\n", {COMALTZEX_NO_DRAWER, 0, 0, 0}},
        {"failed planning line stands in the place",
         "* A\nSCHEDULED: x\n:PROPERTIES:\n:VIN: 7\n:END:\n",
         {COMALTZEX_NO_DRAWER, 0, 0, 0}},
        {"next heading's drawer is not seen",
         "* A\n\n* B\n:PROPERTIES:\n:VIN: 7\n:END:\n",
         {COMALTZEX_NO_DRAWER, 0, 0, 0}},
        {"opener with text is none",
         "* A\n:PROPERTIES: x\n:END:\n",
         {COMALTZEX_NO_DRAWER, 0, 0, 0}},
        {"text before the opener",
         "* A\nx\n:PROPERTIES:\n:VIN: 7\n:END:\n",
         {COMALTZEX_NO_DRAWER, 0, 0, 0}},
        {"a heading line alone", "* A", {COMALTZEX_NO_DRAWER, 0, 0, 0}}};
    check_samples(samples, LENGTH(samples));
}

/* Checks that a text is refused with a number, and that 1, 7 and 4 come before it. */
static void check_turn(const char *text, uint32_t number, size_t further)
{
    const size_t length = strlen(text);
    const comaltzex_part wanted = {number, 0, 0, further};
    check_lookup(text, text, length, 0, "VIN", wanted);
    check_lookup(text, text, length, 0, "a+", refused(COMALTZEX_BAD_KEY));
    check_lookup(text, text, length, 1, "a+", refused(COMALTZEX_BAD_KEY));
    check_lookup(text, text, length, 1, "VIN", refused(COMALTZEX_NO_HEADING));
    memset(book, '\n', sizeof(book));
    memcpy(book, text, length);
    check_lookup(text, book, sizeof(book), 0, "a+", refused(COMALTZEX_TOO_LONG));
}

static void turns(void)
{
    check_turn("* A\n\n:PROPERTIES:\n", COMALTZEX_BLANK_FIRST, 0);
    check_turn("* A\n:PROPERTIES:\n", COMALTZEX_NOT_CLOSED, 0);
    check_turn("* A\n:PROPERTIES:\nx\n:END:\n", COMALTZEX_NOT_PROPERTY, 17);
    check_turn("* A\n", COMALTZEX_NO_DRAWER, 0);
}

static void text_limit(void)
{
    const size_t end = sizeof(book) - 1;
    memset(book, 'a', sizeof(book));
    check_lookup("over 65,536 bytes", book, sizeof(book), 0, "VIN", refused(COMALTZEX_TOO_LONG));
    memset(book, '\n', sizeof(book));
    memcpy(book, "* A", 3);
    memcpy(book + end - 12, ":PROPERTIES:", 12);
    check_lookup("65,536 bytes", book, end, 0, "VIN", refused(COMALTZEX_BLANK_FIRST));
}

/* A drawer is sought at the heading that is asked for. */
static void each_heading_of_a_book(void)
{
    static const char text[] = "* A\n\n:PROPERTIES:\n:END:\n* B\n:PROPERTIES:\n* C\n:PROPERTIES:\n"
                               ":VIN: 7\n y\n:END:\n* D\n:PROPERTIES:\n:VIN: 7\n:END:\n";
    const size_t length = sizeof(text) - 1;
    check_lookup("heading A", text, length, 0, "VIN", refused(COMALTZEX_BLANK_FIRST));
    check_lookup("heading B", text, length, 24, "VIN", refused(COMALTZEX_NOT_CLOSED));
    check_lookup("heading C", text, length, 41, "VIN",
                 (comaltzex_part){COMALTZEX_NOT_PROPERTY, 0, 0, 66});
    check_lookup("heading D", text, length, 75, "VIN", (comaltzex_part){COMALTZEX_OK, 98, 99, 0});
    check_lookup("heading D, no key", text, length, 75, "FUEL", refused(COMALTZEX_NO_KEY));
}

int main(void)
{
    check("size of a part", sizeof(comaltzex_part), 32);
    blank_lines_first();
    never_closed();
    lines_that_are_no_properties();
    other_headings_without_a_drawer();
    turns();
    text_limit();
    each_heading_of_a_book();
    return all_passed("drawers");
}
