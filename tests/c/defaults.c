/*
 * The C interface of document 02's order 13: what an order lacks is taken from the house defaults.
 */
#include "check.h"
#include "comaltzex.h"
#include "lookup.h"

#include <string.h>

#define BARE "* A\n:PROPERTIES:\n:END:\n"
#define DRAWER ":PROPERTIES:\n:BOOST: 2\n:END:\n"

static const char ORDER[] = "* A\n:PROPERTIES:\n:VIN: 7\n:FUEL: E85\n:END:\n";
static const char DEFAULTS[] = "x\n* D\n:PROPERTIES:\n:VIN: 1\n:BOOST: 2\n:FUEL: 98\n:Request: 3\n"
                               ":END:\n* E\n:PROPERTIES:\n:NOX: 4\n:END:\n";

/* A text, and the byte where a heading of it is to be looked up. */
struct place {
    const char *text;
    size_t length;
    size_t at;
};

/* A text that answers, where its heading is, and the answer. */
struct sample {
    const char *what;
    const char *text;
    size_t at;
    const char *key;
    comaltzex_part answer;
};

static char book[COMALTZEX_TEXT_LIMIT + 1];
static char house[COMALTZEX_TEXT_LIMIT + 1];

static struct place place(const char *text, size_t at)
{
    const struct place whole = {text, strlen(text), at};
    return whole;
}

/* Checks an answer and whose it is, and that the plain lookup in that text answers so, too. */
static void check_sourced(const char *what, struct place order, struct place defaults,
                          const char *key, enum comaltzex_whose whose, comaltzex_part wanted)
{
    const comaltzex_sourced_part seen = comaltzex_lookup_with_defaults(
        (const uint8_t *)order.text, order.length, order.at, (const uint8_t *)defaults.text,
        defaults.length, (const uint8_t *)key, strlen(key));
    const struct place asked = whose == COMALTZEX_ORDER ? order : defaults;
    check(what, seen.number, wanted.number);
    check(what, seen.whose, whose);
    check(what, seen.start, wanted.start);
    check(what, seen.end, wanted.end);
    check(what, seen.further, wanted.further);
    check_lookup(what, asked.text, asked.length, asked.at, key, wanted);
}

/* Checks that these order texts answer, with defaults that have BOOST. */
static void check_orders(const struct sample *samples, size_t count)
{
    size_t i;
    for (i = 0; i < count; i++)
        check_sourced(samples[i].what, place(samples[i].text, samples[i].at), place(DEFAULTS, 2),
                      samples[i].key, COMALTZEX_ORDER, samples[i].answer);
}

/* Checks that these defaults texts answer, with an order that has VIN and FUEL. */
static void check_defaults(const struct sample *samples, size_t count)
{
    size_t i;
    for (i = 0; i < count; i++)
        check_sourced(samples[i].what, place(ORDER, 0), place(samples[i].text, samples[i].at),
                      samples[i].key, COMALTZEX_DEFAULTS, samples[i].answer);
}

static void the_order_answers(void)
{
    static const struct sample samples[] = {
        {"the order's own", ORDER, 0, "fuel", {COMALTZEX_OK, 32, 35, 0}},
        {"4 of the order", ORDER, 1, "boost", {COMALTZEX_NO_HEADING, 0, 0, 0}},
        {"past the order's end", ORDER, (size_t)-1, "boost", {COMALTZEX_NO_HEADING, 0, 0, 0}},
        {"5 stands", "* A\n", 0, "boost", {COMALTZEX_NO_DRAWER, 0, 0, 0}},
        {"7 stands", ORDER, 0, "BOOST+", {COMALTZEX_BAD_KEY, 0, 0, 0}},
        {"8 stands",
         "* A\n\n:PROPERTIES:\n:END:\n",
         0,
         "boost",
         {COMALTZEX_BLANK_FIRST, 0, 0, 0}},
        {"9 stands",
         "\n* A\n:PROPERTIES:\n:VIN: 7\n x\n:END:\n",
         1,
         "boost",
         {COMALTZEX_NOT_PROPERTY, 0, 0, 26}},
        {"10 stands", "* A\n:PROPERTIES:\n", 0, "boost", {COMALTZEX_NOT_CLOSED, 0, 0, 0}},
        {"an empty value is an answer",
         "* A\n:PROPERTIES:\n:FUEL:\n:END:\n",
         0,
         "fuel",
         {COMALTZEX_OK, 23, 23, 0}}};
    check_orders(samples, LENGTH(samples));
}

static void the_defaults_answer(void)
{
    static const struct sample samples[] = {
        {"from the defaults", DEFAULTS, 2, "boost", {COMALTZEX_OK, 35, 36, 0}},
        {"in neither", DEFAULTS, 2, "none", {COMALTZEX_NO_KEY, 0, 0, 0}},
        {"not under a later heading", DEFAULTS, 2, "NOX", {COMALTZEX_NO_KEY, 0, 0, 0}},
        {"empty defaults", "", 0, "boost", {COMALTZEX_NO_HEADING, 0, 0, 0}},
        {"defaults without a drawer", "* D\n", 0, "boost", {COMALTZEX_NO_DRAWER, 0, 0, 0}},
        {"the defaults' 8", "* D\n\n" DRAWER, 0, "boost", {COMALTZEX_BLANK_FIRST, 0, 0, 0}},
        {"the defaults' 9",
         "** D\n:PROPERTIES:\n\n:END:\n",
         0,
         "boost",
         {COMALTZEX_NOT_PROPERTY, 0, 0, 18}},
        {"the defaults' 9, below text",
         "x\n* D\n:PROPERTIES:\n:BOOST: 2\n x\n:END:\n",
         2,
         "boost",
         {COMALTZEX_NOT_PROPERTY, 0, 0, 29}},
        {"the defaults' 10",
         "* D\n:PROPERTIES:\n:BOOST: 2\n* E\n:END:\n",
         0,
         "boost",
         {COMALTZEX_NOT_CLOSED, 0, 0, 0}},
        {"an empty default",
         "* D\n:PROPERTIES:\n:BOOST:\n:END:\n",
         0,
         "boost",
         {COMALTZEX_OK, 24, 24, 0}}};
    check_defaults(samples, LENGTH(samples));
}

/* Which line of the defaults is their first heading line. */
static void the_first_heading(void)
{
    static const struct sample samples[] = {
        {"five stars", "***** D\n" DRAWER, 0, "BOOST", {COMALTZEX_OK, 29, 30, 0}},
        {"no title", "\n* \n" DRAWER, 1, "BOOST", {COMALTZEX_OK, 25, 26, 0}},
        {"in a block",
         "#+begin_src\n* D\n" DRAWER "#+end_src\n",
         12,
         "BOOST",
         {COMALTZEX_OK, 37, 38, 0}},
        {"below lines that are none",
         "*\n*D\n * D\n* D\n" DRAWER,
         10,
         "BOOST",
         {COMALTZEX_OK, 35, 36, 0}},
        {"only lines that are none",
         "*\n*D\n * D\n" DRAWER,
         0,
         "BOOST",
         {COMALTZEX_NO_HEADING, 0, 0, 0}},
        {"a drawer above the first", DRAWER BARE, 29, "BOOST", {COMALTZEX_NO_KEY, 0, 0, 0}},
        {"a drawer and no heading", DRAWER, 0, "BOOST", {COMALTZEX_NO_HEADING, 0, 0, 0}},
        {"a drawer under the second",
         "** D\n* E\n" DRAWER,
         0,
         "BOOST",
         {COMALTZEX_NO_DRAWER, 0, 0, 0}}};
    check_defaults(samples, LENGTH(samples));
}

/* VIN and REQUEST are not taken from these defaults, of which some could not answer at all. */
static void check_identities(struct place defaults)
{
    static const char *const keys[] = {"VIN", "vin", "vIn", "REQUEST", "request", "Request"};
    size_t i;
    for (i = 0; i < LENGTH(keys); i++)
        check_sourced(keys[i], place(BARE, 0), defaults, keys[i], COMALTZEX_ORDER,
                      refused(COMALTZEX_NO_KEY));
}

static void identities(void)
{
    const struct place too_long = {house, sizeof(house), 0};
    memset(house, '\n', sizeof(house));
    check_identities(place(DEFAULTS, 2));
    check_identities(place("* D\n:PROPERTIES:\n:vin: 1\n:REQUEST: 2\n:END:\n", 0));
    check_identities(place("* D\n", 0));
    check_identities(place("", 0));
    check_identities(too_long);
}

/* Keys that only resemble the two. */
static void other_keys(void)
{
    static const char *const keys[] = {"VI", "VINS", "XVIN", "VAN", "V", "REQUES", "REQUESTS"};
    size_t i;
    for (i = 0; i < LENGTH(keys); i++)
        check_sourced(keys[i], place(BARE, 0), place(DEFAULTS, 2), keys[i], COMALTZEX_DEFAULTS,
                      refused(COMALTZEX_NO_KEY));
}

static void each_heading_of_a_book(void)
{
    static const char text[] = BARE "** B\n" DRAWER "* C\n";
    const struct place defaults = place(DEFAULTS, 2);
    check_sourced("heading A", place(text, 0), defaults, "BOOST", COMALTZEX_DEFAULTS,
                  (comaltzex_part){COMALTZEX_OK, 35, 36, 0});
    check_sourced("heading B", place(text, 23), defaults, "BOOST", COMALTZEX_ORDER,
                  (comaltzex_part){COMALTZEX_OK, 49, 50, 0});
    check_sourced("heading C", place(text, 57), defaults, "BOOST", COMALTZEX_ORDER,
                  refused(COMALTZEX_NO_DRAWER));
}

/* The two texts are one, or overlap. */
static void one_text_for_both(void)
{
    static const char text[] = BARE "* B\n" DRAWER;
    const struct place first = place(text, 0), second = place(text, 23);
    const struct place cut = place(text + 23, 0);
    check_sourced("one text", first, first, "BOOST", COMALTZEX_DEFAULTS,
                  refused(COMALTZEX_NO_KEY));
    check_sourced("one text", second, first, "BOOST", COMALTZEX_ORDER,
                  (comaltzex_part){COMALTZEX_OK, 48, 49, 0});
    check_sourced("overlapping texts", first, cut, "BOOST", COMALTZEX_DEFAULTS,
                  (comaltzex_part){COMALTZEX_OK, 25, 26, 0});
}

/* The order text and the defaults text, each of the greatest length, and of a byte more. */
static void text_limits(void)
{
    static const char last[] = "\n* D\n" DRAWER;
    const size_t limit = COMALTZEX_TEXT_LIMIT, heading = limit - sizeof(last) + 2;
    const struct place order = {book, limit, 0}, long_order = {book, limit + 1, 0};
    const struct place defaults = {house, limit, heading};
    const struct place long_defaults = {house, limit + 1, heading};
    memset(book, '\n', sizeof(book));
    memcpy(book, ORDER, strlen(ORDER));
    memset(house, 'x', sizeof(house));
    memcpy(house + heading - 1, last, strlen(last));
    check_sourced("65,536 bytes each", order, defaults, "BOOST", COMALTZEX_DEFAULTS,
                  (comaltzex_part){COMALTZEX_OK, heading + 25, heading + 26, 0});
    check_sourced("1 of the order", long_order, defaults, "boost", COMALTZEX_ORDER,
                  refused(COMALTZEX_TOO_LONG));
    check_sourced("1 of both", long_order, long_defaults, "boost", COMALTZEX_ORDER,
                  refused(COMALTZEX_TOO_LONG));
    check_sourced("defaults over the limit", order, long_defaults, "boost", COMALTZEX_DEFAULTS,
                  refused(COMALTZEX_TOO_LONG));
    check_sourced("defaults over the limit don't matter for a found key", order, long_defaults,
                  "fuel", COMALTZEX_ORDER, (comaltzex_part){COMALTZEX_OK, 32, 35, 0});
    check_sourced("defaults over the limit, bad key", order, long_defaults, "", COMALTZEX_ORDER,
                  refused(COMALTZEX_BAD_KEY));
}

/* Over the limit comes before having no heading. */
static void long_defaults_without_a_heading(void)
{
    const struct place too_long = {house, sizeof(house), 0};
    memset(house, 'x', sizeof(house));
    check_sourced("65,537 bytes, no heading", place(ORDER, 0), too_long, "boost",
                  COMALTZEX_DEFAULTS, refused(COMALTZEX_TOO_LONG));
}

int main(void)
{
    check("size of a sourced part", sizeof(comaltzex_sourced_part), 32);
    the_order_answers();
    the_defaults_answer();
    the_first_heading();
    identities();
    other_keys();
    each_heading_of_a_book();
    one_text_for_both();
    text_limits();
    long_defaults_without_a_heading();
    return all_passed("defaults");
}
