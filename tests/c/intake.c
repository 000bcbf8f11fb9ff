/*
 * The C interface of document 02's order 6: orders are taken into a book, each request once.
 */
#include "book.h"
#include "check.h"
#include "comaltzex.h"
#include "order.h"

#include <stdio.h>
#include <string.h>

#define SIZED(literal) literal, sizeof(literal) - 1
#define DRAWER(request) ":PROPERTIES:\n:REQUEST: " request "\n:VIN: 7\n:END:\n"
#define SHEET "* T\n" DRAWER("r1")

/* A book, and what becomes of it. */
struct sample {
    const char *what;
    const char *text;
    const char *after;
};

/* An order's title and two pairs. */
struct parts {
    const char *title;
    const char *key;
    const char *value;
    const char *second_key;
    const char *second_value;
};

/* A book, and whether it has the request r1. */
struct known {
    const char *what;
    const char *text;
};

static char filler[COMALTZEX_TEXT_LIMIT];
static struct bytes logged;

static void make_parts(struct parts parts)
{
    start_order(parts.title, strlen(parts.title));
    add_pair(parts.key, parts.value, strlen(parts.value));
    add_pair(parts.second_key, parts.second_value, strlen(parts.second_value));
    end_order();
}

/* Makes an order of this request and VIN. */
static void make(const char *request, const char *vin)
{
    const struct parts parts = {"T", "REQUEST", request, "VIN", vin};
    make_parts(parts);
}

/* Makes an order whose sheet has so many bytes. */
static void make_sized(const char *request, size_t length)
{
    make(request, "7");
    start_order(filler, length + 1 - sheet.length);
    add_pair("REQUEST", request, strlen(request));
    add_pair("VIN", "7", 1);
    end_order();
    check("a sheet of this size", sheet.length, length);
}

/* Makes an order whose length takes three bytes; its sheet is too long for any book. */
static void make_long(const char *request)
{
    start_order(filler, 60000);
    add_pair("FUEL", filler, 10000);
    add_pair("REQUEST", request, strlen(request));
    add_pair("VIN", "7", 1);
    end_order();
}

static void lend_text(const char *text)
{
    lend(text, strlen(text));
}

/* Lends a book of so many bytes that ends in this one. */
static void lend_filled(size_t length, char last)
{
    lend(filler, length);
    if (length > 0)
        book[length - 1] = (uint8_t)last;
}

/* Puts the order into the log, after its length in four bytes. */
static void add_to_log(void)
{
    size_t i;
    for (i = 0; i < 4; i++)
        put_byte(&logged, order.length >> (8 * i) & 255);
    put(&logged, order.at, order.length);
}

static void taken_samples(void)
{
    static const struct sample samples[] = {{"empty book", "", SHEET},
                                            {"a last line that is ended", "x\n", "x\n" SHEET},
                                            {"a last line that is not", "x", "x\n" SHEET},
                                            {"a last blank line", "x\n\n", "x\n\n" SHEET},
                                            {"byte 13 ends no line", "x\r", "x\r\n" SHEET},
                                            {"a star alone", "*", "*\n" SHEET},
                                            {"a byte 10 alone", "\n", "\n" SHEET}};
    size_t i;
    make("r1", "7");
    for (i = 0; i < LENGTH(samples); i++) {
        lend_text(samples[i].text);
        check_taken(samples[i].what, ROOM);
        check(samples[i].what, used, strlen(samples[i].after));
        check(samples[i].what, memcmp(book, samples[i].after, used) == 0, 1);
    }
}

/* An order as the site sends it, byte for byte. */
static void sent_sample(void)
{
    static const char sent[] = "\001\000A\002\003VIN\001\0007\007Request\003\000r 1";
    static const char wanted[] = "#+TITLE: B\n* A\n:PROPERTIES:\n:VIN: 7\n:Request: r 1\n:END:\n";
    const size_t length = sizeof(wanted) - 1;
    comaltzex_taken seen;
    lend_text("#+TITLE: B");
    seen = comaltzex_intake(book, length, used, (const uint8_t *)sent, sizeof(sent) - 1);
    check_answer("an order of bytes", seen, COMALTZEX_OK, length);
    check("an order of bytes", memcmp(book, wanted, length) == 0, 1);
    check("an order of bytes", book[length], UNWRITTEN);
}

/* What order 5 refuses, whatever the book is. */
static void bad_orders(void)
{
    static const struct parts bad_text = {"T", "REQUEST", "r1 ", "VIN", "7"};
    static const struct parts bad_name = {"T", "REQUEST+", "r1", "VIN", "7"};
    static const struct parts repeated = {"T", "REQUEST", "r1", "request", "r1"};
    static const char *const books[] = {"", "x", "* A\n" DRAWER("r1")};
    size_t i, length;
    for (i = 0; i < LENGTH(books); i++) {
        lend_text(books[i]);
        make("r1", "7");
        for (length = 0; length < order.length; length++)
            check_refused("cut", order.at, length, ROOM, COMALTZEX_BAD_ORDER);
        put_byte(&order, 0);
        check_order_refused_in_any("too long", COMALTZEX_BAD_ORDER);
        make_parts(bad_text);
        check_order_refused_in_any("bad text", COMALTZEX_BAD_TEXT);
        make_parts(bad_name);
        check_order_refused_in_any("bad name", COMALTZEX_BAD_NAME);
        make_parts(repeated);
        check_order_refused_in_any("repeated key", COMALTZEX_REPEATED_KEY);
        check_refused("no bytes", "", 0, ROOM, COMALTZEX_BAD_ORDER);
    }
}

static void missing_keys(void)
{
    static const struct parts orders[] = {
        {"T", "REQUEST", "r1", "FUEL", "98"},      {"T", "VIN", "7", "FUEL", "98"},
        {"T", "FUEL", "98", "BOOST", "1"},         {"T", "REQUEST", "", "VIN", "7"},
        {"T", "REQUEST", "r1", "VIN", ""},         {"T", "REQUEST", "", "VIN", ""},
        {"T", "REQUESTS", "r1", "VIN", "7"},       {"T", "REQUES", "r1", "VIN", "7"},
        {"T", "REQUEST", "r1", "VINS", "7"},       {"T", "REQUEST", "r1", "VI", "7"},
        {"REQUEST", "XREQUEST", "r1", "VIN", "7"}, {"VIN", "REQUEST", "r1", "A:VIN", "7"},
        {"T", "REQUEST", "VIN", "A", "VIN"},       {"T", "+REQUEST", "r1", "VIN", "7"}};
    size_t i;
    for (i = 0; i < LENGTH(orders); i++) {
        make_parts(orders[i]);
        lend_text("");
        check_order_refused_in_any("missing in an empty book", COMALTZEX_MISSING_KEY);
        lend_text("* A\n" DRAWER("r1") "* B");
        check_order_refused_in_any("missing in a book", COMALTZEX_MISSING_KEY);
    }
    start_order("T", 1);
    end_order();
    check_order_refused_in_any("no pairs", COMALTZEX_MISSING_KEY);
}

/* Keys in any case and at any place among the pairs; any other pairs. */
static void keys_that_will_do(void)
{
    static const struct parts orders[] = {{"T", "REQUEST", "r1", "VIN", "7"},
                                          {"", "vin", "7", "request", "r1"},
                                          {"T", "Vin", "r1", "rEQUEST", "r1"},
                                          {"* x", "reQuest", ":END:", "vIN", "* x"}};
    char key[sizeof("Key13")];
    size_t i;
    for (i = 0; i < LENGTH(orders); i++) {
        make_parts(orders[i]);
        lend_text("* A\n");
        check_taken("keys in any case", ROOM);
        check_order_refused_in_any("the same again", COMALTZEX_SEEN);
    }
    start_order("T", 1);
    for (i = 0; i < 14; i++) {
        sprintf(key, "Key%u", (unsigned)i);
        add_pair(key, "", 0);
    }
    add_pair("VIN", "7", 1);
    add_pair("REQUEST", "r1", 2);
    end_order();
    lend_text("");
    check_taken("the last of 16 pairs", sheet.length);
    check_order_refused_in_any("the last of 16 pairs again", COMALTZEX_SEEN);
}

static void bytes_in_use(void)
{
    make("r1", "7");
    lend_filled(200, '\n');
    check_order_refused("one more than the buffer", 199, COMALTZEX_BAD_USED);
    check_order_refused("no buffer", 0, COMALTZEX_BAD_USED);
    check_order_refused("all of the buffer", 200, COMALTZEX_SHORT_OUTPUT);
    used = 1;
    check_order_refused("one byte of none", 0, COMALTZEX_BAD_USED);
    check_order_refused("one byte of one", 1, COMALTZEX_SHORT_OUTPUT);
    used = 0;
    check_order_refused("none of none", 0, COMALTZEX_SHORT_OUTPUT);
    lend_filled(COMALTZEX_TEXT_LIMIT, '\n');
    check_order_refused("65,536 in a longer buffer", ROOM, COMALTZEX_TOO_LONG);
    check_order_refused("65,536 in their buffer", used, COMALTZEX_TOO_LONG);
    check_order_refused("65,536 of 65,535", used - 1, COMALTZEX_BAD_USED);
    used++;
    check_order_refused("65,537 in a longer buffer", ROOM, COMALTZEX_BAD_USED);
    check_order_refused("65,537 in their buffer", used, COMALTZEX_BAD_USED);
    check_order_refused("65,537 of 65,536", used - 1, COMALTZEX_BAD_USED);
    used = (size_t)-1;
    check_order_refused("as many as can be", ROOM, COMALTZEX_BAD_USED);
    used = (size_t)-1 - sheet.length + 1;
    check_order_refused("so many that a sum is 0", ROOM, COMALTZEX_BAD_USED);
}

/* Books in which the request r1 is looked up at some heading. */
static void seen_requests(void)
{
    static const struct known books[] = {
        {"the first heading", "* A\n" DRAWER("r1") "* B\n" DRAWER("r2")},
        {"the last heading", "* A\n" DRAWER("r0") "* B\n" DRAWER("r1")},
        {"one between", "* A\n** B\n" DRAWER("r1") "* C\n"},
        {"a heading of two stars", "* A\n" DRAWER("r0") "** B\n" DRAWER("r1")},
        {"a heading of many stars", "*********************************** B\n" DRAWER("r1")},
        {"another case of the key", "* A\n:properties:\n:Request: r1\n:end:\n"},
        {"a plus after the key", "* A\n:PROPERTIES:\n:REQUEST+: r1\n:END:\n"},
        {"blanks around the value", "* A\n:PROPERTIES:\n  :REQUEST:\t  r1 \t\r\n:END: \r\n"},
        {"below dates", "* A\nSCHEDULED: <2026-11-16 Mon>\n" DRAWER("r1")},
        {"after text", "x\n\n#+begin_src\n* A\n" DRAWER("r1") "#+end_src\n"},
        {"no byte 10 last", "* A\n:PROPERTIES:\n:REQUEST: r1\n:END:"},
        {"another VIN", "* A\n:PROPERTIES:\n:VIN: 8\n:REQUEST: r1\n:END:\n"},
        {"no VIN", "* A\n:PROPERTIES:\n:REQUEST: r1\n:END:\ntext"},
        {"more than one heading", "* A\n" DRAWER("r1") "* B\n" DRAWER("r1")},
        {"an empty title", "* \n" DRAWER("r1")},
        {"after refused drawers", "* A\n:PROPERTIES:\n* B\n\n" DRAWER("r0") "* C\n" DRAWER("r1")}};
    size_t i;
    make("r1", "7");
    for (i = 0; i < LENGTH(books); i++) {
        lend_text(books[i].text);
        check_order_refused_in_any(books[i].what, COMALTZEX_SEEN);
    }
}

/* Books in which it is not, though it stands there, or something like it. */
static void unseen_requests(void)
{
    static const struct known books[] = {
        {"another case of the value", "* A\n" DRAWER("R1")},
        {"a longer value", "* A\n" DRAWER("r12")},
        {"a value of more words", "* A\n" DRAWER("r1 r1")},
        {"a shorter value", "* A\n" DRAWER("r")},
        {"an empty value", "* A\n:PROPERTIES:\n:REQUEST:\n:END:\n"},
        {"another value of its length", "* A\n" DRAWER("r2")},
        {"another key", "* A\n:PROPERTIES:\n:VIN: r1\n:REQUESTS: r1\n:END:\n"},
        {"a second line with the key", "* A\n:PROPERTIES:\n:REQUEST: r0\n:REQUEST: r1\n:END:\n"},
        {"8", "* A\n\n" DRAWER("r1")},
        {"9", "* A\n:PROPERTIES:\n:REQUEST: r1\nx\n:END:\n"},
        {"10", "* A\n:PROPERTIES:\n:REQUEST: r1\n* B\n:END:\n"},
        {"10 at the end", "* A\n:PROPERTIES:\n:REQUEST: r1\n"},
        {"10 in a line without byte 10", "* A\n:PROPERTIES:\n:REQUEST: r1"},
        {"5", "* A\nx\n" DRAWER("r1")},
        {"a planning line of words", "* A\nSCHEDULED: soon\n" DRAWER("r1")},
        {"above the first heading", DRAWER("r1") "* A\n"},
        {"no heading", DRAWER("r1")},
        {"a star without a space", "*A\n" DRAWER("r1")},
        {"a star that is indented", " * A\n" DRAWER("r1")},
        {"text", "* A\n:REQUEST: r1\n"},
        {"the title", "* r1\n:PROPERTIES:\n:END:\n"}};
    size_t i;
    make("r1", "7");
    for (i = 0; i < LENGTH(books); i++) {
        lend_text(books[i].text);
        check_taken(books[i].what, ROOM);
        check_order_refused_in_any(books[i].what, COMALTZEX_SEEN);
    }
}

/* Every byte counts in a request's value, and only bytes in use are looked up. */
static void nearly_seen(void)
{
    static const char text[] = "* A\n" DRAWER("r1");
    size_t cut;
    make("abcdefghijklmnop", "7");
    lend_text("* A\n" DRAWER("abcdefghijklmnoP"));
    check_taken("the last letter differs", ROOM);
    make("Abcdefghijklmnop", "7");
    check_taken("the first letter differs", ROOM);
    make("\001\377\303\266", "7");
    check_taken("any bytes", ROOM);
    check_order_refused_in_any("any bytes again", COMALTZEX_SEEN);

    make("r1", "7");
    for (cut = 1; cut < sizeof(text); cut++) {
        lend(text, sizeof(text) - 1);
        used -= cut;
        if (cut == 1)
            check_order_refused_in_any("all but the last byte 10 in use", COMALTZEX_SEEN);
        else
            check_taken("the drawer's end is past the bytes in use", ROOM);
    }
    lend(text, sizeof(text) - 1);
    check_order_refused_in_any("all in use", COMALTZEX_SEEN);
}

/* The new book's length, with a byte 10 before the sheet and without one. */
static void book_limits(void)
{
    const size_t limit = COMALTZEX_TEXT_LIMIT;
    size_t ends;
    for (ends = 0; ends < 2; ends++) {
        const char last = ends ? '\n' : 'x';
        const size_t rest = limit - 1000 - !ends;
        make_sized("r1", 1000);
        lend_filled(rest, last);
        check_order_refused("65,536 bytes and one byte too little", limit - 1,
                            COMALTZEX_SHORT_OUTPUT);
        check_taken("65,536 bytes in their buffer", limit);
        lend_filled(rest, last);
        check_taken("65,536 bytes in a longer buffer", ROOM);
        check("65,536 bytes", used, limit);
        lend_filled(rest + 1, last);
        check_order_refused_in_any("65,537 bytes by the book", COMALTZEX_TOO_LONG);
        make_sized("r1", 1001);
        lend_filled(rest, last);
        check_order_refused_in_any("65,537 bytes by the sheet", COMALTZEX_TOO_LONG);
    }
    make_sized("r1", limit);
    lend_text("");
    check_order_refused("65,536 bytes of one sheet", limit - 1, COMALTZEX_SHORT_OUTPUT);
    check_taken("65,536 bytes of one sheet", limit);
    make_sized("r1", limit);
    lend_text("\n");
    check_order_refused_in_any("65,537 bytes of one line and one sheet", COMALTZEX_TOO_LONG);
    make_sized("r1", limit + 1);
    lend_text("");
    check_order_refused_in_any("65,537 bytes of one sheet", COMALTZEX_TOO_LONG);
}

/* The buffer's room, to the byte, for each way that the text may end. */
static void room_limits(void)
{
    static const char *const books[] = {"", "x", "x\n", "* A\n" DRAWER("r0"), "* A\n\n* B"};
    size_t i, room;
    make("r1", "7");
    for (i = 0; i < LENGTH(books); i++) {
        lend_text(books[i]);
        for (room = used; room < used + gap() + sheet.length; room++)
            check_order_refused("too little room", room, COMALTZEX_SHORT_OUTPUT);
        check_taken("just enough room", room);
        lend_text(books[i]);
        check_taken("one byte more", room + 1);
    }
}

/* Orders that deserve two refusals. */
static void turns(void)
{
    static const struct parts repeated = {"T", "FUEL", "98", "fuel", "98"};
    static const struct parts missing = {"T", "REQUEST", "r1", "FUEL", "98"};
    static const char text[] = "* A\n" DRAWER("r1");
    lend(text, sizeof(text) - 1);
    make_parts(repeated);
    check_order_refused_in_any("15 before 17", COMALTZEX_REPEATED_KEY);
    check_order_refused("15 before 18", used - 1, COMALTZEX_REPEATED_KEY);
    make_parts(missing);
    check_order_refused_in_any("17 before 19 and 16", COMALTZEX_MISSING_KEY);
    check_order_refused("17 before 18", used - 1, COMALTZEX_MISSING_KEY);
    check_order_refused("17 before 18 without a buffer", 0, COMALTZEX_MISSING_KEY);
    make("r1", "7");
    check_order_refused("18 before 19", used - 1, COMALTZEX_BAD_USED);
    check_order_refused("19 before 16", used, COMALTZEX_SEEN);
    make_sized("r1", COMALTZEX_TEXT_LIMIT);
    check_order_refused_in_any("19 before 1", COMALTZEX_SEEN);
    make_sized("r1", COMALTZEX_TEXT_LIMIT + 1);
    check_order_refused_in_any("19 before 1 of the sheet", COMALTZEX_SEEN);
    check_order_refused("18 before 1 of the sheet", used - 1, COMALTZEX_BAD_USED);
    make_sized("r2", COMALTZEX_TEXT_LIMIT + 1);
    check_order_refused_in_any("1 before 16", COMALTZEX_TOO_LONG);
    check_order_refused("18 before 1", used - 1, COMALTZEX_BAD_USED);
    start_order(filler, COMALTZEX_TEXT_LIMIT - 1);
    add_pair("REQUEST", "r1", 2);
    end_order();
    check_order_refused_in_any("17 before 1 of the sheet", COMALTZEX_MISSING_KEY);
    used = COMALTZEX_TEXT_LIMIT + 1;
    check_order_refused("17 before 18 over 65,536", ROOM, COMALTZEX_MISSING_KEY);
    make("r1", "7");
    check_order_refused("18 before 1 over 65,536", ROOM, COMALTZEX_BAD_USED);
}

/* How many headings of the book a lookup of REQUEST gives this value at; the last one's VIN is
   checked. */
static size_t headings_with(const char *request, const char *vin)
{
    size_t at, found = 0;
    for (at = 0; at < used; at++) {
        comaltzex_part part = comaltzex_lookup(book, used, at, (const uint8_t *)"REQUEST", 7);
        if (part.number != COMALTZEX_OK || part.end - part.start != strlen(request) ||
            memcmp(book + part.start, request, strlen(request)) != 0)
            continue;
        found++;
        part = comaltzex_lookup(book, used, at, (const uint8_t *)"VIN", 3);
        check("the VIN of the accepted call", part.number, COMALTZEX_OK);
        check("the VIN of the accepted call", part.end - part.start, strlen(vin));
        check(vin, memcmp(book + part.start, vin, strlen(vin)) == 0, 1);
    }
    return found;
}

/* A run of calls, double clicks and other refused ones among them. */
static void runs(void)
{
    static const char text[] = "* A\n" DRAWER("r0") "* B\n\n" DRAWER("r7") "** C\nx\n* D\n:x:\ny";
    char request[sizeof("r99")], vin[sizeof("v99")];
    comaltzex_part first[sizeof(text)];
    size_t i;
    lend(text, sizeof(text) - 1);
    for (i = 0; i < sizeof(text); i++)
        first[i] = comaltzex_lookup(book, used, i, (const uint8_t *)"VIN", 3);
    for (i = 1; i < 30; i++) {
        sprintf(request, "r%u", (unsigned)i);
        sprintf(vin, "v%u", (unsigned)i);
        make(request, vin);
        check_taken("a new request", ROOM);
        make(request, "another");
        check_order_refused_in_any("its second click", COMALTZEX_SEEN);
        make("r0", vin);
        check_order_refused_in_any("the first heading's request", COMALTZEX_SEEN);
        make(request, "");
        check_order_refused_in_any("no VIN", COMALTZEX_MISSING_KEY);
    }
    for (i = 1; i < 30; i++) {
        sprintf(request, "r%u", (unsigned)i);
        sprintf(vin, "v%u", (unsigned)i);
        check("at one heading only", headings_with(request, vin), 1);
    }
    check("the first heading", headings_with("r0", "7"), 1);
    for (i = 0; i < sizeof(text) - 1; i++) {
        const comaltzex_part now = comaltzex_lookup(book, used, i, (const uint8_t *)"VIN", 3);
        check("looked up as before", now.number, first[i].number);
        check("looked up as before", now.start, first[i].start);
        check("looked up as before", now.end, first[i].end);
        check("looked up as before", now.further, first[i].further);
    }
}

/* A book that a reading refuses with 2, and one with every byte. */
static void odd_books(void)
{
    struct bytes *deep = &logged;
    char line[sizeof("#+begin_33\n")];
    int i;
    deep->length = 0;
    for (i = 1; i <= 33; i++)
        put(deep, line, (size_t)sprintf(line, "#+begin_%d\n", i));
    for (i = 33; i >= 1; i--)
        put(deep, line, (size_t)sprintf(line, "#+end_%d\n", i));
    make("r1", "7");
    lend(deep->at, deep->length);
    check("33 deep", comaltzex_read(book, used, (uint32_t *)before, 0).number, COMALTZEX_TOO_DEEP);
    check_taken("33 deep", ROOM);
    check_order_refused_in_any("33 deep again", COMALTZEX_SEEN);
    for (i = 0; i < 256; i++) {
        const char last[] = {'x', (char)i};
        lend(last, 2);
        check_taken("every last byte", ROOM);
    }
}

/* Makes a log of good and refused orders, and in `before` what the single calls leave. Gives their
   bytes in use. */
static size_t make_log(const char *text, size_t room)
{
    static const struct parts bad = {"T", "REQUEST", "r9 ", "VIN", "7"};
    logged.length = 0;
    make("r1", "1");
    add_to_log();
    make("r0", "2");
    add_to_log();
    make_parts(bad);
    add_to_log();
    order.length = 0;
    add_to_log();
    make("r2", "3");
    add_to_log();
    make("r1", "4");
    add_to_log();
    make("r3", "");
    add_to_log();
    make_long("r5");
    add_to_log();
    make("r3", "5");
    add_to_log();
    lend_text(text);
    make("r1", "1");
    check_taken("the first of the log", room);
    make("r2", "3");
    check_taken("the second", room);
    make("r3", "5");
    check_taken("the third", room);
    memcpy(before, memory, sizeof(memory));
    return used;
}

static void logs(void)
{
    static const char *const books[] = {"* A\n" DRAWER("r0"), "* A\n" DRAWER("r0") "x",
                                        "x\n** A\n:PROPERTIES:\n:Request: r0\n:END:"};
    size_t i, end;
    for (i = 0; i < LENGTH(books); i++) {
        end = make_log(books[i], ROOM);
        lend_text(books[i]);
        check_log("a log", logged.at, logged.length, ROOM, COMALTZEX_OK, end);
        check_log("a log again", logged.at, logged.length, ROOM, COMALTZEX_OK, end);
        check("r1 once", headings_with("r1", "1"), 1);
        check("r2 once", headings_with("r2", "3"), 1);
        check("r3 once", headings_with("r3", "5"), 1);
        lend_text(books[i]);
        check_log("a log with just enough room", logged.at, logged.length, end, COMALTZEX_OK, end);
        check_log("a log again without room", logged.at, logged.length, end, COMALTZEX_OK, end);
    }
}

/* Where an order has no room a smaller one may have; a second play changes nothing even so. */
static void logs_without_room(void)
{
    size_t end;
    logged.length = 0;
    make_sized("r1", 300);
    add_to_log();
    make_sized("r2", 100);
    add_to_log();
    make_sized("r3", 101);
    add_to_log();
    lend_text("x");
    make_sized("r2", 100);
    check_taken("the small order", 202);
    memcpy(before, memory, sizeof(memory));
    end = used;
    lend_text("x");
    check_log("a small order after a big one", logged.at, logged.length, 202, COMALTZEX_OK, end);
    check_log("the same again", logged.at, logged.length, 202, COMALTZEX_OK, end);
}

/* Logs in which no order is taken in: they answer 0. */
static void logs_of_nothing(void)
{
    static const char text[] = "* A\n" DRAWER("r1") "x";
    lend(text, sizeof(text) - 1);
    memcpy(before, memory, sizeof(memory));
    check_log("no orders", "", 0, ROOM, COMALTZEX_OK, used);
    check_log("no orders and no room", "", 0, 0, COMALTZEX_OK, used);
    check_log("an order of no bytes", SIZED("\0\0\0\0"), ROOM, COMALTZEX_OK, used);
    check_log("two of them", SIZED("\0\0\0\0\0\0\0\0"), ROOM, COMALTZEX_OK, used);
    logged.length = 0;
    make("r1", "8");
    add_to_log();
    check_log("a second click", logged.at, logged.length, ROOM, COMALTZEX_OK, used);
    make("r2", "8");
    add_to_log();
    check_log("no room", logged.at, logged.length, used, COMALTZEX_OK, used);
    check_log("bytes in use over the buffer", logged.at, logged.length, used - 1, COMALTZEX_OK,
              used);
    used = COMALTZEX_TEXT_LIMIT + 1;
    check_log("bytes in use over 65,536", logged.at, logged.length, ROOM, COMALTZEX_OK, used);
}

/* Every log that is cut where no order ends, and lengths that say too much. */
static void cut_logs(void)
{
    size_t length, whole = 0;
    logged.length = 0;
    make("r1", "7");
    add_to_log();
    whole = logged.length;
    make("r2", "8");
    add_to_log();
    lend_text("* A\nx");
    memcpy(before, memory, sizeof(memory));
    for (length = 1; length < logged.length; length++)
        if (length != whole)
            check_log("a cut log", logged.at, length, ROOM, COMALTZEX_CUT_LOG, used);
    put_byte(&logged, 0);
    check_log("one byte more", logged.at, logged.length, ROOM, COMALTZEX_CUT_LOG, used);
    logged.length--;
    check_log("a cut log without room", logged.at, logged.length - 1, 0, COMALTZEX_CUT_LOG, used);
    logged.at[whole + 1] = 1;
    check_log("256 bytes too many", logged.at, logged.length, ROOM, COMALTZEX_CUT_LOG, used);
    logged.at[whole + 1] = 0;
    logged.at[whole + 2] = 1;
    check_log("65,536 bytes too many", logged.at, logged.length, ROOM, COMALTZEX_CUT_LOG, used);
    logged.at[whole + 2] = 0;
    logged.at[whole + 3] = 1;
    check_log("16,777,216 bytes too many", logged.at, logged.length, ROOM, COMALTZEX_CUT_LOG, used);
    memset(logged.at + whole, 0xFF, 4);
    check_log("as many as can be said", logged.at, logged.length, ROOM, COMALTZEX_CUT_LOG, used);
    check_log("the length alone", logged.at + whole, 4, ROOM, COMALTZEX_CUT_LOG, used);
}

int main(void)
{
    check("size of an answer", sizeof(comaltzex_taken), 16);
    memset(filler, 'x', sizeof(filler));
    taken_samples();
    sent_sample();
    bad_orders();
    missing_keys();
    keys_that_will_do();
    bytes_in_use();
    seen_requests();
    unseen_requests();
    nearly_seen();
    book_limits();
    room_limits();
    turns();
    runs();
    odd_books();
    logs();
    logs_without_room();
    logs_of_nothing();
    cut_logs();
    return all_passed("intake");
}
