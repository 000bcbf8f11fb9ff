/*
 * The C interface of document 02's order 5: an order is written as its sheet.
 */
#include "check.h"
#include "comaltzex.h"
#include "order.h"
#include "read.h"
#include "sheet.h"

#include <stdio.h>
#include <string.h>

#define SIZED(literal) literal, sizeof(literal) - 1

/* An order in so much room, and its answer. */
struct sample {
    const char *what;
    const char *order;
    size_t length;
    size_t room;
    comaltzex_written answer;
    const char *sheet;
};

/* An order that is refused. */
struct refused {
    const char *what;
    const char *order;
    size_t length;
    uint32_t number;
};

/* A title and two pairs. */
struct parts {
    const char *title;
    const char *key;
    const char *value;
    const char *second_key;
    const char *second_value;
};

static char filler[COMALTZEX_TEXT_LIMIT];

static void make(struct parts parts)
{
    start_order(parts.title, strlen(parts.title));
    add_pair(parts.key, parts.value, strlen(parts.value));
    add_pair(parts.second_key, parts.second_value, strlen(parts.second_value));
    end_order();
}

/* Checks that an order is written, and read back from its sheet. */
static void check_parts(const char *what, struct parts parts)
{
    make(parts);
    check_written(what);
    check_reads(what, 2);
    check_value(parts.key, parts.value, strlen(parts.value));
    check_value(parts.second_key, parts.second_value, strlen(parts.second_value));
}

static void check_parts_refused(const char *what, struct parts parts, uint32_t number)
{
    make(parts);
    check_order_refused(what, number);
}

static void written_samples(void)
{
    static const struct sample samples[] = {
        {"what is past the sheet stays",
         SIZED("\001\000T\001\003VIN\001\0007"),
         40,
         {COMALTZEX_OK, 31},
         "* T\n:PROPERTIES:\n:VIN: 7\n:END:\n"},
        {"one byte too little",
         SIZED("\001\000T\001\003VIN\001\0007"),
         30,
         {COMALTZEX_SHORT_OUTPUT, 31},
         ""},
        {"empty title, no pairs",
         SIZED("\000\000\000"),
         22,
         {COMALTZEX_OK, 22},
         "* \n:PROPERTIES:\n:END:\n"},
        {"pairs in turn; blank inside a value",
         SIZED("\003\000a b\002\001B\003\000x y\001A\001\000:"),
         50,
         {COMALTZEX_OK, 39},
         "* a b\n:PROPERTIES:\n:B: x y\n:A: :\n:END:\n"},
        {"colons and a leading plus in a key",
         SIZED("\001\000T\002\003a:b\001\0001\002+c\001\0002"),
         50,
         {COMALTZEX_OK, 38},
         "* T\n:PROPERTIES:\n:a:b: 1\n:+c: 2\n:END:\n"},
        {"16 pairs",
         SIZED("\001\000T\020\0010\000\000\0011\000\000\0012\000\000\0013\000\000\0014\000\000"
               "\0015\000\000\0016\000\000\0017\000\000\0018\000\000\0019\000\000\001a\000\000"
               "\001b\000\000\001c\000\000\001d\000\000\001e\000\000\001f\000\000"),
         200,
         {COMALTZEX_OK, 87},
         "* T\n:PROPERTIES:\n:0:\n:1:\n:2:\n:3:\n:4:\n:5:\n:6:\n:7:\n:8:\n:9:\n:a:\n:b:\n:c:\n"
         ":d:\n:e:\n:f:\n:END:\n"}};
    size_t i;
    for (i = 0; i < LENGTH(samples); i++)
        check_call(samples[i].what, samples[i].order, samples[i].length, samples[i].room,
                   samples[i].answer, samples[i].sheet);
}

static void refused_samples(void)
{
    static const struct refused samples[] = {
        {"title cut", SIZED("\005\000abc"), COMALTZEX_BAD_ORDER},
        {"value cut", SIZED("\001\000T\001\001A\002\0001"), COMALTZEX_BAD_ORDER},
        {"one byte too long", SIZED("\001\000T\000x"), COMALTZEX_BAD_ORDER},
        {"byte 13 in a value", SIZED("\001\000T\001\001A\003\000a\rb"), COMALTZEX_BAD_TEXT},
        {"space before the title", SIZED("\002\000 T\000"), COMALTZEX_BAD_TEXT},
        {"empty key", SIZED("\001\000T\001\000\001\000x"), COMALTZEX_BAD_NAME},
        {"key ends in plus", SIZED("\001\000T\001\002a+\001\000x"), COMALTZEX_BAD_NAME},
        {"key of 65 bytes",
         SIZED("\001\000T\001\101aaaaaaaaaaaaaaaaaaaaaaaaaaaaaaaaaaaaaaaaaaaaaaaaaaaaaaaaaaaaaaaaa"
               "\001\000x"),
         COMALTZEX_BAD_NAME},
        {"END in any case", SIZED("\001\000T\001\003eNd\001\000x"), COMALTZEX_BAD_NAME},
        {"13 in the last value before 14 in the first key",
         SIZED("\001\000T\002\000\001\000x\001A\001\000 "),
         COMALTZEX_BAD_TEXT},
        {"14 before 15",
         SIZED("\001\000T\003\001A\000\000\001a\000\000\003END\000\000"),
         COMALTZEX_BAD_NAME}};
    size_t i;
    for (i = 0; i < LENGTH(samples); i++)
        check_refused(samples[i].what, samples[i].order, samples[i].length, samples[i].number);
}

/* The whole table of the first sample's sheet. */
static void table_of_a_sheet(void)
{
    static const uint32_t wanted[] = {
        1, 0,  31, 0,  31, 0, 0, 0, /* document */
        2, 0,  31, 4,  31, 0, 1, 0, /* heading */
        3, 4,  31, 4,  31, 1, 0, 1, /* section */
        5, 4,  31, 17, 25, 2, 0, 1, /* property drawer */
        6, 17, 25, 23, 24, 3, 0, 2  /* node property */
    };
    start_order("T", 1);
    add_pair("VIN", "7", 1);
    end_order();
    check_written("first sample");
    check_reads("first sample", 1);
    check_table("first sample", wanted, LENGTH(wanted));
}

/* Every order that is cut, wherever that is, and one that goes on. */
static void other_lengths(void)
{
    const struct parts parts = {"Title", "VIN", "77", "Fuel", ""};
    size_t length;
    make(parts);
    check_written("the whole order");
    for (length = 0; length < order.length; length++)
        check_refused("order cut", order.at, length, COMALTZEX_BAD_ORDER);
    put_byte(&order, 0);
    check_order_refused("order too long", COMALTZEX_BAD_ORDER);
}

/* Starts an order of this title and so many pairs of the same value. */
static void start_pairs(size_t title_len, unsigned char pairs, const char *value, size_t length)
{
    char key[sizeof("Key255")];
    unsigned char i;
    start_order(filler, title_len);
    for (i = 0; i < pairs; i++) {
        sprintf(key, "Key%u", i);
        add_pair(key, value, length);
    }
}

static void pair_limit(void)
{
    start_pairs(1, COMALTZEX_PAIR_LIMIT, "7", 1);
    end_order();
    check_written("16 pairs");
    check_reads("16 pairs", 16);
    check_value("Key0", "7", 1);
    check_value("Key15", "7", 1);
    start_pairs(1, COMALTZEX_PAIR_LIMIT + 1, "7", 1);
    check_order_refused("17 pairs", COMALTZEX_BAD_ORDER);
    start_pairs(0, 255, "", 0);
    check_order_refused("255 pairs", COMALTZEX_BAD_ORDER);
    check_refused("17 pairs, of which none follows", "\000\000\021", 3, COMALTZEX_BAD_ORDER);
}

/* Titles and values that would mean something on a line of their own, and any other bytes. */
static void good_texts(void)
{
    static const char *const texts[] = {
        "",          ":END:",          ":PROPERTIES:", "* x",     "** x", "#+begin_src",
        "#+end_src", "- x",            "| x |",        ":VIN: 8", "# x",  "-----",
        "\013",      "CLOSED: [2026]", "a\tb  c",      "\014a",   "\001", "\177\200\377"};
    size_t i;
    for (i = 0; i < LENGTH(texts); i++) {
        const struct parts parts = {texts[i], "VIN", texts[i], "fuel", "98"};
        const struct parts reversed = {"T", "PROPERTIES", "", "a:B", texts[i]};
        check_parts(texts[i], parts);
        check_parts(texts[i], reversed);
    }
}

/* Every byte by itself: blank bytes and byte 10 are refused, byte 0 and all others are not. */
static void every_byte(void)
{
    int byte;
    for (byte = 0; byte < 256; byte++) {
        const char text[] = {(char)byte};
        start_order(text, 1);
        add_pair("VIN", text, 1);
        end_order();
        if (byte == 9 || byte == 10 || byte == 13 || byte == 32) {
            check_order_refused("a byte that is refused", COMALTZEX_BAD_TEXT);
        } else {
            check_written("a byte that is written");
            check_reads("a byte that is written", 1);
            check_value("VIN", text, 1);
        }
    }
}

static void bad_texts(void)
{
    static const char *const texts[] = {"\n",  "\r",  " ",  "\t",  "a\nb", "a\rb", "a\n",
                                        "\na", "a\r", "\ra", " a", "a ",   "\ta",  "a\t"};
    size_t i;
    for (i = 0; i < LENGTH(texts); i++) {
        const struct parts title = {texts[i], "A", "1", "B", "2"};
        const struct parts first = {"T", "A", texts[i], "B", "2"};
        const struct parts last = {"T", "A", "1", "B", texts[i]};
        check_parts_refused("bad title", title, COMALTZEX_BAD_TEXT);
        check_parts_refused("bad first value", first, COMALTZEX_BAD_TEXT);
        check_parts_refused("bad last value", last, COMALTZEX_BAD_TEXT);
    }
}

static void bad_names(void)
{
    static const char *const keys[] = {"",      "+",    "VIN+", "V N", " V",  "V ", "V\tN",
                                       "V\rN", "V\nN", "END",  "end", "End", "eND"};
    size_t i;
    for (i = 0; i < LENGTH(keys); i++) {
        const struct parts first = {"T", keys[i], "1", "B", "2"};
        const struct parts last = {"T", "A", "1", keys[i], ""};
        check_parts_refused("bad first key", first, COMALTZEX_BAD_NAME);
        check_parts_refused("bad last key", last, COMALTZEX_BAD_NAME);
    }
}

static void key_limit(void)
{
    char key[COMALTZEX_KEY_LIMIT + 2];
    struct parts parts = {"T", "A", "1", key, "2"};
    memset(key, 'k', sizeof(key) - 1);
    key[sizeof(key) - 1] = '\0';
    check_parts_refused("key of 65 bytes", parts, COMALTZEX_BAD_NAME);
    parts.second_key = key + 1;
    check_parts("key of 64 bytes", parts);
}

static void repeated_keys(void)
{
    static const char *const keys[][2] = {
        {"VIN", "VIN"}, {"vin", "VIN"}, {"z", "Z"}, {"a:B", "A:b"}, {"Aa", "aA"}};
    size_t i;
    for (i = 0; i < LENGTH(keys); i++) {
        const struct parts parts = {"T", keys[i][0], "1", keys[i][1], "2"};
        check_parts_refused(keys[i][0], parts, COMALTZEX_REPEATED_KEY);
    }
    start_pairs(1, COMALTZEX_PAIR_LIMIT - 1, "7", 1);
    add_pair("kEY0", "", 0);
    check_order_refused("the first key again", COMALTZEX_REPEATED_KEY);
}

/* Only ASCII letters have a case: what is 32 apart elsewhere differs. */
static void other_keys(void)
{
    static const char *const keys[][2] = {{"VIN", "VINS"},  {"VIN", "VI"},  {"[", "{"},
                                          {"@", "`"},       {"^", "~"},     {"1", "\021"},
                                          {"\304", "\344"}, {"ENDE", "EN"}, {"+A", "A"}};
    size_t i;
    for (i = 0; i < LENGTH(keys); i++) {
        const struct parts parts = {"T", keys[i][0], "1", keys[i][1], "2"};
        check_parts(keys[i][0], parts);
    }
}

/* Orders that deserve two refusals, or more. */
static void turns(void)
{
    const struct parts text_and_name = {"T", "", "x", "A", " "};
    const struct parts title_and_name = {"T ", "END", "x", "A", "a"};
    const struct parts text_and_repeated = {"T", "A", "1", "a", "2\r"};
    make(text_and_name);
    put_byte(&order, 'x');
    check_order_refused("12 before 13 and 14", COMALTZEX_BAD_ORDER);
    start_pairs(1, COMALTZEX_PAIR_LIMIT + 1, "\n", 1);
    check_order_refused("over 16 pairs before 13", COMALTZEX_BAD_ORDER);
    check_refused("a cut value before 13", "\001\000\n\001\001A\001\000", 8, COMALTZEX_BAD_ORDER);
    check_parts_refused("13 before 14", text_and_name, COMALTZEX_BAD_TEXT);
    check_parts_refused("13 of the title before 14", title_and_name, COMALTZEX_BAD_TEXT);
    check_parts_refused("13 before 15", text_and_repeated, COMALTZEX_BAD_TEXT);
    start_pairs(1, 2, "7", 1);
    add_pair("KEY0", "", 0);
    add_pair("A+", "", 0);
    check_order_refused("14 before 15", COMALTZEX_BAD_NAME);
}

/* A sheet that is too long, and what comes before that; no room is lent in some calls. */
static void turns_of_long_sheets(void)
{
    const size_t length = sizeof(filler) - 1;
    start_order(filler, length);
    check_order_refused("1 before 16", COMALTZEX_TOO_LONG);
    add_pair("A", "1", 1);
    check_order_refused("1 of a title of 65,535 bytes", COMALTZEX_TOO_LONG);
    add_pair("a", "2", 1);
    check_order_refused("15 before 1", COMALTZEX_REPEATED_KEY);
    add_pair("end", "3", 1);
    check_order_refused("14 before 15 and 1", COMALTZEX_BAD_NAME);
    add_pair("B", "4\t", 2);
    check_order_refused("13 before 14, 15 and 1", COMALTZEX_BAD_TEXT);
    put_byte(&order, 'x');
    check_order_refused("12 before all", COMALTZEX_BAD_ORDER);
}

static void low_byte_first(void)
{
    static const size_t lengths[] = {255, 256, 257, 258, 513};
    size_t i;
    for (i = 0; i < LENGTH(lengths); i++) {
        start_order(filler, lengths[i]);
        add_pair("A", filler, lengths[i] + 1);
        add_pair("B", "2", 1);
        end_order();
        check_written("lengths of two bytes");
        check_value("A", filler, lengths[i] + 1);
        check_value("B", "2", 1);
    }
    start_order(filler, 258);
    check("low byte of 258", order.at[0], 2);
    check("high byte of 258", order.at[1], 1);
}

static void sheet_limit(void)
{
    const size_t longest = COMALTZEX_TEXT_LIMIT - BARE;
    const size_t longest_value = longest - strlen(":VIN: \n");
    start_order(filler, longest);
    end_order();
    check("65,536 bytes", sheet.length, COMALTZEX_TEXT_LIMIT);
    check_written("65,536 bytes by the title");
    check_reads("65,536 bytes by the title", 0);
    start_order(filler, longest + 1);
    check_order_refused("65,537 bytes by the title", COMALTZEX_TOO_LONG);

    start_order("", 0);
    add_pair("VIN", filler, longest_value);
    end_order();
    check_written("65,536 bytes by a value");
    check_value("VIN", filler, longest_value);
    start_order("", 0);
    add_pair("VIN", filler, longest_value + 1);
    check_order_refused("65,537 bytes by a value", COMALTZEX_TOO_LONG);
}

/* Makes an order of 15 pairs of long values and an empty one. */
static void make_long(size_t title_len)
{
    start_pairs(title_len, COMALTZEX_PAIR_LIMIT - 1, filler, 4300);
    add_pair("Last", "", 0);
    end_order();
}

static void sheet_limit_of_pairs(void)
{
    size_t rest;
    make_long(0);
    rest = COMALTZEX_TEXT_LIMIT - sheet.length;
    make_long(rest);
    check_written("65,536 bytes by pairs");
    check_reads("65,536 bytes by pairs", 16);
    check_value("Key14", filler, 4300);
    check_value("Last", "", 0);
    make_long(rest + 1);
    check_order_refused("65,537 bytes by pairs", COMALTZEX_TOO_LONG);
}

int main(void)
{
    check("size of an answer", sizeof(comaltzex_written), 16);
    memset(filler, 'x', sizeof(filler));
    written_samples();
    refused_samples();
    table_of_a_sheet();
    other_lengths();
    pair_limit();
    good_texts();
    every_byte();
    bad_texts();
    bad_names();
    key_limit();
    repeated_keys();
    other_keys();
    turns();
    turns_of_long_sheets();
    low_byte_first();
    sheet_limit();
    sheet_limit_of_pairs();
    return all_passed("sheets");
}
