/*
 * The C interface of document 02's order 4: lists and items.
 */
#include "check.h"
#include "comaltzex.h"
#include "nest.h"
#include "read.h"

#include <string.h>

static const char PARTS[] = "Parts:\n- [X] pump\n  1. [@3] seal\n  2. ring\n     of steel\n\n- hose\n"
                            "\nEnd\n";

static const uint32_t PARTS_TABLE[] = {
    1,  0,  70, 0,  70, 0,  0, 0, /* document */
    3,  0,  70, 0,  70, 0,  0, 0, /* section */
    16, 0,  7,  0,  7,  1,  0, 0, /* Parts: */
    17, 7,  66, 7,  65, 1,  2, 1, /* list; the blank line after it is its own */
    18, 7,  58, 13, 57, 3,  0, 1, /* [X]; the blank line before the next item is its own */
    16, 13, 18, 13, 18, 4,  0, 1, /* pump, in mid-line */
    17, 18, 57, 18, 57, 4,  1, 2, /* numbered list */
    18, 18, 33, 28, 33, 6,  0, 2, /* [@3] */
    16, 28, 33, 28, 33, 7,  0, 2, /* seal */
    18, 33, 57, 38, 57, 6,  0, 3, /* 2. */
    16, 38, 57, 38, 57, 9,  0, 3, /* ring of steel, on two lines */
    18, 58, 65, 60, 65, 3,  0, 6, /* - */
    16, 60, 65, 60, 65, 11, 0, 6, /* hose */
    16, 66, 70, 66, 70, 1,  0, 8  /* End */
};

/* A table with a row that is indented less; a drawer with two blank lines. */
static const char HELD[] = "+ [-] box\r\n  | r\n| q\n\n+\n  :D:\n\n\n  :END:\n";

static const uint32_t HELD_TABLE[] = {
    1,  0,  40, 0,  40, 0, 0, 0, /* document */
    3,  0,  40, 0,  40, 0, 0, 0, /* section */
    17, 0,  40, 0,  40, 1, 2, 0, /* list */
    18, 0,  22, 6,  21, 2, 0, 0, /* [-] */
    16, 6,  11, 6,  11, 3, 0, 0, /* box */
    10, 11, 21, 11, 21, 3, 0, 1, /* table */
    11, 11, 17, 13, 16, 5, 0, 1, /* r */
    11, 17, 21, 17, 20, 5, 0, 2, /* q */
    18, 22, 40, 23, 40, 2, 0, 4, /* no text: the inner span starts at byte 10 */
    7,  24, 40, 30, 32, 8, 0, 5  /* drawer */
};

/* What the one section of a text holds: kinds, the rest 0. */
struct sample {
    const char *what;
    const char *text;
    uint32_t kinds[8];
};

static char book[COMALTZEX_TEXT_LIMIT];

static void whole_tables(void)
{
    const size_t parts = LENGTH(PARTS_TABLE), held = LENGTH(HELD_TABLE);
    check_read("parts list", PARTS, sizeof(PARTS) - 1, LENGTH(table), COMALTZEX_OK, 14);
    check_table("parts list's table", PARTS_TABLE, parts);
    check_read("parts list, exact room", PARTS, sizeof(PARTS) - 1, parts, COMALTZEX_OK, 14);
    check_read("parts list, a number less", PARTS, sizeof(PARTS) - 1, parts - 1, COMALTZEX_NO_ROOM,
               14);
    check_read("items that hold more", HELD, sizeof(HELD) - 1, held, COMALTZEX_OK, 10);
    check_table("table of items that hold more", HELD_TABLE, held);
}

static void check_samples(const struct sample *samples, size_t count)
{
    size_t i, length;
    for (i = 0; i < count; i++) {
        const struct sample *sample = &samples[i];
        uint32_t kinds[2 + LENGTH(sample->kinds)] = {COMALTZEX_DOCUMENT, COMALTZEX_SECTION};
        memcpy(kinds + 2, sample->kinds, sizeof(sample->kinds));
        for (length = 2; length < LENGTH(kinds) && kinds[length] != 0; length++)
            ;
        check_read(sample->what, sample->text, strlen(sample->text), LENGTH(table), COMALTZEX_OK,
                   length);
        check_field(sample->what, COMALTZEX_FIELD_KIND, kinds, length);
    }
}

#define ONE_ITEM COMALTZEX_LIST, COMALTZEX_ITEM, COMALTZEX_PARAGRAPH
#define NEXT_ITEM COMALTZEX_ITEM, COMALTZEX_PARAGRAPH

static void kinds_of_texts(void)
{
    static const struct sample samples[] = {
        {"a bullet", "- a\n", {ONE_ITEM}},
        {"a bullet alone", "1)", {COMALTZEX_LIST, COMALTZEX_ITEM}},
        {"no blank after it", "-a\n", {COMALTZEX_PARAGRAPH}},
        {"an indented star", " * a\n", {ONE_ITEM}},
        {"a rule is none", "-----\n", {COMALTZEX_HORIZONTAL_RULE}},
        {"a year", "of\n1984. x\n", {COMALTZEX_PARAGRAPH, ONE_ITEM}},
        {"a letter", "and\nI. x\n", {COMALTZEX_PARAGRAPH, ONE_ITEM}},
        {"two letters", "and\nII. x\n", {COMALTZEX_PARAGRAPH}},
        {"one list", "- a\n1. b\n", {ONE_ITEM, NEXT_ITEM}},
        {"a list in a list", "- a\n - b\n", {ONE_ITEM, ONE_ITEM}},
        {"lists side by side", " - a\n- b\n", {ONE_ITEM, ONE_ITEM}},
        {"a tab counts 8", "\t- a\n        - b\n", {ONE_ITEM, NEXT_ITEM}},
        {"a blank line", "- a\n\n- b\n", {ONE_ITEM, NEXT_ITEM}},
        {"two blank lines", "- a\n\n\n- b\n", {ONE_ITEM, ONE_ITEM}},
        {"an opener on the first line", "- #+begin_x\n  #+end_x\n", {ONE_ITEM}},
        {"a block", "- a\n  #+begin_x\nb\n#+end_x\n",
         {ONE_ITEM, COMALTZEX_GREATER_BLOCK, COMALTZEX_PARAGRAPH}},
        {"an open block", "- a\n  #+begin_x\nb\n", {ONE_ITEM, COMALTZEX_PARAGRAPH}},
        {"a closer below the list", "- a\n  #+begin_x\n- b\n\n\nc\n#+end_x\n",
         {ONE_ITEM, COMALTZEX_GREATER_BLOCK, ONE_ITEM, COMALTZEX_PARAGRAPH}},
        {"comments end with the item", "- a\n  # c\n# d\n",
         {ONE_ITEM, COMALTZEX_COMMENT, COMALTZEX_COMMENT}}};
    check_samples(samples, LENGTH(samples));
}

static void details(void)
{
    static const char text[] = "- a\n1. b\n\n\n1. c\n- d\n\n\na)\n";
    static const uint32_t kinds[] = {COMALTZEX_DOCUMENT, COMALTZEX_SECTION, ONE_ITEM, NEXT_ITEM,
                                     ONE_ITEM, NEXT_ITEM, COMALTZEX_LIST, COMALTZEX_ITEM};
    static const uint32_t wanted[] = {0, 0, 2, 0, 0, 0, 0, 1, 0, 0, 0, 0, 1, 0};
    check_read("details", text, sizeof(text) - 1, LENGTH(table), COMALTZEX_OK, LENGTH(kinds));
    check_field("kinds beside the details", COMALTZEX_FIELD_KIND, kinds, LENGTH(kinds));
    check_field("details", COMALTZEX_FIELD_DETAIL, wanted, LENGTH(wanted));
}

static void depth_limit(void)
{
    size_t length = nest_lists(book, 32, 0, "");
    check_read("32 lists", book, length, LENGTH(table), COMALTZEX_OK, 2 + 3 * 32);
    length = nest_lists(book, 33, 0, "");
    check_read("33 lists", book, length, LENGTH(table), COMALTZEX_TOO_DEEP, 0);
    check_read("33 lists, no room", book, length, 0, COMALTZEX_TOO_DEEP, 0);
    length = nest_lists(book, 32, 1, "");
    check_read("32 lists and blocks", book, length, LENGTH(table), COMALTZEX_OK, 2 + 3 * 16 + 16);
    length = nest_lists(book, 33, 1, "");
    check_read("33 lists and blocks", book, length, LENGTH(table), COMALTZEX_TOO_DEEP, 0);
}

int main(void)
{
    whole_tables();
    kinds_of_texts();
    details();
    depth_limit();
    return all_passed("lists");
}
