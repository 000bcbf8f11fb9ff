/*
 * The C interface of document 02's order 9: the headings of a book that comes in pieces. What is
 * wanted is computed from the bytes of the whole book, with no state.
 */
#define _DEFAULT_SOURCE

#include "check.h"
#include "comaltzex.h"
#include "stream.h"

#include <stddef.h>
#include <string.h>
#include <sys/mman.h>

#define TEXT(literal) (const uint8_t *)literal, sizeof(literal) - 1

/* A book, its headings and the state that it leaves. */
struct sample {
    const char *text;
    uint32_t headings[9];
    size_t count;
    comaltzex_stream state;
};

static uint8_t book[COMALTZEX_TEXT_LIMIT + 1];

static comaltzex_stream numbers(uint32_t total, uint32_t line, uint32_t stars, uint32_t title)
{
    const comaltzex_stream made = {total, line, stars, title, 0};
    return made;
}

static void layout(void)
{
    check("size of a state", sizeof(comaltzex_stream), 20);
    check("size of an answer", sizeof(comaltzex_streamed), 32);
    check("an answer's number", offsetof(comaltzex_streamed, number), 20);
    check("an answer's count", offsetof(comaltzex_streamed, count), 24);
    check_state("a new state", comaltzex_stream_new(), numbers(0, 0, 0, 0));
}

/* Headings and states by hand, the end's heading among them. */
static void samples(void)
{
    static const struct sample all[] = {
        {"", {0}, 0, {0, 0, 0, 0, 1}},
        {"\n", {0}, 0, {1, 0, 0, 0, 1}},
        {"* A\n", {0, 1, 1}, 1, {4, 0, 0, 0, 1}},
        {"* A", {0, 1, 1}, 1, {3, 3, 1, 1, 1}},
        {"* ", {0, 1, 0}, 1, {2, 2, 1, 0, 1}},
        {"*", {0}, 0, {1, 1, 1, 0, 1}},
        {"***", {0}, 0, {3, 3, 3, 0, 1}},
        {"***\n", {0}, 0, {4, 0, 0, 0, 1}},
        {"*A", {0}, 0, {2, 2, 0, 0, 1}},
        {"*\tA\n", {0}, 0, {4, 0, 0, 0, 1}},
        {" * A", {0}, 0, {4, 4, 0, 0, 1}},
        {"x\n** B \t\r\n*** c d", {2, 2, 1, 10, 3, 3}, 2, {17, 7, 3, 3, 1}},
        {"*   x  ", {0, 1, 3}, 1, {7, 7, 1, 3, 1}},
        {"*  \t\r\n", {0, 1, 0}, 1, {6, 0, 0, 0, 1}},
        {"* a*\n* *\n* ** x", {0, 1, 2, 5, 1, 1, 9, 1, 4}, 3, {15, 6, 1, 4, 1}},
        {"* \n* \n* ", {0, 1, 0, 3, 1, 0, 6, 1, 0}, 3, {8, 2, 1, 0, 1}},
        {"* a\r\rb \r\n", {0, 1, 4}, 1, {9, 0, 0, 0, 1}},
        {"x* A\nx** B\n", {0}, 0, {11, 0, 0, 0, 1}}};
    size_t i;
    for (i = 0; i < LENGTH(all); i++) {
        const uint8_t *bytes = (const uint8_t *)all[i].text;
        const size_t length = strlen(all[i].text);
        comaltzex_streamed seen;
        lend(9);
        seen = comaltzex_stream_piece(comaltzex_stream_new(), bytes, length, list, 9);
        check(all[i].text, seen.number, COMALTZEX_OK);
        memcpy(before + GUARD, all[i].headings, SIZE * all[i].count * sizeof(*before));
        if (seen.count < all[i].count) {
            const size_t count = seen.count;
            seen = comaltzex_stream_end(seen.state, list + SIZE * count, 9 - SIZE * count);
            seen.count += count;
        } else {
            seen = comaltzex_stream_end(seen.state, list, 0);
            seen.count += all[i].count;
        }
        check_answer(all[i].text, seen, COMALTZEX_OK, all[i].count, all[i].state, 9);
    }
}

/* Books whose every split matters. */
static const char *const BOOKS[] = {"** A b\n",
                                    "***  t \t\r\nx\n* B",
                                    "x\n\n* \n** \n*\n",
                                    "* a \r",
                                    "*x\n *y\n* z\n",
                                    "**\t* a\n** a*\n",
                                    "* * *\n** ** ",
                                    "\r\n*  \r\n\r*",
                                    "* a\t\tb\t\n\n\n**",
                                    "* A\n:PROPERTIES:\n:VIN: 7\n:END:\n** n",
                                    "#+begin_src\n* A\n#+end_src\n",
                                    "* \303\226l \377\n* \0ab",
                                    "* a\013\n* b\014\n* c\240\n"};

/* In two and in three pieces, and each byte by itself, with empty pieces between. */
static void splits(void)
{
    size_t places[3 * 64], i, j, k;
    for (i = 0; i < LENGTH(BOOKS); i++) {
        const uint8_t *bytes = (const uint8_t *)BOOKS[i];
        const size_t length = strlen(BOOKS[i]);
        take_split("in one piece", bytes, length, places, 0);
        for (j = 0; j <= length; j++)
            for (k = j; k <= length; k++) {
                places[0] = j;
                places[1] = k;
                take_split("in three pieces", bytes, length, places, 2);
            }
        for (j = 0; j < length; j++)
            places[3 * j] = places[3 * j + 1] = places[3 * j + 2] = j;
        take_split("byte by byte, with empty pieces", bytes, length, places, 3 * length);
        for (j = 1; j < length; j++)
            take_pieces("in pieces of one length", bytes, length, j);
    }
    take_split("an empty book", (const uint8_t *)"", 0, places, 0);
}

/* The text of that number, of bytes that make a difference. */
static size_t make_text(uint8_t *text, size_t length, size_t number)
{
    static const char bytes[] = "* \na\t\r";
    size_t i;
    for (i = 0; i < length; i++) {
        text[i] = (uint8_t)bytes[number % (sizeof(bytes) - 1)];
        number /= sizeof(bytes) - 1;
    }
    return number;
}

/* Every text of up to six such bytes, whole, byte by byte, and in every two pieces. */
static void all_small_texts(void)
{
    uint8_t text[6];
    size_t length, number, place;
    for (length = 0; length <= sizeof(text); length++)
        for (number = 0; make_text(text, length, number) == 0; number++) {
            take_pieces("a small text, byte by byte", text, length, 1);
            for (place = 0; place < length; place++)
                take_split("a small text in two pieces", text, length, &place, 1);
        }
}

/* The states of a grid that texts of up to five bytes leave, each with such a text. */
#define SIDE 7
static struct {
    int is_left;
    uint8_t text[5];
} grid[SIDE][SIDE][SIDE][SIDE];

static void fill_grid(void)
{
    uint8_t text[5];
    size_t length, number;
    for (length = 0; length <= sizeof(text); length++)
        for (number = 0; make_text(text, length, number) == 0; number++) {
            const comaltzex_stream left = state_after(text, length);
            grid[left.total][left.line][left.stars][left.title].is_left = 1;
            memcpy(grid[left.total][left.line][left.stars][left.title].text, text, length);
        }
}

static void check_not_open(const char *what, comaltzex_stream from)
{
    size_t list_len;
    for (list_len = 0; list_len <= 3; list_len += 3) {
        check_piece_refused(what, from, "", 0, list_len, COMALTZEX_NOT_OPEN, 0);
        check_piece_refused(what, from, "\n", 1, list_len, COMALTZEX_NOT_OPEN, 0);
        check_piece_refused(what, from, "* A\n* B\n", 8, list_len, COMALTZEX_NOT_OPEN, 0);
        check_end_refused(what, from, list_len, COMALTZEX_NOT_OPEN, 0);
    }
}

/* A state that a text leaves goes on as the text does, with every byte after it. */
static void check_open(const uint8_t *text, comaltzex_stream from)
{
    uint8_t longer[6];
    size_t byte;
    memcpy(longer, text, from.total);
    for (byte = 0; byte < 256; byte++) {
        longer[from.total] = (uint8_t)byte;
        state = from;
        take_piece("every byte after a state", longer, from.total, from.total + 1);
        take_end("the end after every byte", longer, from.total + 1);
        check_not_open("ended", state);
    }
    state = from;
    take_end("the end after a state", longer, from.total);
    check_not_open("ended", state);
}

/* Small states: open exactly where a text leaves them. */
static void small_states(void)
{
    comaltzex_stream from;
    fill_grid();
    for (from.total = 0; from.total < SIDE - 1; from.total++)
        for (from.line = 0; from.line < SIDE; from.line++)
            for (from.stars = 0; from.stars < SIDE; from.stars++)
                for (from.title = 0; from.title < SIDE; from.title++) {
                    from.ended = 0;
                    if (grid[from.total][from.line][from.stars][from.title].is_left)
                        check_open(grid[from.total][from.line][from.stars][from.title].text, from);
                    else
                        check_not_open("a state that no text leaves", from);
                    for (from.ended = 1; from.ended < 4; from.ended++)
                        check_not_open("an ended state", from);
                    from.ended = 0xFFFFFFFFu;
                    check_not_open("an ended state", from);
                }
}

/* Checks that a state near the limit is open: the end is taken. */
static void check_ends(const char *what, comaltzex_stream from)
{
    uint32_t *const heading = wanted.numbers;
    state = from;
    wanted.count = 0;
    check_piece_taken(what, "", 0, 3, from);
    wanted.count = from.stars > 0 && from.stars < from.line;
    heading[COMALTZEX_HEADING_START] = from.total - from.line;
    heading[COMALTZEX_HEADING_STARS] = from.stars;
    heading[COMALTZEX_HEADING_TITLE] = from.title;
    check_end_taken(what, 3);
}

/* Each inequality on both sides, and numbers as great as can be. */
static void great_states(void)
{
    const uint32_t limit = COMALTZEX_TEXT_LIMIT, most = 0xFFFFFFFFu;
    uint32_t line;
    check_ends("65,536 bytes", numbers(limit, 0, 0, 0));
    check_not_open("65,537 bytes", numbers(limit + 1, 0, 0, 0));
    check_ends("a line of 65,536 bytes", numbers(limit, limit, 0, 0));
    check_not_open("a line of 65,537 bytes", numbers(limit + 1, limit + 1, 0, 0));
    check_ends("65,536 stars", numbers(limit, limit, limit, 0));
    check_not_open("65,537 stars", numbers(limit + 1, limit + 1, limit + 1, 0));
    check_not_open("65,537 stars of 65,536 bytes", numbers(limit, limit, limit + 1, 0));
    check_ends("65,535 stars and a space", numbers(limit, limit, limit - 1, 0));
    check_not_open("a title in no byte", numbers(limit, limit, limit - 1, 1));
    check_ends("a title of 65,534 bytes", numbers(limit, limit, 1, limit - 2));
    check_not_open("a title of 65,535 bytes", numbers(limit, limit, 1, limit - 1));
    check_not_open("a title without stars", numbers(limit, limit, 0, 1));
    check_not_open("a title after stars alone", numbers(limit, limit, limit, 1));
    check_not_open("a title of stars alone", numbers(limit, 1, 1, 1));
    for (line = 1; line <= limit; line *= 2) {
        check_ends("a last line", numbers(limit, line, 0, 0));
        check_ends("a last line of stars", numbers(limit, line, line, 0));
        check_ends("a line that is all", numbers(line, line, 0, 0));
        check_not_open("a line that is more than all", numbers(line - 1, line, 0, 0));
        check_not_open("more stars than bytes", numbers(limit, line, line + 1, 0));
        check_not_open("a title over the line", numbers(limit, line, 1, line));
        check_not_open("a title with the space", numbers(limit, line, 1, line - 1 + (line == 1)));
        if (line > 1)
            check_ends("a title to the line's end", numbers(limit, line, 1, line - 2));
        check_ends("no last line", numbers(line, 0, 0, 0));
        check_not_open("stars of no line", numbers(line, 0, line, 0));
        check_not_open("a title of no line", numbers(line, 0, 0, line));
    }
    check_not_open("the greatest total", numbers(most, 0, 0, 0));
    check_not_open("the greatest line", numbers(limit, most, 0, 0));
    check_not_open("the greatest stars", numbers(limit, limit, most, 0));
    check_not_open("the greatest title", numbers(limit, limit, 1, most));
    check_not_open("the greatest stars and title", numbers(limit, limit, most, most));
    check_not_open("all the greatest", numbers(most, most, most, most));
    check_not_open("the greatest stars of no line", numbers(0, 0, most, 0));
    check_not_open("65,536 too many, in sixteen bits none", numbers(2 * limit, 0, 0, 0));
    check_not_open("a line so", numbers(0, limit, 0, 0));
    check_not_open("stars so", numbers(limit, 3, limit + 1, 0));
    check_not_open("a title so", numbers(limit, 3, 1, limit));
}

/* Fills the book by repeating these bytes. */
static void fill(const char *bytes, size_t length)
{
    size_t i;
    for (i = 0; i < sizeof(book); i++)
        book[i] = (uint8_t)bytes[i % length];
}

/* Lists of 0 to 8 numbers, for a piece and for an end. */
static void list_lengths(void)
{
    static const char text[] = "* A\nx\n** B\n* C";
    size_t list_len;
    for (list_len = 0; list_len <= 8; list_len++) {
        const size_t room = list_len / 3;
        state = comaltzex_stream_new();
        if (room < 2) {
            check_piece_refused("two headings", state, text, 14, list_len, COMALTZEX_NO_ROOM, 2);
            want_piece((const uint8_t *)text, 0, 6);
            if (room < 1) {
                check_piece_refused("one heading", state, text, 4, list_len, COMALTZEX_NO_ROOM, 1);
                check_piece_refused("one heading", state, text, 6, list_len, COMALTZEX_NO_ROOM, 1);
                wanted.count = 0;
                check_piece_taken("no heading yet", text, 3, list_len, numbers(3, 3, 1, 1));
                check_piece_refused("its byte 10", state, "\n", 1, list_len, COMALTZEX_NO_ROOM, 1);
                check_end_refused("its end", state, list_len, COMALTZEX_NO_ROOM, 1);
                continue;
            }
            check_piece_taken("one heading", text, 6, list_len, numbers(6, 0, 0, 0));
            want_piece((const uint8_t *)text, 6, 14);
            check_piece_taken("one heading more", text + 6, 8, list_len, numbers(14, 3, 1, 1));
        } else {
            want_piece((const uint8_t *)text, 0, 14);
            check_piece_taken("two headings", text, 14, list_len, numbers(14, 3, 1, 1));
        }
        want_end((const uint8_t *)text, 14);
        check_end_taken("the end's heading", list_len);
    }
    for (list_len = 0; list_len <= 8; list_len++) {
        state = comaltzex_stream_new();
        wanted.count = 0;
        check_piece_taken("no headings", "*\nx\n", 4, list_len, numbers(4, 0, 0, 0));
        check_piece_taken("no headings, no bytes", "", 0, list_len, numbers(4, 0, 0, 0));
        check_end_taken("an end without a heading", list_len);
    }
}

/* What was refused with 3 is taken where there is room, and not twice. */
static void tried_again(void)
{
    static const char text[] = "* A\n** B\n*** C\n**** D";
    const size_t length = sizeof(text) - 1;
    size_t list_len;
    state = comaltzex_stream_new();
    for (list_len = 0; list_len < 9; list_len++)
        check_piece_refused("too little room", state, text, length, list_len, COMALTZEX_NO_ROOM, 3);
    want_piece((const uint8_t *)text, 0, length);
    check_piece_taken("enough room", text, length, 9, numbers(21, 6, 4, 1));
    for (list_len = 0; list_len < 3; list_len++)
        check_end_refused("too little room", state, list_len, COMALTZEX_NO_ROOM, 1);
    wanted.count = 0;
    check_piece_taken("a refused end has not ended the state", "d ", 2, 0, numbers(23, 8, 4, 2));
    check_end_refused("too little room again", state, 2, COMALTZEX_NO_ROOM, 1);
    want_end((const uint8_t *)"* A\n** B\n*** C\n**** Dd ", 23);
    check_end_taken("the end with room", 3);
    check_not_open("after the end", state);
}

/* Calls that deserve two refusals. */
static void turns(void)
{
    comaltzex_stream open, ended;
    fill("* \n", 3);
    open = numbers(0, 0, 0, 0);
    ended = open;
    ended.ended = 1;
    check_piece_refused("21 before 1", ended, book, sizeof(book), ROOM, COMALTZEX_NOT_OPEN, 0);
    check_piece_refused("21 before 1 and 3", ended, book, sizeof(book), 0, COMALTZEX_NOT_OPEN, 0);
    check_piece_refused("21 before 3", ended, book, 9, 8, COMALTZEX_NOT_OPEN, 0);
    check_piece_refused("1 before 3", open, book, sizeof(book), 0, COMALTZEX_TOO_LONG, 0);
    check_piece_refused("1 before 3", open, book, sizeof(book), ROOM, COMALTZEX_TOO_LONG, 0);
    check_piece_refused("3", open, book, sizeof(book) - 1, SIZE * 21845 - 1, COMALTZEX_NO_ROOM,
                        21845);
    check_piece_refused("21 of 65,537 taken before 1", numbers(65537, 0, 0, 0), book, 1, 0,
                        COMALTZEX_NOT_OPEN, 0);
    open = numbers(65536, 3, 1, 1);
    check_piece_refused("1 before 3 at the limit", open, "\n", 1, 0, COMALTZEX_TOO_LONG, 0);
    ended = open;
    ended.ended = 1;
    check_piece_refused("21 before 1 at the limit", ended, "\n", 1, 0, COMALTZEX_NOT_OPEN, 0);
    check_end_refused("21 before 3 of an end", ended, 0, COMALTZEX_NOT_OPEN, 0);
    check_end_refused("3 of an end", open, 0, COMALTZEX_NO_ROOM, 1);
    check_end_refused("21 of no state before 3", numbers(2, 3, 1, 1), 0, COMALTZEX_NOT_OPEN, 0);
}

/* Books of 65,535 and 65,536 bytes in pieces, and one byte more. */
static void limits(void)
{
    static const size_t sizes[] = {7, 1460, 4096, 60000, 65535, 65536};
    static const char *const lines[] = {"* \n", "* a b \t\r\n", "x\n", "*\n", "** c"};
    const size_t limit = COMALTZEX_TEXT_LIMIT;
    size_t i, j;
    for (j = 0; j < LENGTH(lines); j++) {
        fill(lines[j], strlen(lines[j]));
        for (i = 0; i < LENGTH(sizes); i++) {
            take_pieces("65,535 bytes", book, limit - 1, sizes[i]);
            take_pieces("65,536 bytes", book, limit, sizes[i]);
        }
        state = comaltzex_stream_new();
        check_piece_refused("65,537 bytes", state, book, limit + 1, ROOM, COMALTZEX_TOO_LONG, 0);
        take_piece("65,535 bytes", book, 0, limit - 1);
        check_piece_refused("and two", state, book, 2, ROOM, COMALTZEX_TOO_LONG, 0);
        check_piece_refused("and many", state, book, limit, ROOM, COMALTZEX_TOO_LONG, 0);
        take_piece("and one", book, limit - 1, limit);
        take_piece("and none", book, limit, limit);
        check_piece_refused("and one more", state, "\n", 1, ROOM, COMALTZEX_TOO_LONG, 0);
        check_piece_refused("and a star more", state, "*", 1, 0, COMALTZEX_TOO_LONG, 0);
        check_piece_refused("and a heading", state, "\n* A\n", 5, ROOM, COMALTZEX_TOO_LONG, 0);
        take_end("the end of what was taken", book, limit);
        check_not_open("after the end", state);
    }
}

/* Pieces whose length is over what 32 bits hold: the bytes are there, but none is read. */
static void longest_pieces(void)
{
    const size_t length = ((size_t)1 << 32) + 8;
    void *bytes = mmap(NULL, length, PROT_READ, MAP_PRIVATE | MAP_ANONYMOUS | MAP_NORESERVE, -1, 0);
    size_t shorter;
    check("memory of 4 GB that is not used", bytes != MAP_FAILED, 1);
    for (shorter = 0; shorter < 16; shorter++) {
        lend(3);
        state = numbers(4, 0, 0, 0);
        check_answer("4 GB", comaltzex_stream_piece(state, bytes, length - shorter, list, 3),
                     COMALTZEX_TOO_LONG, 0, state, 3);
    }
    munmap(bytes, length);
}

/* One heading line as long as can be, byte by byte. */
static void long_titles(void)
{
    const uint32_t length = 65000;
    uint32_t i;
    state = comaltzex_stream_new();
    wanted.count = 0;
    check_piece_taken("a star", "*", 1, 0, numbers(1, 1, 1, 0));
    check_piece_taken("a space", " ", 1, 0, numbers(2, 2, 1, 0));
    for (i = 1; i < length; i++)
        check_piece_taken("a long title", "t", 1, 0, numbers(2 + i, 2 + i, 1, i));
    check_piece_taken("a blank in it", " ", 1, 0, numbers(2 + i, 2 + i, 1, i - 1));
    check_piece_taken("its last byte", "*", 1, 0, numbers(3 + i, 3 + i, 1, i + 1));
    for (i = 2; i < 500; i++)
        check_piece_taken("blanks after it", i % 2 ? "\t" : "\r", 1, 0,
                          numbers(length + 2 + i, length + 2 + i, 1, length + 1));
    check_piece_refused("its byte 10", state, "\n", 1, 2, COMALTZEX_NO_ROOM, 1);
    check_end_refused("its end", state, 2, COMALTZEX_NO_ROOM, 1);
    wanted.count = 1;
    wanted.numbers[0] = 0;
    wanted.numbers[1] = 1;
    wanted.numbers[2] = length + 1;
    check_piece_taken("its byte 10", "\n", 1, 3, numbers(length + 502, 0, 0, 0));
}

/* As many stars as there can be, byte by byte, with a space last and without one. */
static void many_stars(void)
{
    const uint32_t limit = COMALTZEX_TEXT_LIMIT;
    uint32_t i;
    comaltzex_stream all_but_one;
    state = comaltzex_stream_new();
    wanted.count = 0;
    for (i = 1; i < limit; i++)
        check_piece_taken("stars", "*", 1, 0, numbers(i, i, i, 0));
    all_but_one = state;
    check_piece_taken("65,536 stars", "*", 1, 0, numbers(limit, limit, limit, 0));
    check_end_taken("stars alone are no heading", 0);
    state = all_but_one;
    check_piece_taken("another byte", "x", 1, 0, numbers(limit, limit, 0, 0));
    state = all_but_one;
    check_piece_taken("byte 10", "\n", 1, 0, numbers(limit, 0, 0, 0));
    state = all_but_one;
    check_piece_taken("65,535 stars and a space", " ", 1, 0, numbers(limit, limit, limit - 1, 0));
    wanted.count = 1;
    wanted.numbers[0] = 0;
    wanted.numbers[1] = limit - 1;
    wanted.numbers[2] = 0;
    check_end_taken("a heading of 65,535 stars", 3);
}

/* A copy of a state goes on from where it was taken, whatever became of the other. */
static void copies(void)
{
    comaltzex_stream kept;
    state = comaltzex_stream_new();
    wanted.count = 0;
    check_piece_taken("a heading's front", "* a", 3, 0, numbers(3, 3, 1, 1));
    kept = state;
    want_end((const uint8_t *)"* a", 3);
    check_end_taken("one ends", 3);
    state = kept;
    want_piece((const uint8_t *)"* ab\n", 3, 5);
    check_piece_taken("the other goes on", "b\n", 2, 3, numbers(5, 0, 0, 0));
}

static uint32_t seed = 9;

/* The next number of a simple run, below a limit. */
static size_t next(size_t below)
{
    seed = seed * 1664525u + 1013904223u;
    return (seed >> 8) % below;
}

/* Checks the headings of the whole book against those that a reading gives. */
static void check_read(size_t length)
{
    static uint32_t table[COMALTZEX_RECORD_SIZE * 4096];
    const comaltzex_reading reading = comaltzex_read(book, length, table, LENGTH(table));
    size_t i, found = 0;
    want_piece(book, 0, length);
    want_line(book, length - state_after(book, length).line, length);
    check("the book can be read", reading.number, COMALTZEX_OK);
    for (i = 0; i < reading.count; i++) {
        const uint32_t *record = table + COMALTZEX_RECORD_SIZE * i;
        if (record[COMALTZEX_FIELD_KIND] != COMALTZEX_HEADING)
            continue;
        check("a reading's start", record[COMALTZEX_FIELD_START], wanted.numbers[SIZE * found]);
        check("its stars", record[COMALTZEX_FIELD_DETAIL], wanted.numbers[SIZE * found + 1]);
        found++;
    }
    check("a reading's headings", found, wanted.count);
}

/* Books of random lines, in random pieces. */
static void random_books(void)
{
    static const char bytes[] = "** \n* \t\r ab*\n";
    size_t round, i, length, from;
    for (round = 0; round < 300; round++) {
        length = 1 + next(600);
        for (i = 0; i < length; i++)
            book[i] = (uint8_t)bytes[next(sizeof(bytes) - 1)];
        check_read(length);
        state = comaltzex_stream_new();
        for (from = 0; from < length; from = i) {
            i = from + next(1 + next(60));
            take_piece("a random piece", book, from, i < length ? i : length);
            i = i < length ? i : length;
        }
        take_end("a random book", book, length);
    }
}

int main(void)
{
    layout();
    samples();
    splits();
    all_small_texts();
    small_states();
    great_states();
    list_lengths();
    tried_again();
    turns();
    limits();
    longest_pieces();
    long_titles();
    many_stars();
    copies();
    random_books();
    return all_passed("stream");
}
