/* A book that comes in pieces, into a lent list with guards around it; what its bytes say. */
#ifndef STREAM_H
#define STREAM_H

#include "check.h"
#include "comaltzex.h"

#include <string.h>

#define SIZE COMALTZEX_HEADING_SIZE
#define GUARD 16                           /* numbers before the list and after it */
#define ROOM (COMALTZEX_TEXT_LIMIT + SIZE) /* numbers, for every heading of a book */
#define AROUND 4                           /* bytes before a piece and after it */

/* The headings that some bytes finish. */
struct headings {
    uint32_t numbers[ROOM];
    size_t count;
};

static uint32_t memory[GUARD + ROOM + GUARD], before[GUARD + ROOM + GUARD];
static uint32_t *const list = memory + GUARD;
static uint8_t piece[AROUND + COMALTZEX_TEXT_LIMIT + 2 + AROUND];
static struct headings wanted;
static comaltzex_stream state;

static int is_blank(uint8_t byte)
{
    return byte == ' ' || byte == '\t' || byte == '\r';
}

/* How many stars a line starts with. */
static size_t stars_of(const uint8_t *line, size_t length)
{
    size_t stars = 0;
    while (stars < length && line[stars] == '*')
        stars++;
    return stars;
}

static int is_heading_line(const uint8_t *line, size_t length)
{
    const size_t stars = stars_of(line, length);
    return stars > 0 && stars < length && line[stars] == ' ';
}

/* The title's length of a heading line without its byte 10. */
static size_t title_of(const uint8_t *line, size_t length)
{
    const size_t start = stars_of(line, length) + 1;
    while (length > start && is_blank(line[length - 1]))
        length--;
    return length - start;
}

/* The state that these bytes leave, by a look at their last line. */
static comaltzex_stream state_after(const uint8_t *bytes, size_t length)
{
    comaltzex_stream after = {0, 0, 0, 0, 0};
    size_t start = length;
    while (start > 0 && bytes[start - 1] != '\n')
        start--;
    after.total = (uint32_t)length;
    after.line = (uint32_t)(length - start);
    if (is_heading_line(bytes + start, after.line))
        after.title = (uint32_t)title_of(bytes + start, after.line);
    if (is_heading_line(bytes + start, after.line) ||
        stars_of(bytes + start, after.line) == after.line)
        after.stars = (uint32_t)stars_of(bytes + start, after.line);
    return after;
}

static void want_line(const uint8_t *bytes, size_t start, size_t end)
{
    uint32_t *heading = wanted.numbers + SIZE * wanted.count;
    if (!is_heading_line(bytes + start, end - start))
        return;
    heading[COMALTZEX_HEADING_START] = (uint32_t)start;
    heading[COMALTZEX_HEADING_STARS] = (uint32_t)stars_of(bytes + start, end - start);
    heading[COMALTZEX_HEADING_TITLE] = (uint32_t)title_of(bytes + start, end - start);
    wanted.count++;
}

/* Wants the headings whose byte 10 is among these bytes from `from` on. */
static void want_piece(const uint8_t *bytes, size_t from, size_t to)
{
    size_t start = from, i;
    wanted.count = 0;
    while (start > 0 && bytes[start - 1] != '\n')
        start--;
    for (i = from; i < to; i++)
        if (bytes[i] == '\n') {
            want_line(bytes, start, i);
            start = i + 1;
        }
}

/* Wants the heading that is the last line, if that has no byte 10. */
static void want_end(const uint8_t *bytes, size_t length)
{
    wanted.count = 0;
    want_line(bytes, length - state_after(bytes, length).line, length);
}

static void check_state(const char *what, comaltzex_stream seen, comaltzex_stream right)
{
    check(what, seen.total, right.total);
    check(what, seen.line, right.line);
    check(what, seen.stars, right.stars);
    check(what, seen.title, right.title);
    check(what, seen.ended, right.ended);
}

/* Marks a list of so many numbers and what is around it, each number in its own way. */
static void lend(size_t list_len)
{
    size_t i;
    for (i = 0; i < GUARD + list_len + GUARD; i++)
        memory[i] = before[i] = 0xABCD0000u + (uint32_t)i;
}

static void check_memory(const char *what, size_t list_len)
{
    size_t i;
    for (i = 0; i < GUARD + list_len + GUARD; i++)
        if (memory[i] != before[i])
            break;
    check(what, i, GUARD + list_len + GUARD);
}

/* Puts a piece where other bytes stand before it and after it, each time others. */
static const uint8_t *placed(const uint8_t *bytes, size_t length)
{
    static const char around[] = "\n* \n** a";
    static size_t turn;
    size_t i;
    for (i = 0; i < AROUND; i++) {
        piece[i] = (uint8_t)around[(turn + i) % (sizeof(around) - 1)];
        piece[AROUND + length + i] = (uint8_t)around[(turn + 3 + i) % (sizeof(around) - 1)];
    }
    turn++;
    memcpy(piece + AROUND, bytes, length);
    return piece + AROUND;
}

static void check_answer(const char *what, comaltzex_streamed seen, uint32_t number, size_t count,
                         comaltzex_stream right, size_t list_len)
{
    check(what, seen.number, number);
    check(what, seen.count, count);
    check_state(what, seen.state, right);
    check_memory(what, list_len);
}

/* Checks a piece that is refused: the state, and every number of the list and around it. */
static void check_piece_refused(const char *what, comaltzex_stream from, const void *bytes,
                                size_t length, size_t list_len, uint32_t number, size_t count)
{
    const uint8_t *at = placed(bytes, length);
    lend(list_len);
    check_answer(what, comaltzex_stream_piece(from, at, length, list, list_len), number, count,
                 from, list_len);
}

static void check_end_refused(const char *what, comaltzex_stream from, size_t list_len,
                              uint32_t number, size_t count)
{
    lend(list_len);
    check_answer(what, comaltzex_stream_end(from, list, list_len), number, count, from, list_len);
}

/* Checks a piece that is taken, with the headings that are wanted, and leaves its state. */
static void check_piece_taken(const char *what, const void *bytes, size_t length, size_t list_len,
                              comaltzex_stream right)
{
    const uint8_t *at = placed(bytes, length);
    comaltzex_streamed seen;
    lend(list_len);
    memcpy(before + GUARD, wanted.numbers, SIZE * wanted.count * sizeof(*before));
    seen = comaltzex_stream_piece(state, at, length, list, list_len);
    check_answer(what, seen, COMALTZEX_OK, wanted.count, right, list_len);
    state = seen.state;
}

static void check_end_taken(const char *what, size_t list_len)
{
    comaltzex_stream right = state;
    comaltzex_streamed seen;
    right.ended = 1;
    lend(list_len);
    memcpy(before + GUARD, wanted.numbers, SIZE * wanted.count * sizeof(*before));
    seen = comaltzex_stream_end(state, list, list_len);
    check_answer(what, seen, COMALTZEX_OK, wanted.count, right, list_len);
    state = seen.state;
}

/* Takes the bytes from `from` to `to` of a book: refused where there is a number too little room,
   then taken. */
static void take_piece(const char *what, const uint8_t *bytes, size_t from, size_t to)
{
    const comaltzex_stream right = state_after(bytes, to);
    size_t needed;
    want_piece(bytes, from, to);
    needed = SIZE * wanted.count;
    if (needed > 0) {
        check_piece_refused(what, state, bytes + from, to - from, needed - 1, COMALTZEX_NO_ROOM,
                            wanted.count);
        check_piece_refused(what, state, bytes + from, to - from, 0, COMALTZEX_NO_ROOM,
                            wanted.count);
    }
    check_piece_taken(what, bytes + from, to - from, needed + to % 4, right);
}

static void take_end(const char *what, const uint8_t *bytes, size_t length)
{
    size_t list_len;
    want_end(bytes, length);
    for (list_len = 0; list_len < SIZE * wanted.count; list_len++)
        check_end_refused(what, state, list_len, COMALTZEX_NO_ROOM, 1);
    check_end_taken(what, list_len + length % 4);
}

/* A book in pieces that end at these places. */
static void take_split(const char *what, const uint8_t *bytes, size_t length, const size_t *places,
                       size_t count)
{
    size_t i, from = 0;
    state = comaltzex_stream_new();
    for (i = 0; i < count; i++) {
        take_piece(what, bytes, from, places[i]);
        from = places[i];
    }
    take_piece(what, bytes, from, length);
    take_end(what, bytes, length);
}

/* A book in pieces of so many bytes. */
static void take_pieces(const char *what, const uint8_t *bytes, size_t length, size_t size)
{
    size_t from = 0;
    state = comaltzex_stream_new();
    while (length - from > size) {
        take_piece(what, bytes, from, from + size);
        from += size;
    }
    take_piece(what, bytes, from, length);
    take_end(what, bytes, length);
}

#endif
