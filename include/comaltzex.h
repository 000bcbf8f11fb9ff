/*
 * comaltzex.h - a proved reader of Org order books.
 *
 * comaltzex_read lists everything in a text as a flat table of records;
 * comaltzex_lookup finds one property of one heading, and
 * comaltzex_lookup_with_defaults takes what an order lacks from the house
 * defaults; comaltzex_planning gives the dates of a heading's planning line;
 * comaltzex_timestamp reads one timestamp, and comaltzex_days_between counts the
 * days from one date to another; comaltzex_find_closer finds the line that closes
 * a block or drawer; comaltzex_write_sheet writes an order as Org text;
 * comaltzex_intake takes an order into a book unless its request is there already, and
 * comaltzex_intake_log a whole log of orders; comaltzex_stream_piece lists the headings of
 * a book that comes in pieces, while it comes. All functions are plain: they allocate
 * nothing and keep no state, so threads may call them at once (each with a table, an
 * output, a book or a list of its own).
 *
 * Stack: a call needs up to 96 KB of stack.
 *
 * Pointers: each must point to as many elements as its length says, and none
 * may be NULL, not even with length 0. A table may not overlap the text, nor an
 * output the order, nor a book the order or log, nor a list the piece; texts and keys
 * may overlap. A text is bytes, not a C string: it needs no byte 0 at its end.
 *
 * Places are byte offsets into the text; every end is one past the last byte.
 */
#ifndef COMALTZEX_H
#define COMALTZEX_H

#include <stddef.h>
#include <stdint.h>

#ifdef __cplusplus
extern "C" {
#endif

/*
 * The version of this interface. It changes when an answer, the record's width
 * or a function's signature does, and when a kind of record or a function is
 * added. If comaltzex_version() is another number, the library is not the one that
 * this header declares.
 */
#define COMALTZEX_VERSION 9

#define COMALTZEX_TEXT_LIMIT 65536 /* the longest text, sheet or book, in bytes */
#define COMALTZEX_DEPTH_LIMIT 32   /* the deepest list, drawer or greater block */
#define COMALTZEX_KEY_LIMIT 64     /* the longest key, in bytes */
#define COMALTZEX_PAIR_LIMIT 16    /* the most pairs of an order */
#define COMALTZEX_RECORD_SIZE 8    /* numbers in a record */
#define COMALTZEX_HEADING_SIZE 3   /* numbers in a heading of a list */

/* The number of an answer. */
enum comaltzex_number {
    COMALTZEX_OK = 0,
    COMALTZEX_TOO_LONG = 1,      /* the text, the sheet, the new book or the pieces in
                                    all are over COMALTZEX_TEXT_LIMIT */
    COMALTZEX_TOO_DEEP = 2,      /* a list, drawer or greater block at depth 33 or
                                    more */
    COMALTZEX_NO_ROOM = 3,       /* more records than the table has room for, or
                                    headings than the list has */
    COMALTZEX_NO_HEADING = 4,    /* no heading line starts at that byte */
    COMALTZEX_NO_DRAWER = 5,     /* that heading has no property drawer, and none of
                                    8, 9 and 10 says why */
    COMALTZEX_NO_KEY = 6,        /* no line of that drawer has the key */
    COMALTZEX_BAD_KEY = 7,       /* the key is empty, over COMALTZEX_KEY_LIMIT, holds
                                    byte 9, 10, 13 or 32, or ends in '+' */
    COMALTZEX_BLANK_FIRST = 8,   /* blank lines stand above `:PROPERTIES:` */
    COMALTZEX_NOT_PROPERTY = 9,  /* a line up to `:END:` is no node property */
    COMALTZEX_NOT_CLOSED = 10,   /* no `:END:` follows `:PROPERTIES:` */
    COMALTZEX_NO_DAY = 11,       /* a date is no calendar day of years 1 to 9999 */
    COMALTZEX_BAD_ORDER = 12,    /* the order is cut short, goes on after its last pair,
                                    or has over COMALTZEX_PAIR_LIMIT pairs */
    COMALTZEX_BAD_TEXT = 13,     /* a title or value holds byte 10 or 13, or has a blank
                                    byte at either end */
    COMALTZEX_BAD_NAME = 14,     /* a key of an order is bad, as for 7, or is `END` */
    COMALTZEX_REPEATED_KEY = 15, /* an order has a key twice */
    COMALTZEX_SHORT_OUTPUT = 16, /* the sheet is longer than the output, or the new book
                                    than its buffer */
    COMALTZEX_MISSING_KEY = 17,  /* `REQUEST` or `VIN` is missing in an order, or empty */
    COMALTZEX_BAD_USED = 18,     /* the bytes in use are over the book's buffer, or over
                                    COMALTZEX_TEXT_LIMIT */
    COMALTZEX_SEEN = 19,         /* the order's request is in the book already */
    COMALTZEX_NOT_OPEN = 21,     /* a piece or an end after the declared end, or with a
                                    state that no text leaves */
    COMALTZEX_CUT_LOG = 27       /* a log is cut short */
};

/* The numbers of a record, in order. */
enum comaltzex_field {
    COMALTZEX_FIELD_KIND = 0,
    COMALTZEX_FIELD_START = 1,
    COMALTZEX_FIELD_END = 2,
    COMALTZEX_FIELD_INNER_START = 3,
    COMALTZEX_FIELD_INNER_END = 4,
    COMALTZEX_FIELD_PARENT = 5, /* the parent's index; the document's is 0, its own */
    COMALTZEX_FIELD_DETAIL = 6,
    COMALTZEX_FIELD_LINE = 7    /* how many bytes 10 stand before the start: the
                                   line's number, counted from 0 */
};

/* The kind of a record.             inner span                        detail */
enum comaltzex_kind {
    COMALTZEX_DOCUMENT = 1,         /* the whole span                  0 */
    COMALTZEX_HEADING = 2,          /* after its line, to its end      number of stars */
    COMALTZEX_SECTION = 3,          /* the whole span                  0 */
    COMALTZEX_PLANNING = 4,         /* the line's body                 0 */
    COMALTZEX_PROPERTY_DRAWER = 5,  /* lines between opener and closer 0 */
    COMALTZEX_NODE_PROPERTY = 6,    /* the value                       0 */
    COMALTZEX_DRAWER = 7,           /* lines between opener and closer 0 */
    COMALTZEX_GREATER_BLOCK = 8,    /* lines between opener and closer 1 quote, 2 center,
                                                                       3 any other name */
    COMALTZEX_VERBATIM_BLOCK = 9,   /* lines between opener and closer 1 comment, 2 example,
                                                                       3 export, 4 src, 5 verse */
    COMALTZEX_TABLE = 10,           /* the row lines                   0 */
    COMALTZEX_ROW = 11,             /* the line's body                 0 standard, 1 rule */
    COMALTZEX_COMMENT = 12,         /* own lines, no blank lines after 0 */
    COMALTZEX_FIXED_WIDTH = 13,     /* own lines, no blank lines after 0 */
    COMALTZEX_HORIZONTAL_RULE = 14, /* the line's body                 0 */
    COMALTZEX_KEYWORD = 15,         /* the value                       0 */
    COMALTZEX_PARAGRAPH = 16,       /* own lines, no blank lines after 0 */
    COMALTZEX_LIST = 17,            /* its items                       1 if the first item has a number
                                                                       or letter bullet, else 2 */
    COMALTZEX_ITEM = 18             /* from its text to the end of its 0
                                       last line that is not blank */
};

/* The numbers of a heading in a list of headings, in order. */
enum comaltzex_heading_field {
    COMALTZEX_HEADING_START = 0, /* the first byte of its line */
    COMALTZEX_HEADING_STARS = 1,
    COMALTZEX_HEADING_TITLE = 2  /* its title's length in bytes; the title starts at
                                    byte start + stars + 1 */
};

/*
 * A list's children are its items, and an item's are the elements of its lines. An
 * item's first line is, after its indentation (bytes 32 and 9),
 *
 *   BULLET [@COUNTER] [BOX] TEXT
 *
 * of which only the bullet must be there.
 *
 *   BULLET      `-`, `+`, a `*` with indentation before it, or a number or one
 *               letter with `.` or `)`
 *   [@COUNTER]  the counter set: a number or one letter between `[@` and `]`
 *   [BOX]       the check box: a blank byte, `X`, `x` or `-` between `[` and `]`
 *
 * Each of these three counts only with a blank byte (32, 9 and 13) or the line's
 * end after it. The item's span starts with its line, its inner span after the
 * three and the blank bytes after them, with the text. The text is a paragraph
 * whatever it looks like. So an item's inner span and its first child's span may
 * start in mid-line. Where no text is left the inner span starts at the line's byte
 * 10, or is empty at the text's end.
 */

typedef struct comaltzex_reading {
    uint32_t number; /* 0, 1, 2 or 3 */
    size_t count;    /* records */
} comaltzex_reading;

typedef struct comaltzex_part {
    uint32_t number; /* 0, 1 or 4 to 10 */
    size_t start;
    size_t end;
    size_t further;  /* with 9 where a line starts, else 0 */
} comaltzex_part;

/* Whose an answer is. */
enum comaltzex_whose {
    COMALTZEX_ORDER = 1,   /* the order text's */
    COMALTZEX_DEFAULTS = 2 /* the defaults text's */
};

typedef struct comaltzex_sourced_part {
    uint32_t number; /* 0, 1 or 4 to 10 */
    uint32_t whose;  /* of enum comaltzex_whose; start, end and further are places in
                        this text */
    size_t start;
    size_t end;
    size_t further;  /* with 9 where a line starts, else 0 */
} comaltzex_sourced_part;

typedef struct comaltzex_closer {
    uint32_t found;  /* 0 or 1 */
    size_t start;    /* the closer's line, its byte 10 included */
    size_t end;
    size_t compared; /* lines */
} comaltzex_closer;

/* The kind of a timestamp: `<..>` is active, `[..]` inactive. */
enum comaltzex_stamp_kind {
    COMALTZEX_STAMP_NONE = 0,           /* there is no timestamp */
    COMALTZEX_STAMP_ACTIVE = 1,         /* one date, with a time or without */
    COMALTZEX_STAMP_ACTIVE_TIMES = 2,   /* one date with a time range */
    COMALTZEX_STAMP_ACTIVE_DATES = 3,   /* two dates, each with a time or without */
    COMALTZEX_STAMP_INACTIVE = 4,       /* the same three, inactive */
    COMALTZEX_STAMP_INACTIVE_TIMES = 5,
    COMALTZEX_STAMP_INACTIVE_DATES = 6
};

typedef struct comaltzex_date {
    uint32_t year;
    uint32_t month;
    uint32_t day;
} comaltzex_date;

/*
 * A date of a timestamp and what goes with it; the numbers of what it lacks are
 * 0. A unit is one of the bytes 'h', 'd', 'w', 'm' and 'y', in lower case
 * whatever the text has.
 */
typedef struct comaltzex_moment {
    comaltzex_date date;
    uint32_t has_time;    /* 0 or 1 */
    uint32_t hour;
    uint32_t minute;
    uint32_t repeat_mark; /* 0 no repeater, 1 "+", 2 "++", 3 ".+" */
    uint32_t every;       /* the repeater's number and unit */
    uint32_t every_unit;
    uint32_t within;      /* the number and unit after its "/" */
    uint32_t within_unit; /* 0 without a "/" */
    uint32_t delay_mark;  /* 0 no delay, 1 "-", 2 "--" */
    uint32_t delay;       /* the delay's number and unit */
    uint32_t delay_unit;
    uint32_t delay_first; /* 1 if there are both and the delay stands before the
                             repeater, else 0 */
} comaltzex_moment;

/*
 * A timestamp. What the second moment is depends on the kind:
 *
 *   0     nothing: every number of the timestamp is 0
 *   1, 4  nothing: its numbers are 0
 *   2, 5  the first one's date and the time that ends the range; repeater and
 *         delay stand in the first only
 *   3, 6  the second date, with its own time, repeater and delay
 */
typedef struct comaltzex_stamp {
    uint32_t kind; /* of enum comaltzex_stamp_kind */
    comaltzex_moment first;
    comaltzex_moment second;
} comaltzex_stamp;

/* A timestamp, and the byte after it. */
typedef struct comaltzex_found_stamp {
    uint32_t kind; /* kind, first and second as in comaltzex_stamp */
    size_t end;    /* 0 with kind 0 */
    comaltzex_moment first;
    comaltzex_moment second;
} comaltzex_found_stamp;

typedef struct comaltzex_plan {
    uint32_t number; /* 0, 1 or 4 */
    comaltzex_stamp closed;
    comaltzex_stamp deadline;
    comaltzex_stamp scheduled;
} comaltzex_plan;

typedef struct comaltzex_days {
    uint32_t number; /* 0 or 11 */
    int32_t days;
} comaltzex_days;

typedef struct comaltzex_written {
    uint32_t number; /* 0, 1 or 12 to 16 */
    size_t count;    /* bytes */
} comaltzex_written;

typedef struct comaltzex_taken {
    uint32_t number; /* 0, 1 or 12 to 19; of a log 0 or 27 */
    size_t count;    /* bytes in use after the call */
} comaltzex_taken;

/*
 * What is known of a book of which some pieces have come. It has the same size however
 * long the book is, and nothing in it points anywhere: it may be copied and stored, and
 * a copy goes on from where it was taken.
 */
typedef struct comaltzex_stream {
    uint32_t total; /* bytes taken so far */
    uint32_t line;  /* bytes of the unfinished line so far: 0 after a byte 10 */
    uint32_t stars; /* its stars, while it is a heading line, or stars alone, which may
                       become one; else 0 */
    uint32_t title; /* its title's length so far, while it is a heading line; else 0 */
    uint32_t ended; /* 0, and 1 once the end is declared and accepted: the other
                       numbers stay as they were */
} comaltzex_stream;

typedef struct comaltzex_streamed {
    comaltzex_stream state; /* to be handed to the next call */
    uint32_t number;        /* 0, 1, 3 or 21 */
    size_t count;           /* headings */
} comaltzex_streamed;

/*
 * Reads a text into a table of table_len numbers, with room for
 * table_len / COMALTZEX_RECORD_SIZE records (rounded down). The first of these
 * that holds is the answer:
 *
 *   1  the text is over 65,536 bytes; count is 0
 *   2  a list, drawer or greater block lies at depth 33 or more; count is 0
 *   3  there are more records than room; count is the number needed
 *   0  count records stand at the table's front: the document, then each record
 *      followed at once by all that it holds, in the order of the text
 *
 * 1, 2 and 3 leave the whole table as it was; 0 leaves what is past the records
 * as it was. Every text has a record, so a table_len of 0 asks for the count.
 */
comaltzex_reading comaltzex_read(const uint8_t *text, size_t text_len,
                                 uint32_t *table, size_t table_len);

/*
 * Finds the value of a property of the heading whose line starts at byte `at`,
 * in that heading's own property drawer. The case of ASCII letters in the key
 * counts for nothing; the first line with the key decides, be it `:KEY:` or
 * `:KEY+:`.
 *
 * The drawer's place is the line after the heading line, or after its planning
 * line. From there on the lines up to the next heading line count. Bytes 32 and 9
 * may stand before `:PROPERTIES:` and `:END:`, blank bytes (32, 9 and 13) after
 * them; the case of their letters counts for nothing. A node property is `:NAME:`
 * or `:NAME+:`, perhaps after bytes 32 and 9, with nothing or a blank byte after
 * it; NAME is not empty, has no blank bytes and no '+' at its end. The first of
 * these that holds is the answer:
 *
 *   1   the text is over 65,536 bytes
 *   7   the key is empty, over 64 bytes, holds byte 9, 10, 13 or 32, or ends in '+'
 *   4   no heading line starts at byte `at`
 *   8   a blank line stands in the place, and the next line that is not blank is
 *       `:PROPERTIES:`
 *   10  `:PROPERTIES:` stands in the place, and no `:END:` follows
 *   9   `:PROPERTIES:` stands in the place and `:END:` follows, but a line between
 *       them is no node property (a blank line is none); further is where the
 *       first such line starts, its indentation included
 *   5   the heading has no property drawer, for any other reason
 *   6   no line of the drawer has the key
 *   0   the value is text[start] up to, not including, text[end]; it may be empty
 *
 * At most one of 8, 10, 9 and 5 holds. With every number but 0 the part is empty
 * and at byte 0: start and end are 0. With every number but 9 further is 0.
 */
comaltzex_part comaltzex_lookup(const uint8_t *text, size_t text_len, size_t at,
                                const uint8_t *key, size_t key_len);

/*
 * Finds the value of a property of an order, or the house's default for it. It is
 * up to two lookups, each as by comaltzex_lookup: one in the order text, at the
 * heading whose line starts at byte `at`; and one in the defaults text, at its first
 * heading line, of however many stars. What stands above that line or under a later
 * heading is no default. The two texts may overlap or be the same.
 *
 * `whose` says whose answer this is, of a refusal too; start, end and further are
 * places in that text. The first of these that holds is the answer:
 *
 *   whose 1  the order's, if it is any number but 6: 1, 7, 4, one of 8, 10, 9 and 5,
 *            or 0. With 0 the value is order[start] up to, not including, order[end];
 *            an empty one is an answer, too. Whatever the defaults are does not
 *            matter then, not even their length
 *   whose 1  the order's 6, if the key is `VIN` or `REQUEST`, in any case: these two
 *            are never taken from the defaults
 *   whose 2  the defaults', in the same turn:
 *              1   the defaults text is over 65,536 bytes
 *              4   no line of it is a heading line
 *              8, 10, 9, 5, 6   as for any lookup, at its first heading line
 *              0   the value is defaults[start] up to, not including, defaults[end];
 *                  it may be empty
 *
 * 7 is always the order's. With every number but 0 start and end are 0, and with every
 * number but 9 further is 0.
 */
comaltzex_sourced_part comaltzex_lookup_with_defaults(const uint8_t *order, size_t order_len,
                                                      size_t at, const uint8_t *defaults,
                                                      size_t defaults_len, const uint8_t *key,
                                                      size_t key_len);

/*
 * Finds the closer of the block or drawer whose opener's line starts at byte
 * `at`, in a container that ends at byte `end`: a section, block or drawer, and
 * for an opener in a list the one around all its lists. The text is seen up to `end`
 * only: a line that goes on past it is cut there.
 *
 *   opener                                          closer
 *   `#+begin_NAME`, NAME without blank bytes;       `#+end_NAME`
 *     parameters may follow after a blank byte
 *   `:NAME:`, NAME of letters, digits, '-' and '_'  `:END:`
 *
 * A name is not empty. `:END:` opens nothing; `:PROPERTIES:` is like any other
 * name. Letters are the ASCII ones, and their case counts for nothing. Bytes 32
 * and 9 may stand before both, blank bytes (32, 9 and 13) after both.
 *
 * The first closer after the opener's line counts: found is 1, and its line is
 * text[start] up to, not including, text[end]. If there is none, found, start
 * and end are 0.
 *
 * compared is how many lines the search compared further: those after the
 * opener's whose first byte that is not blank is the closer's first ('#' or
 * ':'), up to and with the closer, else to the container's end.
 *
 * All four numbers are 0 if that line is no opener, if no line starts at `at`
 * before `end`, or if `end` is over text_len. The text may be of any length.
 */
comaltzex_closer comaltzex_find_closer(const uint8_t *text, size_t text_len, size_t at,
                                       size_t end);

/*
 * Reads the timestamp that starts at byte `at`. An active one is
 *
 *   <DATE DAYNAME TIME REPEATER DELAY>
 *
 * of which only the date must be there; the delay may stand before the repeater.
 *
 *   DATE      `YYYY-MM-DD`
 *   DAYNAME   bytes none of which is blank, a digit, '+', '-', ']', '>' or
 *             byte 10
 *   TIME      `H:MM` or `HH:MM`; or a time range, `TIME-TIME`
 *   REPEATER  `+`, `++` or `.+`, a number and a unit; it may go on with `/`, a
 *             number and a unit
 *   DELAY     `-` or `--`, a number and a unit
 *
 * Numbers have one to nine digits, units are the letters h, d, w, m and y in
 * either case. One or more blank bytes (32, 9 and 13) stand between the parts,
 * none after the opening and before the closing bracket.
 *
 * An inactive timestamp has `[` and `]` instead. A second date follows at once,
 * as `--` and the same in the same brackets; neither date has a time range then.
 * If anything else follows, the timestamp ends with its first brackets.
 *
 * Only the shape is judged: 30 February and minute 77 pass. Diary timestamps,
 * `<%%(..)>`, are none.
 *
 * `end` is the byte after the timestamp. All numbers are 0 if none starts at
 * `at`, which may be any number. The text may be of any length.
 */
comaltzex_found_stamp comaltzex_timestamp(const uint8_t *text, size_t text_len, size_t at);

/*
 * Gives the timestamps of the planning line of the heading whose line starts at
 * byte `at`. That is the line right after the heading's, if after its
 * indentation (bytes 32 and 9) there are one or more parts `KEYWORD: TIMESTAMP`
 * and nothing else: one or more blank bytes after each colon and between the
 * parts, and any number of them at the line's end. The keywords are CLOSED,
 * DEADLINE and SCHEDULED; the case of their letters counts for nothing, and where
 * one repeats its last timestamp counts. The first of these that holds is the
 * answer:
 *
 *   1  the text is over 65,536 bytes
 *   4  no heading line starts at byte `at`
 *   0  each of the three is that keyword's timestamp; it is of kind 0 if the
 *      heading has no planning line, or the line has no such keyword
 *
 * With 1 and 4 every number of all three is 0.
 */
comaltzex_plan comaltzex_planning(const uint8_t *text, size_t text_len, size_t at);

/*
 * Counts the days from one date to a second one, in the Gregorian calendar
 * throughout. The first of these that holds is the answer:
 *
 *   11  one of the dates is no calendar day of years 1 to 9999; days is 0
 *   0   days is how many days the second date is after the first: below 0 if it
 *       is before it, 0 if they are equal
 */
comaltzex_days comaltzex_days_between(uint32_t year, uint32_t month, uint32_t day,
                                      uint32_t second_year, uint32_t second_month,
                                      uint32_t second_day);

/*
 * Writes an order as its sheet, an Org text, into an output of out_len bytes. The
 * order is one buffer, with nothing between these and nothing after them:
 *
 *   2 bytes         the title's length, low byte first
 *   so many bytes   the title; it may be empty
 *   1 byte          the number of pairs, at most 16
 *   for each pair
 *     1 byte          the key's length
 *     so many bytes   the key
 *     2 bytes         the value's length, low byte first
 *     so many bytes   the value; it may be empty
 *
 * The sheet has one star, a space and the title; `:PROPERTIES:`; for each pair in
 * turn `:`, the key, `:` and, unless the value is empty, a space and the value; and
 * `:END:`. Each of these lines has byte 10, none is indented. The first of these
 * that holds is the answer:
 *
 *   12  the order is cut short, goes on after its last pair, or has over 16 pairs
 *   13  the title or a value holds byte 10 or 13, or starts or ends with a blank
 *       byte (32, 9 and 13)
 *   14  a key is empty, over 64 bytes, holds byte 9, 10, 13 or 32, ends in '+', or is
 *       `END`
 *   15  two keys are the same
 *   1   the sheet is over 65,536 bytes
 *   16  the sheet is longer than the output; count is the bytes needed
 *   0   the sheet is out[0] up to, not including, out[count]
 *
 * Each is asked of the whole order before the next: a bad last value comes before a
 * bad first key. The case of ASCII letters counts for nothing in `END`, and in keys
 * that are compared. With 12 to 15 and with 1 count is 0.
 *
 * Every number but 0 leaves the whole output as it was; 0 leaves what is past the
 * sheet as it was. Every sheet has at least 22 bytes, so an out_len of 0 asks for the
 * length. The order may be of any length.
 *
 * A sheet reads back as what was written: comaltzex_lookup at its byte 0 finds each
 * key, and gives its pair's value byte for byte. Its records are the document, one
 * heading of one star, its section, one property drawer and a node property for each
 * pair, and nothing else.
 */
comaltzex_written comaltzex_write_sheet(const uint8_t *order, size_t order_len, uint8_t *out,
                                        size_t out_len);

/*
 * Takes an order into a book. The book is a buffer of book_len bytes, of which the first
 * `used` are its text, the bytes in use. The order has the form that
 * comaltzex_write_sheet takes. Its sheet is written after the bytes in use; where the
 * text is not empty and does not end in byte 10, one byte 10 first. The order must
 * have a `REQUEST`, by which a second click on the same order is known, and a `VIN`;
 * the case of letters counts for nothing in these keys. The first of these that holds
 * is the answer:
 *
 *   12, 13, 14, 15   as of comaltzex_write_sheet
 *   17  the order has no `REQUEST` or no `VIN`, or one of them is empty
 *   18  used is over book_len, or over 65,536
 *   19  the request is seen: at some heading of the text comaltzex_lookup of `REQUEST`
 *       gives the order's value, byte for byte
 *   1   the new book, its byte 10 before the sheet included, is over 65,536 bytes
 *   16  the new book is longer than the buffer
 *   0   the new book is book[0] up to, not including, book[count]
 *
 * Every number but 0 leaves the whole buffer as it was, and count is `used`, as it was
 * handed in. 0 changes no byte before `used`, and none from count on. A buffer may have
 * any length: with one of 65,536 bytes or more 16 is not given.
 *
 * After any run of calls on one book, each handed the bytes in use that the last gave,
 * with no other writer between:
 *
 *   - `REQUEST` looks up each value that was taken in at one heading only, and `VIN`
 *     looked up there gives that order's;
 *   - every heading that the book had before looks up every key as before.
 *
 * What is not looked up is not seen: where a lookup refuses a heading's drawer with 8,
 * 9 or 10, or with 5, a request that stands there does not stop a second order with
 * it. Nor does a second `REQUEST` line of one drawer, or one above the first heading.
 * Letters count in a request's value: `r1` and `R1` are two.
 */
comaltzex_taken comaltzex_intake(uint8_t *book, size_t book_len, size_t used,
                                 const uint8_t *order, size_t order_len);

/*
 * Takes the orders of a log into a book, from first to last. A log has each order after
 * its length, four bytes, low byte first, with nothing between these and nothing after
 * them; it may be empty. The first of these that holds is the answer:
 *
 *   27  the log is cut short: a length or the order after it has fewer bytes. No order is
 *       taken in, the whole buffer is as it was, and count is `used`
 *   0   each order was handed to comaltzex_intake in turn, with the bytes in use that
 *       the one before gave; count is what the last gave, without orders `used`
 *
 * An order that comaltzex_intake refuses, with whatever number, is passed over, and the
 * next is tried. So a log answers 0 though all its orders are refused. A log that is
 * played again, on the book that it gave, changes no byte and gives the same count.
 */
comaltzex_taken comaltzex_intake_log(uint8_t *book, size_t book_len, size_t used,
                                     const uint8_t *log, size_t log_len);

/*
 * The state of a book of which nothing has come yet: all its numbers are 0.
 *
 * A book that comes in pieces, split anywhere, in mid-line and between the stars too, is
 * handed to comaltzex_stream_piece piece by piece, and then its end is declared to
 * comaltzex_stream_end. Each call is handed the state that the last one gave, and writes
 * the headings whose lines it finishes to a list:
 *
 *   comaltzex_stream state = comaltzex_stream_new();
 *   while (more comes)
 *       state = comaltzex_stream_piece(state, bytes, bytes_len, list, list_len).state;
 *   state = comaltzex_stream_end(state, list, list_len).state;
 *
 * A heading line has one or more stars from its first byte on, then byte 32. Its title is
 * the line after this byte, without byte 10 and the blank bytes (32, 9 and 13) at its
 * end; blank bytes at its front are the title's. It may be empty.
 *
 * From a new state, with no call refused, the headings of all calls and the last state are
 * those of the same book in one piece, however it is split; a piece may be empty. Where
 * comaltzex_read reads the book, it gives the same headings, with these starts and stars.
 */
comaltzex_stream comaltzex_stream_new(void);

/*
 * Takes the next piece of a book. A line is finished by its byte 10. The list has list_len
 * numbers, and room for list_len / COMALTZEX_HEADING_SIZE headings (rounded down). The
 * first of these that holds is the answer:
 *
 *   21  the state is not open: its end was declared, or its numbers are such as no text of
 *       at most 65,536 bytes leaves; count is 0
 *   1   with this piece the bytes taken would be over 65,536; count is 0
 *   3   the piece finishes more headings than there is room for; count is the number
 *       needed
 *   0   count headings stand at the list's front, in the order of the text
 *
 * 21, 1 and 3 give the state as it was handed in, and leave the whole list as it was; 0
 * leaves what is past the headings as it was. So a piece that was refused with 3 may be
 * handed in again with more room, and after 1 the end may be declared of what was taken. A
 * list_len of 0 asks for the count, but takes a piece that finishes no heading. n bytes
 * finish at most n / 3 + 1 headings.
 */
comaltzex_streamed comaltzex_stream_piece(comaltzex_stream state, const uint8_t *bytes,
                                          size_t bytes_len, uint32_t *list, size_t list_len);

/*
 * Takes the end of a book as declared. It finishes the last line if this has no byte 10,
 * and so at most one heading. The first of these that holds is the answer:
 *
 *   21  the state is not open, as for comaltzex_stream_piece; count is 0
 *   3   the last line is a heading line, and the list has fewer than 3 numbers; count is 1,
 *       and the end is not declared: the state is open as before
 *   0   count headings, 0 or 1, stand at the list's front; of the state only `ended` has
 *       changed
 *
 * 21 and 3 give the state as it was handed in, and leave the whole list as it was; 0
 * leaves what is past the heading as it was.
 */
comaltzex_streamed comaltzex_stream_end(comaltzex_stream state, uint32_t *list,
                                        size_t list_len);

/* The library's own COMALTZEX_RECORD_SIZE. */
size_t comaltzex_record_size(void);

/* The library's own COMALTZEX_VERSION. */
uint32_t comaltzex_version(void);

/* The name of an answer's number, for messages: "unknown" if it is none. */
static inline const char *comaltzex_number_name(uint32_t number)
{
    switch (number) {
    case COMALTZEX_OK:
        return "ok";
    case COMALTZEX_TOO_LONG:
        return "too long";
    case COMALTZEX_TOO_DEEP:
        return "too deep";
    case COMALTZEX_NO_ROOM:
        return "no room";
    case COMALTZEX_NO_HEADING:
        return "no heading";
    case COMALTZEX_NO_DRAWER:
        return "no drawer";
    case COMALTZEX_NO_KEY:
        return "no key";
    case COMALTZEX_BAD_KEY:
        return "bad key";
    case COMALTZEX_BLANK_FIRST:
        return "blank lines first";
    case COMALTZEX_NOT_PROPERTY:
        return "not a property";
    case COMALTZEX_NOT_CLOSED:
        return "not closed";
    case COMALTZEX_NO_DAY:
        return "no calendar day";
    case COMALTZEX_BAD_ORDER:
        return "bad order";
    case COMALTZEX_BAD_TEXT:
        return "bad text";
    case COMALTZEX_BAD_NAME:
        return "bad name";
    case COMALTZEX_REPEATED_KEY:
        return "repeated key";
    case COMALTZEX_SHORT_OUTPUT:
        return "short output";
    case COMALTZEX_MISSING_KEY:
        return "missing key";
    case COMALTZEX_BAD_USED:
        return "bad bytes in use";
    case COMALTZEX_SEEN:
        return "request seen";
    case COMALTZEX_NOT_OPEN:
        return "not open";
    case COMALTZEX_CUT_LOG:
        return "cut log";
    default:
        return "unknown";
    }
}

#ifdef __cplusplus
}
#endif

#endif
