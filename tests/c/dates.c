/*
 * The C interface of document 02's order 1: timestamps, the dates of a planning line, and the days
 * between two dates.
 */
#include "check.h"
#include "comaltzex.h"

#include <string.h>

#define MOMENT_NUMBERS (sizeof(comaltzex_moment) / sizeof(uint32_t))

static const comaltzex_moment NOTHING = {{0, 0, 0}, 0, 0, 0, 0, 0, 0, 0, 0, 0, 0, 0, 0};
static char book[COMALTZEX_TEXT_LIMIT + 1];

static void sizes(void)
{
    check("size of a date", sizeof(comaltzex_date), 12);
    check("size of a moment", sizeof(comaltzex_moment), 60);
    check("size of a stamp", sizeof(comaltzex_stamp), 124);
    check("size of a found stamp", sizeof(comaltzex_found_stamp), 136);
    check("size of a plan", sizeof(comaltzex_plan), 376);
    check("size of days", sizeof(comaltzex_days), 8);
}

/* A date of January 2026, and a date with a time. */
static comaltzex_moment day(uint32_t day)
{
    comaltzex_moment moment = NOTHING;
    moment.date = (comaltzex_date){2026, 1, day};
    return moment;
}

static comaltzex_moment at_time(uint32_t in_month, uint32_t hour, uint32_t minute)
{
    comaltzex_moment moment = day(in_month);
    moment.has_time = 1;
    moment.hour = hour;
    moment.minute = minute;
    return moment;
}

static void check_moment(const char *what, comaltzex_moment seen, comaltzex_moment wanted)
{
    uint32_t found[MOMENT_NUMBERS], expected[MOMENT_NUMBERS];
    size_t i;
    memcpy(found, &seen, sizeof(found));
    memcpy(expected, &wanted, sizeof(expected));
    for (i = 0; i < MOMENT_NUMBERS; i++)
        check(what, found[i], expected[i]);
}

/* Checks the timestamp at byte `at` of a text, which ends before byte `end`. */
static void check_stamp_at(const char *what, const char *text, size_t text_len, size_t at,
                           comaltzex_stamp wanted, size_t end)
{
    comaltzex_found_stamp seen = comaltzex_timestamp((const uint8_t *)text, text_len, at);
    check(what, seen.kind, wanted.kind);
    check(what, seen.end, end);
    check_moment(what, seen.first, wanted.first);
    check_moment(what, seen.second, wanted.second);
}

/* Checks a timestamp that is a whole text. */
static void check_stamp(const char *text, uint32_t kind, comaltzex_moment first,
                        comaltzex_moment second)
{
    const comaltzex_stamp stamp = {kind, first, second};
    check_stamp_at(text, text, strlen(text), 0, stamp, strlen(text));
}

/* Checks a timestamp of one active date, 16 January, at the front of a text. */
static void check_front(const char *text)
{
    const comaltzex_stamp stamp = {COMALTZEX_STAMP_ACTIVE, day(16), NOTHING};
    check_stamp_at(text, text, strlen(text), 0, stamp, strlen("<2026-01-16>"));
}

static void check_no_stamp(const char *text, size_t at)
{
    const comaltzex_stamp none = {COMALTZEX_STAMP_NONE, NOTHING, NOTHING};
    check_stamp_at(text, text, strlen(text), at, none, 0);
}

static void kinds_of_stamps(void)
{
    const comaltzex_moment nine = at_time(16, 9, 5), ten = at_time(16, 10, 30);
    check_stamp("<2026-01-16>", COMALTZEX_STAMP_ACTIVE, day(16), NOTHING);
    check_stamp("<2026-01-16 Fri 9:05>", COMALTZEX_STAMP_ACTIVE, nine, NOTHING);
    check_stamp("<2026-01-16 9:05-10:30>", COMALTZEX_STAMP_ACTIVE_TIMES, nine, ten);
    check_stamp("<2026-01-16>--<2026-01-17>", COMALTZEX_STAMP_ACTIVE_DATES, day(16), day(17));
    check_stamp("[2026-01-16 Fri]", COMALTZEX_STAMP_INACTIVE, day(16), NOTHING);
    check_stamp("[2026-01-16 09:05-10:30]", COMALTZEX_STAMP_INACTIVE_TIMES, nine, ten);
    check_stamp("[2026-01-16 x]--[2026-01-16 10:30]", COMALTZEX_STAMP_INACTIVE_DATES, day(16), ten);
    check_stamp("<2026-01-16 \tFr\xC3\xA9\r9:05>", COMALTZEX_STAMP_ACTIVE, nine, NOTHING);
}

static void repeaters_and_delays(void)
{
    comaltzex_moment repeated = day(16), both = day(17), timed = at_time(16, 9, 0);
    repeated.repeat_mark = 1;
    repeated.every = 1;
    repeated.every_unit = 'w';
    check_stamp("<2026-01-16 +1W>", COMALTZEX_STAMP_ACTIVE, repeated, NOTHING);
    repeated.repeat_mark = 2;
    repeated.within = 999999999;
    repeated.within_unit = 'm';
    check_stamp("<2026-01-16 ++1w/999999999m>", COMALTZEX_STAMP_ACTIVE, repeated, NOTHING);

    both.repeat_mark = 3;
    both.every = 2;
    both.every_unit = 'd';
    both.delay_mark = 2;
    both.delay = 30;
    both.delay_unit = 'h';
    check_stamp("[2026-01-17 .+2d --30h]", COMALTZEX_STAMP_INACTIVE, both, NOTHING);
    both.delay_first = 1;
    check_stamp("[2026-01-17 --30H .+2D]", COMALTZEX_STAMP_INACTIVE, both, NOTHING);
    check_stamp("<2026-01-16 ++1w/999999999m>--<2026-01-17 --30h .+2d>",
                COMALTZEX_STAMP_ACTIVE_DATES, repeated, both);

    timed.delay_mark = 1;
    timed.delay = 3;
    timed.delay_unit = 'y';
    check_stamp("<2026-01-16 9:00 -3y>", COMALTZEX_STAMP_ACTIVE, timed, NOTHING);
    timed.repeat_mark = 1;
    timed.every = 0;
    timed.every_unit = 'm';
    check_stamp("<2026-01-16 9:00-9:30 +0m -3y>", COMALTZEX_STAMP_ACTIVE_TIMES, timed,
                at_time(16, 9, 30));
}

static void only_the_shape_is_judged(void)
{
    comaltzex_moment moment = at_time(30, 99, 77);
    moment.date.month = 2;
    check_stamp("<2026-02-30 99:77>", COMALTZEX_STAMP_ACTIVE, moment, NOTHING);
    moment = NOTHING;
    moment.date.month = 99;
    check_stamp("[0000-99-00]", COMALTZEX_STAMP_INACTIVE, moment, NOTHING);
}

static void no_stamps(void)
{
    check_no_stamp("", 0);
    check_no_stamp("2026-01-16", 0);
    check_no_stamp("<999-01-16>", 0);
    check_no_stamp("<2026-01-16", 0);
    check_no_stamp("<2026-01-16]", 0);
    check_no_stamp("< 2026-01-16>", 0);
    check_no_stamp("<2026-01-16 >", 0);
    check_no_stamp("<2026-01-16\nFri>", 0);
    check_no_stamp("<2026-01-16 9:05 Fri>", 0);
    check_no_stamp("<2026-01-16 +1d 9:05>", 0);
    check_no_stamp("<2026-01-16 +1x>", 0);
    check_no_stamp("<2026-01-16 +1234567890d>", 0);
    check_no_stamp("<2026-01-16 -1d -1d>", 0);
    check_no_stamp("<%%(diary-float t 4 2)>", 0);
    check_no_stamp("<2026-01-16>", 1);
    check_no_stamp("<2026-01-16>", 12);
    check_no_stamp("<2026-01-16>", (size_t)-1);
}

static void stamps_with_text_after(void)
{
    check_front("<2026-01-16> x");
    check_front("<2026-01-16>--<2026-01>");
    check_front("<2026-01-16>--[2026-01-17]");
    check_front("<2026-01-16>--<2026-01-17 9:05-10:30>");
}

static void stamp_in_a_long_text(void)
{
    const size_t start = sizeof(book) - 12;
    const comaltzex_stamp stamp = {COMALTZEX_STAMP_ACTIVE, day(16), NOTHING};
    memset(book, ' ', sizeof(book));
    memcpy(book + start, "<2026-01-16>", 12);
    check_stamp_at("stamp in 65,537 bytes", book, sizeof(book), start, stamp, sizeof(book));
}

static void check_plan(const char *what, const char *text, size_t text_len, size_t at,
                       comaltzex_plan wanted)
{
    comaltzex_plan seen = comaltzex_planning((const uint8_t *)text, text_len, at);
    const comaltzex_stamp found[] = {seen.closed, seen.deadline, seen.scheduled};
    const comaltzex_stamp expected[] = {wanted.closed, wanted.deadline, wanted.scheduled};
    size_t i;
    check(what, seen.number, wanted.number);
    for (i = 0; i < LENGTH(found); i++) {
        check(what, found[i].kind, expected[i].kind);
        check_moment(what, found[i].first, expected[i].first);
        check_moment(what, found[i].second, expected[i].second);
    }
}

static const comaltzex_plan NO_DATES;

static void check_unplanned(const char *text)
{
    check_plan(text, text, strlen(text), 0, NO_DATES);
}

static void plans(void)
{
    static const char text[] = "* A\n closed: [2026-01-16] CLOSED: [2026-01-17]\t"
                               "Deadline:  <2026-01-18 9:00> \r\n** B\nSCHEDULED: <2026-01-19>";
    comaltzex_plan a = NO_DATES, b = NO_DATES;
    a.closed = (comaltzex_stamp){COMALTZEX_STAMP_INACTIVE, day(17), NOTHING};
    a.deadline = (comaltzex_stamp){COMALTZEX_STAMP_ACTIVE, at_time(18, 9, 0), NOTHING};
    b.scheduled = (comaltzex_stamp){COMALTZEX_STAMP_ACTIVE, day(19), NOTHING};
    check_plan("planning of A", text, sizeof(text) - 1, 0, a);
    check_plan("planning of B", text, sizeof(text) - 1, 78, b);
    check_unplanned("* A");
    check_unplanned("* A\n\nCLOSED: [2026-01-16]\n");
    check_unplanned("* A\n* B\nCLOSED: [2026-01-16]\n");
    check_unplanned("* A\nSCHEDULED: ring him back\n");
    check_unplanned("* A\nCLOSED: [2026-01-16] x\n");
    check_unplanned("* A\nCLOSED:[2026-01-16]\n");
    check_unplanned("* A\nCLOSED: [2026-01-16]CLOSED: [2026-01-17]\n");
}

static void refused_plans(void)
{
    static const char heading[] = "* A\nCLOSED: [2026-01-16]\n";
    comaltzex_plan plan = NO_DATES;
    plan.number = COMALTZEX_NO_HEADING;
    check_plan("planning of no text", "", 0, 0, plan);
    check_plan("planning in mid-line", heading, sizeof(heading) - 1, 1, plan);
    check_plan("planning of a second star", "** A\n", 5, 1, plan);
    check_plan("planning of its own line", heading, sizeof(heading) - 1, 4, plan);
    check_plan("planning past the text", heading, sizeof(heading) - 1, (size_t)-1, plan);

    memset(book, 'x', sizeof(book));
    memcpy(book, heading, sizeof(heading) - 1);
    plan.number = COMALTZEX_TOO_LONG;
    check_plan("planning in 65,537 bytes", book, sizeof(book), 0, plan);
    check_plan("planning of no heading in 65,537 bytes", book, sizeof(book), 1, plan);
    plan = NO_DATES;
    plan.closed = (comaltzex_stamp){COMALTZEX_STAMP_INACTIVE, day(16), NOTHING};
    check_plan("planning in 65,536 bytes", book, sizeof(book) - 1, 0, plan);
}

static void check_answer(const char *what, comaltzex_date first, comaltzex_date second,
                         uint32_t number, int32_t days)
{
    comaltzex_days seen = comaltzex_days_between(first.year, first.month, first.day, second.year,
                                                 second.month, second.day);
    check(what, seen.number, number);
    check(what, (size_t)seen.days, (size_t)days);
}

/* Checks the days from the first date to the second, and back. */
static void check_days(const char *what, comaltzex_date first, comaltzex_date second, int32_t days)
{
    check_answer(what, first, second, COMALTZEX_OK, days);
    check_answer(what, second, first, COMALTZEX_OK, -days);
}

/* Checks a date that is no calendar day, as the first and as the second. */
static void check_no_day(const char *what, uint32_t year, uint32_t month, uint32_t in_month)
{
    const comaltzex_date good = {2026, 1, 16}, bad = {year, month, in_month};
    check_answer(what, bad, good, COMALTZEX_NO_DAY, 0);
    check_answer(what, good, bad, COMALTZEX_NO_DAY, 0);
    check_answer(what, bad, bad, COMALTZEX_NO_DAY, 0);
}

static void days_between(void)
{
    const comaltzex_date first = {1, 1, 1}, last = {9999, 12, 31};
    check_days("no days", last, last, 0);
    check_days("all days", first, last, 3652058);
    check_days("new year", (comaltzex_date){2023, 12, 31}, (comaltzex_date){2024, 1, 1}, 1);
    check_days("1900", (comaltzex_date){1900, 2, 28}, (comaltzex_date){1900, 3, 1}, 1);
    check_days("2000", (comaltzex_date){2000, 2, 29}, (comaltzex_date){2000, 3, 1}, 1);
    check_days("October 1582", (comaltzex_date){1582, 10, 4}, (comaltzex_date){1582, 10, 15}, 11);
    check_days("November", (comaltzex_date){2026, 11, 30}, (comaltzex_date){2026, 12, 1}, 1);
}

static void no_days(void)
{
    check_no_day("year 0", 0, 1, 1);
    check_no_day("year 10000", 10000, 1, 1);
    check_no_day("month 0", 2026, 0, 1);
    check_no_day("month 13", 2026, 13, 1);
    check_no_day("day 0", 2026, 1, 0);
    check_no_day("day 32", 2026, 1, 32);
    check_no_day("29 February 1900", 1900, 2, 29);
    check_no_day("30 February 2000", 2000, 2, 30);
    check_no_day("31 November", 2026, 11, 31);
    check_no_day("numbers of 32 bits", 0xFFFFFFFFu, 0xFFFFFFFFu, 0xFFFFFFFFu);
}

int main(void)
{
    sizes();
    kinds_of_stamps();
    repeaters_and_delays();
    only_the_shape_is_judged();
    no_stamps();
    stamps_with_text_after();
    stamp_in_a_long_text();
    plans();
    refused_plans();
    days_between();
    no_days();
    return all_passed("dates");
}
