#!/usr/bin/env python3
"""Holds the library's calls about dates (document 02, order 1) to Python's own calendar and regular expressions.

    python3 tests/dates.py [LIBDIR]

Links LIBDIR/libcomaltzex.a (COMALTZEX_LIB_DIR, else target/staticlib of the repository) as a shared object into target/, and asks:
the day count for every day of years 1 to 9999 and for dates that are no days; timestamps and planning lines, those of the cases and
seeded ones with damaged parts. At the first answer that differs it says which, with status 1.
"""
import ctypes
import datetime
import os
import pathlib
import random
import re
import struct
import subprocess
import sys

HERE = pathlib.Path(__file__).resolve().parent
SHARED = HERE.parent / "target" / "shared" / "libcomaltzex.so"
SEED = 1
STAMPS = 250_000
LINES = 80_000
PAIRS = 100_000


# The library. Its structures are read as plain numbers, in the header's order.

class Days(ctypes.Structure):
    _fields_ = [("number", ctypes.c_uint32), ("days", ctypes.c_int32)]


class FoundStamp(ctypes.Structure):
    _fields_ = [("kind", ctypes.c_uint32), ("end", ctypes.c_size_t), ("moments", ctypes.c_uint32 * 30)]


class Plan(ctypes.Structure):
    _fields_ = [("number", ctypes.c_uint32), ("stamps", ctypes.c_uint32 * 93)]


class Reading(ctypes.Structure):
    _fields_ = [("number", ctypes.c_uint32), ("count", ctypes.c_size_t)]


def linked(directory):
    """The archive as a shared object, loaded."""
    SHARED.parent.mkdir(parents=True, exist_ok=True)
    archive = os.path.join(directory, "libcomaltzex.a")
    whole = ["-Wl,--whole-archive", archive, "-Wl,--no-whole-archive"]
    done = subprocess.run([os.environ.get("CC", "cc"), "-shared", "-o", str(SHARED), *whole])
    require(done.returncode == 0, f"{archive} cannot be linked")
    return ctypes.CDLL(str(SHARED))


class Library:
    def __init__(self, directory):
        self.library = linked(directory)
        number, size, text = ctypes.c_uint32, ctypes.c_size_t, ctypes.c_char_p
        self.days = self.call("comaltzex_days_between", Days, [number] * 6)
        self.stamp = self.call("comaltzex_timestamp", FoundStamp, [text, size, size])
        self.plan = self.call("comaltzex_planning", Plan, [text, size, size])
        self.read = self.call("comaltzex_read", Reading, [text, size, ctypes.c_void_p, size])

    def call(self, name, answer, arguments):
        require(hasattr(self.library, name), f"the library has no {name}")
        function = getattr(self.library, name)
        function.restype, function.argtypes = answer, arguments
        return function

    def timestamp(self, text, at):
        """Kind, end, and the numbers of both moments."""
        return struct.unpack("=I4xQ30I", self.stamp(text, len(text), at))

    def planning(self, text, at):
        """The answer's number, then kind and moments of `CLOSED`, `DEADLINE`, `SCHEDULED`."""
        return struct.unpack("=94I", self.plan(text, len(text), at))

    def records(self, text):
        table = (ctypes.c_uint32 * (8 * 64))()
        answer = self.read(text, len(text), table, len(table))
        if answer.number != 0:
            differs(f"reading of {text!r}", "number 0", f"number {answer.number}")
        numbers = list(table)
        return [numbers[8 * index : 8 * index + 8] for index in range(answer.count)]


def differs(call, expected, seen):
    print(f"dates: {call}:\n  expected {expected}\n  library  {seen}")
    sys.exit(1)


MOMENT = """year month day has_time hour minute repeat_mark every every_unit within within_unit delay_mark delay delay_unit
delay_first""".split()
MOMENTS = [f"{half}.{name}" for half in ("first", "second") for name in MOMENT]
FOUND_STAMP = ["kind", "end", *MOMENTS]
PLAN = ["number"] + [f"{word}.{name}" for word in ("closed", "deadline", "scheduled") for name in ["kind", *MOMENTS]]


def same_numbers(call, names, expected, seen):
    if expected != seen:
        numbers = [place for place in zip(names, expected, seen) if place[1] != place[2]]
        differs(call, *(", ".join(f"{place[0]} {place[which]}" for place in numbers) for which in (1, 2)))


def require(holds, told):
    if not holds:
        print(f"dates: {told}")
        sys.exit(1)


# Days: datetime.date counts in the Gregorian calendar throughout, from year 1 to 9999.

FIRST, LAST = datetime.date.min, datetime.date.max


def fields(day):
    return day.year, day.month, day.day


def check_days(library, first, second, expected):
    answer = library.days(*first, *second)
    if (answer.number, answer.days) != expected:
        differs(f"days from {first} to {second}", expected, (answer.number, answer.days))


def every_day(library):
    """The number of every day, in steps from the first."""
    days = library.days
    for count in range(LAST.toordinal()):
        day = datetime.date.fromordinal(count + 1)
        answer = days(1, 1, 1, day.year, day.month, day.day)
        if answer.days != count or answer.number != 0:
            differs(f"days from (1, 1, 1) to {fields(day)}", (0, count), (answer.number, answer.days))
    return LAST.toordinal()


def month_ends():
    """The first and the last day of every month of every year."""
    for year in range(FIRST.year, LAST.year + 1):
        for month in range(1, 13):
            yield datetime.date(year, month, 1)
            later = [day for day in (28, 29, 30, 31) if is_day(year, month, day)]
            yield datetime.date(year, month, later[-1])


def months_both_ways(library):
    for day in month_ends():
        count = day.toordinal() - FIRST.toordinal()
        left = LAST.toordinal() - day.toordinal()
        check_days(library, fields(day), fields(FIRST), (0, -count))
        check_days(library, fields(day), fields(LAST), (0, left))
        check_days(library, fields(LAST), fields(day), (0, -left))


def random_pairs(library, chance):
    for _ in range(PAIRS):
        first, second = (datetime.date.fromordinal(chance.randint(1, LAST.toordinal())) for _ in range(2))
        check_days(library, fields(first), fields(second), (0, (second - first).days))


def is_day(year, month, day):
    try:
        datetime.date(year, month, day)
    except (ValueError, OverflowError):
        return False
    return True


def edges(library):
    """Dates around what the calendar has, in the first place, in the second and in both: 11 for each that is no day."""
    large = [2**31 - 1, 2**31, 2**32 - 1]
    years = [0, 1, 2, 4, 100, 400, 1582, 1896, 1900, 1904, 2000, 2023, 2024, 2100, 9996, 9998, 9999, 10_000, 10_001, 65_537, *large]
    months = [*range(15), 256, 257, *large]
    days = [0, 1, 2, *range(27, 34), 256, 257, *large]
    good = datetime.date(2024, 2, 29)
    refused = 0
    for year, month, day in ((year, month, day) for year in years for month in months for day in days):
        date = (year, month, day)
        if is_day(*date):
            count = datetime.date(*date).toordinal() - good.toordinal()
            expected = [(0, count), (0, -count), (0, 0)]
        else:
            refused += 1
            expected = [(11, 0)] * 3
        places = [(fields(good), date), (date, fields(good)), (date, date)]
        for (first, second), answer in zip(places, expected):
            check_days(library, first, second, answer)
    return refused


# Stamps, by the patterns of source 001, "Timestamps". Bytes: \d is an ASCII digit. One or more blank bytes between the parts.

BLANK = rb"[ \t\r]+"
DAYNAME = rb"[^ \t\r\n0-9+\-\]>]+"
UNIT = rb"[hdwmyHDWMY]"
VALUE = rb"\d{1,9}"
REPEAT_MARKS = [b"+", b"++", b".+"]
DELAY_MARKS = [b"-", b"--"]


def named(name, pattern):
    return b"(?P<%s>%s)" % (name.encode(), pattern)


def date(half):
    parts = named(half + "year", rb"\d{4}"), named(half + "month", rb"\d\d"), named(half + "day", rb"\d\d")
    return b"-".join(parts) + b"(?:%s%s)?" % (BLANK, DAYNAME)


def time(half):
    return named(half + "hour", rb"\d{1,2}") + b":" + named(half + "minute", rb"\d\d")


def repeater(half):
    every = named(half + "every", VALUE) + named(half + "every_unit", UNIT)
    within = named(half + "within", VALUE) + named(half + "within_unit", UNIT)
    return named(half + "repeat_mark", rb"\+\+|\.\+|\+") + every + b"(?:/" + within + b")?"


def delay(half):
    return named(half + "delay_mark", b"--|-") + named(half + "delay", VALUE) + named(half + "delay_unit", UNIT)


def repeater_or_delay(half):
    """A repeater and perhaps a delay, or a delay and perhaps a repeater, or nothing; in the second case names begin with `d`."""
    one = BLANK + repeater(half) + b"(?:" + BLANK + delay(half) + b")?"
    other = BLANK + delay("d" + half) + b"(?:" + BLANK + repeater("d" + half) + b")?"
    return b"(?:" + one + b"|" + other + b")?"


def inside(half):
    """DATE TIME REPEATER-OR-DELAY"""
    return date(half) + b"(?:" + BLANK + time(half) + b")?" + repeater_or_delay(half)


def inside_range():
    """DATE TIME-TIME REPEATER-OR-DELAY"""
    return date("a") + BLANK + time("a") + b"-" + time("b") + repeater_or_delay("a")


def patterns(opening, closing, kind):
    """The patterns of one pair of brackets; the longest stamp first."""
    def pattern(*parts):
        return re.compile(b"--".join(opening + part + closing for part in parts))
    return [(kind + 2, pattern(inside("a"), inside("b"))), (kind + 1, pattern(inside_range())), (kind, pattern(inside("a")))]


PATTERNS = patterns(b"<", b">", 1) + patterns(rb"\[", rb"\]", 4)
NO_MOMENT = (0,) * 15


def number(bytes_or_none):
    return int(bytes_or_none or 0)


def unit(bytes_or_none):
    return ord(bytes_or_none.lower()) if bytes_or_none else 0


def mark(bytes_or_none, marks):
    return marks.index(bytes_or_none) + 1 if bytes_or_none else 0


def moment(found, half):
    """The numbers of one half, from the groups of a match."""
    delay_first = found.get("d" + half + "delay_mark") is not None
    order = ("d" if delay_first else "") + half
    def part(name):
        return found.get(order + name)
    date_and_time = [number(found[half + name]) for name in ("year", "month", "day", "hour", "minute")]
    date_and_time.insert(3, int(found[half + "hour"] is not None))
    repeated = [mark(part("repeat_mark"), REPEAT_MARKS), number(part("every")), unit(part("every_unit"))]
    within = [number(part("within")), unit(part("within_unit"))]
    delayed = [mark(part("delay_mark"), DELAY_MARKS), number(part("delay")), unit(part("delay_unit"))]
    both = delay_first and part("repeat_mark") is not None
    return (*date_and_time, *repeated, *within, *delayed, int(both))


def second_moment(kind, found, first):
    """None of a date alone; the same date with the second time of a range, without repeater and delay; the second date."""
    if kind in (1, 4):
        return NO_MOMENT
    if kind in (2, 5):
        return (*first[:3], 1, number(found["bhour"]), number(found["bminute"]), *(0,) * 9)
    return moment(found, "b")


def expected_stamp(text, at):
    """Kind, end, and the numbers of both moments; all 0 where no pattern matches."""
    for kind, pattern in PATTERNS:
        match = pattern.match(text, at)
        if match is None:
            continue
        found = match.groupdict()
        first = moment(found, "a")
        return (kind, match.end(), *first, *second_moment(kind, found, first))
    return (0,) * 32


def check_stamp(library, text, at, kinds):
    expected = expected_stamp(text, at)
    kinds[expected[0]] += 1
    same_numbers(f"timestamp at byte {at} of {text!r}", FOUND_STAMP, expected, library.timestamp(text, at))


# Planning, by source 001, "Planning".

KEYWORDS = [b"closed", b"deadline", b"scheduled"]
PART = re.compile(rb"(?i:(closed|deadline|scheduled)):" + BLANK)
SPACES = re.compile(BLANK)


def without_names(pattern):
    return re.sub(rb"\(\?P<\w+>", b"(?:", pattern.pattern)


STAMP = b"(?:" + b"|".join(without_names(pattern) for _, pattern in PATTERNS) + b")"
INFO = rb"(?i:closed|deadline|scheduled):" + BLANK + STAMP
PLANNING = re.compile(rb"[ \t]*(" + INFO + b"(?:" + BLANK + INFO + rb")*)[ \t\r]*")


def expected_stamps(body):
    """The stamp of each keyword of a planning line's body: the last one."""
    stamps = [(0,) * 31] * 3
    at = 0
    while at < len(body):
        part = PART.match(body, at)
        kind, end, *moments = expected_stamp(body, part.end())
        stamps[KEYWORDS.index(part.group(1).lower())] = (kind, *moments)
        after = SPACES.match(body, end)
        at = after.end() if after else end
    return sum(stamps, ())


def check_line(library, line, counts):
    """A line under a heading: the planning call, and the record of kind 4 with the body as inner span."""
    text = b"* A\n" + line + b"\n:PROPERTIES:\n:END:\n"
    match = PLANNING.fullmatch(line.split(b"\n")[0])
    counts[match is not None] += 1
    expected = (0, *expected_stamps(match.group(1))) if match else (0,) * 94
    same_numbers(f"planning at byte 0 of {text!r}", PLAN, expected, library.planning(text, 0))
    spans = [tuple(record[3:5]) for record in library.records(text) if record[0] == 4]
    expected = [(4 + match.start(1), 4 + match.end(1))] if match else []
    if expected != spans:
        differs(f"bodies of planning lines in {text!r}", expected, spans)


# Texts: those of the cases, and seeded ones.

ESCAPES = {b"n": b"\n", b"r": b"\r", b"t": b"\t", b"s": b" ", b"\\": b"\\", b'"': b'"'}


def unescaped(line):
    def byte(match):
        escape = match.group(1)
        return ESCAPES.get(escape) or bytes.fromhex(escape[1:].decode())
    return re.sub(rb"\\(x[0-9A-F]{2}|.)", byte, line)


def case_texts():
    """Every line of a text in the cases, and every text of a stamp's own."""
    for path in sorted((HERE / "cases").glob("*.txt")):
        for line in path.read_bytes().split(b"\n"):
            own = re.match(rb'stamp "(.*)" -> ', line)
            if own or line.startswith(b">"):
                yield unescaped(own.group(1) if own else line[1:])


def seeded_amount(chance):
    return b"%d%c" % (chance.choice([0, 1, 2, 3, 14, 999_999_999, 1_000_000_000]), chance.choice(b"hdwmyHDWMY"))


def seeded_repeater(chance):
    within = b"/" + seeded_amount(chance) if chance.random() < 0.3 else b""
    return chance.choice(REPEAT_MARKS) + seeded_amount(chance) + within


def seeded_blank(chance):
    return chance.choice([b" ", b" ", b" ", b"\t", b"\r", b" \t\r "])


def seeded_parts(chance):
    """What may follow a date, in the stamp's order; seldom in another."""
    parts = []
    if chance.random() < 0.5:
        parts.append(chance.choice([b"Mon", b"x", b".", b"\xc3\xa9", b"[", b"<", b"a:/", b"\x0b"]))
    if chance.random() < 0.4:
        parts.append(chance.choice([b"9:05", b"09:05", b"77:77", b"9:05-10:30", b"00:00-0:00"]))
    tail = [seeded_repeater(chance), chance.choice(DELAY_MARKS) + seeded_amount(chance)]
    chance.shuffle(tail)
    parts += tail[: chance.choice([0, 0, 1, 1, 2])]
    if chance.random() < 0.05:
        chance.shuffle(parts)
    return parts


def seeded_half(chance, opening, closing):
    stamp = opening + chance.choice([b"2026-01-05", b"0000-99-00", b"9999-12-31"])
    for part in seeded_parts(chance):
        stamp += seeded_blank(chance) + part
    return stamp + closing


def seeded_stamp(chance):
    brackets = chance.choice([(b"<", b">"), (b"[", b"]")])
    stamp = seeded_half(chance, *brackets)
    if chance.random() < 0.3:
        stamp += b"--" + seeded_half(chance, *brackets)
    return stamp


def damaged(chance, text):
    """The text with a byte taken away, doubled, changed, added, or two bytes exchanged."""
    at = chance.randrange(len(text))
    byte = bytes([chance.choice(b"0123456789-+.:/<>[] \t\r\nhdwmyHxA%\xff\x0b")])
    return chance.choice([
        text[:at] + text[at + 1 :],
        text[:at] + text[at : at + 1] + text[at:],
        text[:at] + byte + text[at + 1 :],
        text[:at] + byte + text[at:],
        text[:at] + text[at + 1 : at + 2] + text[at : at + 1] + text[at + 2 :],
    ])


def stamps(library, chance, texts):
    """At every opening bracket of the cases; then seeded stamps and the cases' own, most of them damaged."""
    kinds = [0] * 7
    for text in texts:
        for at in (match.start() for match in re.finditer(rb"[<\[]", text)):
            check_stamp(library, text, at, kinds)
    own = [text for text in texts if text[:1] in (b"<", b"[")]
    for _ in range(STAMPS):
        text = seeded_stamp(chance) if chance.random() < 0.7 else chance.choice(own)
        for _ in range(chance.choice([0, 1, 1, 2])):
            text = damaged(chance, text) or b"<"
        check_stamp(library, text, 0, kinds)
    require(min(kinds) >= STAMPS // 500, f"too few stamps of some kind: {kinds}")
    return kinds


def seeded_line(chance):
    """A planning line of one to three parts."""
    line = chance.choice([b"", b"", b"", b" ", b"\t ", b"\r"])
    for part in range(chance.choice([1, 1, 2, 3])):
        line += seeded_blank(chance) if part else b""
        line += chance.choice([b"CLOSED:", b"DEADLINE:", b"SCHEDULED:", b"closed:", b"Deadline:", b"sCHEDULED:"])
        line += seeded_blank(chance) + seeded_stamp(chance)
    return line + chance.choice([b"", b"", b"", b" ", b"\r", b" x"])


def lines(library, chance, texts):
    """The cases' lines with a planning word; then seeded lines and those, half of them damaged."""
    counts = [0, 0]
    own = [text for text in texts if re.search(rb"(?i)closed|deadline|scheduled", text) and b"*" not in text]
    for line in own:
        check_line(library, line, counts)
    for _ in range(LINES):
        line = seeded_line(chance) if chance.random() < 0.8 else chance.choice(own)
        if chance.random() < 0.5:
            line = damaged(chance, line)
        check_line(library, line, counts)
    require(min(counts) >= LINES // 10, f"too few planning lines or too few others: {counts}")
    return counts


def main():
    here = os.environ.get("COMALTZEX_LIB_DIR") or HERE.parent / "target" / "staticlib"
    library = Library(sys.argv[1] if len(sys.argv) > 1 else here)
    chance = random.Random(SEED)
    texts = list(case_texts())
    kinds = stamps(library, chance, texts)
    counts = lines(library, chance, texts)
    refused = edges(library)
    months_both_ways(library)
    random_pairs(library, chance)
    days = every_day(library)
    planned = f"{counts[1]} planning lines, {counts[0]} others"
    print(f"dates: {days} days, {refused} dates that are none; stamps by kind {kinds}; {planned}")


main()
