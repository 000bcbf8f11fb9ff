#!/bin/sh
# Runs the program on document 01's samples, on the books, at the limits and where reading or writing fails. All that it prints, on
# standard output and on standard error, is held to the documents' words or to the plain reader's table, byte for byte.
#     sh tests/program.sh [PROGRAM]          (target/bin/orgtable, or another one, to see this script fail)
set -eu
program=${1:-$(dirname "$0")/../target/bin/orgtable}
[ -x "$program" ] || { echo "program: $program is missing: tools/build program" >&2; exit 1; }
[ -c /dev/full ] || { echo 'program: /dev/full is missing' >&2; exit 1; }
program=$(cd "$(dirname "$program")" && pwd)/$(basename "$program")
cd "$(dirname "$0")/.."

room=$(mktemp -d)
trap 'rm -rf "$room"' EXIT
text=$room/text wanted=$room/wanted complaint=$room/complaint out=$room/out err=$room/err
held=0
failed=0

export CARGO_TARGET_DIR="${CARGO_TARGET_DIR:-$PWD/target/cargo}"
(cd tests/reader && cargo build --offline --release --quiet --bin plain-table)
plain=$CARGO_TARGET_DIR/release/plain-table
"${CC:-cc}" -std=c99 -Wall -Wextra -pedantic -Werror -o "$room/paused" tests/program/paused.c

# run COMMAND..: runs it, with standard input and output as the caller has them.
run() {
    : >"$out"
    status=0
    timeout 10 "$@" 2>"$err" || status=$?
}

# expect NAME: the last run printed $wanted and complained as in $complaint. Not for use in a pipe: a count made there is lost.
expect() {
    if [ "$status" = 0 ] && cmp -s "$wanted" "$out" && cmp -s "$complaint" "$err"; then
        held=$((held + 1))
        return
    fi
    failed=$((failed + 1))
    echo "program: $1: status $status, and (< wanted, > found):" >&2
    diff "$wanted" "$out" | head -n 4 >&2
    diff "$complaint" "$err" | head -n 4 >&2
}

# prints NAME: for $text the program prints $wanted; also when $text comes through a pipe in pieces of seven bytes.
prints() {
    : >"$complaint"
    run "$program" <"$text" >"$out"
    expect "$1"
    status=0
    dd if="$text" bs=7 2>/dev/null | timeout 10 "$program" >"$out" 2>"$err" || status=$?
    expect "$1, in pieces"
}

# prints_plain NAME: it prints what the plain reader does.
prints_plain() {
    "$plain" <"$text" >"$wanted"
    prints "$1"
}

# prints_kinds TEXT KINDS: it prints what the plain reader does, and the first numbers are these.
prints_kinds() {
    printf '%b' "$1" >"$text"
    prints_plain "$1"
    cut -d ' ' -f 1 "$out" | paste -s -d ' ' - >"$room/kinds"
    mv "$room/kinds" "$out"
    echo "$2" >"$wanted"
    expect "$1, kinds"
}

# says NAME LINE: the last run printed nothing but one line to standard error.
says() {
    : >"$wanted"
    echo "$2" >"$complaint"
    expect "$1"
}

# nested N: N blocks, each in the one before
nested() {
    awk -v n="$1" 'BEGIN { for (i = 1; i <= n; i++) print "#+begin_b" i; print "x"; for (i = n; i >= 1; i--) print "#+end_b" i }'
}

# rows N: a table of N rows; with the table, the section and the document N + 3 records
rows() {
    awk -v n="$1" 'BEGIN { for (i = 0; i < n; i++) print "|" }'
}

# document 01, "Sample readings", with the line numbers of document 02, order 7
printf '* A\n:PROPERTIES:\n:VIN: 7\n:END:\n\nhi\n' >"$room/first"
cp "$room/first" "$text"
cat >"$wanted" <<'END'
1 0 35 0 35 0 0 0
2 0 35 4 35 0 1 0
3 4 35 4 35 1 0 1
5 4 32 17 25 2 0 1
6 17 25 23 24 3 0 2
16 32 35 32 35 2 0 5
END
prints 'first sample'
: >"$text"
echo '1 0 0 0 0 0 0 0' >"$wanted"
prints 'empty text'
prints_kinds '* A\n\n:PROPERTIES:\n:VIN: 7\n:END:\n' '1 2 3 7 16'
prints_kinds '#+begin_src\n* A\n#+end_src\n' '1 3 16 2 3 16'
prints_kinds '*' '1 3 16'
prints_kinds '* ' '1 2'
prints_kinds '----' '1 3 16'
prints_kinds '-----' '1 3 14'
prints_kinds '* A\n:PROPERTIES:\n:+:\n:END:\n' '1 2 3 7 16'
prints_kinds '* A\n:PROPERTIES:\n:A++:\n:END:\n' '1 2 3 7 16'
prints_kinds '* A\n:PROPERTIES:\n:A+:\n:END:\n' '1 2 3 5 6'
prints_kinds '#+:' '1 3 16'
prints_kinds '#+::' '1 3 15'
# document 02, order 1
prints_kinds '* A\nSCHEDULED: <2024-01-01>\n:PROPERTIES:\n:END:\n' '1 2 3 4 5'
prints_kinds '* A\nSCHEDULED: ring him back\n:PROPERTIES:\n:END:\n' '1 2 3 16 7'
printf '\r\n\ra\n' >"$text"
printf '1 0 5 0 5 0 0 0\n3 2 5 2 5 0 0 1\n16 2 5 2 5 1 0 1\n' >"$wanted"
prints 'byte 13 ends no line'

for book in tests/books/*.org; do
    cp "$book" "$text"
    prints_plain "$book"
done

# the limits
head -c 65536 /dev/zero | tr '\0' 'x' >"$text"
printf '1 0 65536 0 65536 0 0 0\n3 0 65536 0 65536 0 0 0\n16 0 65536 0 65536 1 0 0\n' >"$wanted"
prints '65,536 bytes'
{ head -c 65535 /dev/zero | tr '\0' '\n' && printf x; } >"$text"
printf '1 0 65536 0 65536 0 0 0\n3 65535 65536 65535 65536 0 0 65535\n16 65535 65536 65535 65536 1 0 65535\n' >"$wanted"
prints 'the greatest line number'
head -c 65537 /dev/zero | tr '\0' 'x' >"$text"
echo 'refused 1' >"$wanted"
prints '65,537 bytes'
head -c 200000 /dev/zero | tr '\0' 'x' >"$text"
prints '200,000 bytes'
nested 32 >"$text"
prints_plain 'depth 32'
nested 33 >"$text"
echo 'refused 2' >"$wanted"
prints 'depth 33'
rows 2046 >"$text"
echo 'refused 3 2049' >"$wanted"
prints '2,049 records'
rows 2045 >"$text"
printf '1 0 4090 0 4090 0 0 0\n3 0 4090 0 4090 0 0 0\n10 0 4090 0 4090 1 0 0\n' >"$wanted"
awk 'BEGIN { for (i = 0; i < 2045; i++) print 11, 2 * i, 2 * i + 2, 2 * i, 2 * i + 1, 2, 0, i }' >>"$wanted"
prints '2,048 records'
cp "$wanted" "$room/table"

# reading fails: no table
unread='orgtable: standard input could not be read, so no table is printed'
run "$program" </ >"$out"
says 'a directory' "$unread"
run "$program" <&- >"$out"
says 'standard input closed' "$unread"
run "$program" 0>"$room/sink" >"$out"
says 'standard input for writing only' "$unread"
run "$room/paused" "$program" >"$out"
says 'a failure after the first bytes' "$unread"

# writing fails: nothing is printed, or what there was room for
unwritten='orgtable: standard output could not be written whole'
for input in "$room/first" "$text"; do
    run "$program" <"$input" >/dev/full
    says 'a full disk' "$unwritten"
    run "$program" <"$input" >&-
    says 'standard output closed' "$unwritten"
done
(trap '' XFSZ && ulimit -f 8 && run "$program" <"$text" >"$out" && exit "$status") && status=0 || status=$?
head -c "$(wc -c <"$out")" "$room/table" >"$wanted"
expect 'a disk that fills up'

# arguments
{ run "$program" --help >"$room/help" && cat >"$room/rest"; } <"$room/first"
: >"$complaint"
head -n 1 "$room/help" >"$out"
echo 'use: orgtable < BOOK' >"$wanted"
expect '--help'
cp "$room/rest" "$out"
cp "$room/first" "$wanted"
expect '--help does not read'
for argument in tests/books/orders.org --helps -h ''; do
    run "$program" "$argument" <"$room/first" >"$out"
    says "argument '$argument'" 'orgtable: takes no file name; use: orgtable < BOOK'
done

echo "program: $held expectations held, $failed did not"
[ "$failed" = 0 ]
