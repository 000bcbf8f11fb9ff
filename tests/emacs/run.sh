#!/bin/sh
# Where Emacs is installed: compares what orgtable prints with org-element's tree, on made-up order books (so many, or 10) and on the known
# differences, which must still be there. Not part of the tests that run everywhere.
#     tools/build program && sh tests/emacs/run.sh [BOOKS [PROGRAM]]          (target/bin/orgtable, or another one, by its absolute path)
set -eu
cd "$(dirname "$0")"
program=${2:-$PWD/../../target/bin/orgtable}
command -v emacs >/dev/null || { echo "emacs: not installed, nothing compared"; exit 0; }
[ -x "$program" ] || { echo "emacs: $program is missing: tools/build program"; exit 1; }
room=$(mktemp -d)
trap 'rm -rf "$room"' EXIT

books=${1:-10}
[ "$books" -gt 0 ] || { echo "usage: $0 [BOOKS [PROGRAM]]"; exit 1; }

# Whether both give the same table for a text. A program that prints nothing has failed, and is no difference.
agree() {
  "$program" <"$1" >"$room/ours" && [ -s "$room/ours" ] || { echo "emacs: no table of $1"; exit 1; }
  emacs --batch -Q -l table.el --eval "(table-print \"$1\")" >"$room/theirs" 2>"$room/said" || { cat "$room/said"; exit 1; }
  cmp -s "$room/ours" "$room/theirs"
}

seed=1
records=0
while [ "$seed" -le "$books" ]; do
  emacs --batch -Q -l book.el --eval "(book-write \"$room/book.org\" $seed)"
  if ! agree "$room/book.org"; then
    echo "emacs: the tables of book $seed differ (< ours, > org-element's):"
    diff "$room/ours" "$room/theirs" | head -20
    exit 1
  fi
  records=$((records + $(wc -l <"$room/ours")))
  seed=$((seed + 1))
done
echo "emacs: $books books, $records records agree with org-element"

for text in differences/*.org; do
  if agree "$text"; then
    echo "emacs: $text is no difference any more"
    exit 1
  fi
done
echo "emacs: $(ls differences/*.org | wc -l) known differences, all still there"
