#!/bin/sh
# Builds each program here against the header and LIBDIR/libcomaltzex.a, and runs it.
set -eu

if [ $# -ne 1 ]; then
    echo "usage: $0 LIBDIR" >&2
    exit 2
fi
library=$1/libcomaltzex.a
here=$(cd "$(dirname "$0")" && pwd)
build=$(mktemp -d)
trap 'rm -rf "$build"' EXIT

# From outside the library needs what a C compiler may call by itself, and no more.
needed=$(nm -u "$library" | awk '$1 == "U" { print $2 }' | sort -u | tr '\n' ' ')
if [ "$needed" != "memcpy memset " ]; then
    echo "the library needs $needed and not memcpy and memset alone" >&2
    exit 1
fi

for program in sample dates drawers defaults lists sheets intake stream stack; do
    "${CC:-cc}" -std=c99 -Wall -Wextra -pedantic -Werror -pthread \
        -I "$here/../../include" -o "$build/$program" "$here/$program.c" "$library"
    "$build/$program"
done
