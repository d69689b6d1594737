#!/bin/sh
# Compiles each C program of examples/ as C99 and as C++, links it with libsawmauve.a alone, and runs it.
# Where SAWMAUVE_LIB names a folder, the archive in it is linked and none is built.
set -e
cd "$(dirname "$0")/.."
if [ -z "${SAWMAUVE_LIB:-}" ]; then
    make --quiet build/libsawmauve.a > /dev/null
fi
archive=${SAWMAUVE_LIB:-build}/libsawmauve.a
work=$(mktemp -d)
trap 'rm -rf "$work"' EXIT
# a file of a day, for first.c, and its slot table, for strips.c
sh scripts/whole-file.sh > "$work/first"
head -c 288 "$work/first" > "$work/strips"
for example in berth charger empty first host log office strips; do
    input=/dev/null
    if [ -f "$work/$example" ]; then input=$work/$example; fi
    gcc -std=c99 -pedantic -Wall -Wextra -Werror -O2 -Iinclude "examples/$example.c" "$archive" -o "$work/c"
    g++ -Wall -Wextra -Werror -O2 -Iinclude -x c++ "examples/$example.c" -x none "$archive" -o "$work/c++"
    "$work/c" < "$input" > "$work/out"
    "$work/c++" < "$input" | cmp - "$work/out"
    if [ "$example" = strips ]; then
        echo "strips: $(wc -c < "$work/out") bytes"
    else
        cat "$work/out"
    fi
done
