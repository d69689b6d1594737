#!/bin/sh
# What gzip makes of the sample month's slot table, and of its strips.
set -e
cd "$(dirname "$0")/.."
make --quiet build/sawmauve > /dev/null
work=$(mktemp -d)
trap 'rm -rf "$work"' EXIT
build/sawmauve publish examples/month.log -o "$work/file" 2> /dev/null
head -c $((6 * 48 * 31)) "$work/file" > "$work/table"
build/sawmauve strips "$work/file" > "$work/strips"
for form in table strips; do
    echo "$form: $(wc -c < "$work/$form") bytes, $(gzip -c < "$work/$form" | wc -c) by gzip"
done
