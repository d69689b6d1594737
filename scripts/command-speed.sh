#!/bin/sh
# Times the command: 1,000 logs of a month in one call on one core and on two, books a second; and a log of 2.6 MB against the library's
# own time for it, the flush aside. Wants `make` before it.
set -eu
cd "$(dirname "$0")/.."
work=$(mktemp -d)
trap 'rm -rf "$work"' EXIT
mkdir "$work/logs" "$work/files"
i=0
while [ "$i" -lt 1000 ]; do
    cp examples/month.log "$work/logs/berth-$i.log"
    i=$((i + 1))
done

# books a second with so many at a time, the best of five calls
books() {
    best=
    for turn in 1 2 3 4 5; do
        rm -f "$work"/files/*
        begin=$(date +%s%N)
        build/sawmauve publish "$work/logs" -d "$work/files" --jobs "$1" 2> /dev/null
        took=$(($(date +%s%N) - begin))
        if [ -z "$best" ] || [ "$took" -lt "$best" ]; then best=$took; fi
    done
    echo $((1000 * 1000000000 / best))
}
one=$(books 1)
two=$(books 2)
echo "1,000 logs of a month in one call: $one books a second on one core, $two on two, $(awk "BEGIN { printf \"%.2f\", $two / $one }") times as many"

{
    echo 'open 2024-05-01 400 5 1 0'
    awk 'BEGIN { for (slot = 0; slot < 115200; slot++) print "delivery", slot, 1, 100 + slot % 900, 0 }'
} > "$work/large.log"
cd sawmauve
CARGO_TARGET_DIR=../build/cargo SAWMAUVE_LIB=../build SAWMAUVE_KIT="${SAWMAUVE_KIT:-$(rt version)}" \
    cargo run --quiet --release --offline --example speed -- ../build/sawmauve "$work/large.log" 41
