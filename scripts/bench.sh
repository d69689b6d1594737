#!/bin/sh
# Times both builds on the same books in one run: publishing, reading and delivering, and playing a log. Then counts the
# instructions of the same work by callgrind, on books of 400 days of 5 minutes, where valgrind is there.
# Where SAWMAUVE_LIB names a folder, the archive in it is timed and none is built.
set -e
cd "$(dirname "$0")/.."
if [ -z "${SAWMAUVE_LIB:-}" ]; then
    make --quiet build/libsawmauve.a > /dev/null
fi
# as the Makefile has them, so that nothing is built twice
export SAWMAUVE_LIB="${SAWMAUVE_LIB:-../build}" SAWMAUVE_KIT="${SAWMAUVE_KIT:-$(rt version)}"
export CARGO_TARGET_DIR="${CARGO_TARGET_DIR:-$PWD/build/cargo}"
cargo build --quiet --release --offline --manifest-path crosscheck/Cargo.toml
program=$CARGO_TARGET_DIR/release/crosscheck
"$program" bench
if ! command -v valgrind > /dev/null; then
    echo "no valgrind: times alone, no instructions"
    exit 0
fi

# instructions CALL BOOK SIDE REPEATS: of the whole run
instructions() {
    valgrind --tool=callgrind --callgrind-out-file=/dev/null "$program" work "$@" 2>&1 > /dev/null |
        awk '/Collected/ { print $4 }'
}

# row CALL BOOK NONE SIDE..: the instructions of an item, by the difference from a run without the work
row() {
    call=$1 book=$2 none=$3
    shift 3
    items=$("$program" work "$call" "$book" host 0)
    counts=
    for side in "$@"; do
        counts="$counts $(instructions "$call" "$book" "$side" 1)"
    done
    echo "$items $none$counts" | awk -v book="$book" -v call="$call" '{
        printf "%-15s  400   5  %-11s", book, call
        for (i = 3; i <= NF; i++) if ($1 > 0) printf " %10.1f", ($i - $2) / $1; else printf " %10s", "-"
        if (NF == 4 && $1 > 0) printf " %10.2f", ($4 - $2) / ($3 - $2)
        print ""
    }'
}

echo "instructions per slot (deliver: per delivery, play: per line)"
for book in ordinary "all gap" "alternate gaps" "two-hour lines" "no references" "some agreed" "all agreed"; do
    none=$(instructions publish "$book" second 0)
    for call in publish read deliver; do
        row "$call" "$book" "$none" second host
    done
    if [ "$book" = ordinary ]; then
        row straight "$book" "$none" second
    fi
done
row play "all gap" "$(instructions play "all gap" second 0)" second host
