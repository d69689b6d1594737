#!/bin/sh
# Compares libsawmauve.a with the second build: random books call by call, damaged files, dials, strips, stays, tables of limits, exports,
# runs of a berth, books before and after one more delivery, ways of single slots, logs, pairs of logs and of files, and every
# date.
# Arguments, each with a default: seed, number of books, number of damaged files.
# Where SAWMAUVE_LIB names a folder, the archive in it is compared and none is built.
set -e
cd "$(dirname "$0")/.."
if [ -z "${SAWMAUVE_LIB:-}" ]; then
    make --quiet build/libsawmauve.a > /dev/null
fi
# as the Makefile has them, so that nothing is built twice
export SAWMAUVE_LIB="${SAWMAUVE_LIB:-../build}" SAWMAUVE_KIT="${SAWMAUVE_KIT:-$(rt version)}"
export CARGO_TARGET_DIR="${CARGO_TARGET_DIR:-$PWD/build/cargo}"
for package in crosscheck sawmauve; do
    cargo build --quiet --release --offline --manifest-path "$package/Cargo.toml"
done
crosscheck=$CARGO_TARGET_DIR/release/crosscheck
sawmauve=$CARGO_TARGET_DIR/release/sawmauve
seed=${1:-1}
"$crosscheck" compare --seed "$seed" --books "${2:-2000}" --damaged "${3:-20000}"
for verb in dials strips stays limits nem12 simulate reach explain logs reconcile; do
    "$crosscheck" "$verb" --seed "$seed"
done
(cd crates/show && rt run < /dev/null > /dev/null 2>&1)
"$crosscheck" dates crates/show/out/show
# the sample month's export, read back by a reader that knows nothing of the writer
work=$(mktemp -d)
trap 'rm -rf "$work"' EXIT
"$sawmauve" publish examples/month.log -o "$work/month.file" 2> /dev/null
"$sawmauve" nem12 "$work/month.file" --nmi 6123456789 --from FROM --to TO --configuration E1 --register 1 --suffix E1 --stream N1 \
    --serial SN1 --next-read 20240701 --reason 79 --created 20240602093000 \
    --method-2 14 --method-3 15 --method-5 7 --method-18 65 --method-19 66 > "$work/month.csv"
"$crosscheck" nem12 --export "$work/month.csv" "$work/month.file" 14 15 7 65 66
