#!/bin/sh
# Proves the static library sawmauve with all that it rests on, and copies its archive to build/libsawmauve.a. Says which crate is proved.
set -eu
cd "$(dirname "$0")/.."
mkdir -p build
rm -f build/failed
echo 'Proves what libsawmauve.a is built of: some minutes of processor time the first time, later only what has changed.'
{ (cd crates/sawmauve && rt lib) 2>&1 || echo failed > build/failed; } | tee build/proving.log | awk '
    /^crate [a-z0-9_]+: / { crate = $2; sub(":", "", crate) }
    /^logic=proved / { print crate " proved"; fflush() }'
if [ -e build/failed ]; then
    tail -n 40 build/proving.log >&2
    exit 1
fi
cp crates/sawmauve/out/libsawmauve.a build/libsawmauve.a
echo "build/libsawmauve.a: $(nm -g --defined-only build/libsawmauve.a | grep -c ' T sawmauve_') calls"
