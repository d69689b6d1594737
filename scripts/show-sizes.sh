#!/bin/sh
# Builds the program `show` and compares its line on inputs of several sizes and deliveries. Exits 1 on a difference.
set -u
cd "$(dirname "$0")/.."
(cd crates/show && rt run < /dev/null > /dev/null 2>&1) || { echo "show is not proved"; exit 1; }
work=$(mktemp -d) || exit 2
trap 'rm -rf "$work"' EXIT
bad=0

# expect LINE NAME < input: the program writes LINE and nothing else. It may run in a subshell, so it answers by its status.
expect() {
    crates/show/out/show > "$work/out" 2> "$work/err"
    printf '%s\n' "$1" > "$work/want"
    if cmp -s "$work/want" "$work/out" && [ ! -s "$work/err" ]; then
        echo "ok: $2"
    else
        echo "differs: $2: $(head -c 200 "$work/out") $(head -c 200 "$work/err")"
        return 1
    fi
}

zeros() { head -c "$1" /dev/zero; }

# one byte at a time, then larger pieces, with a pause after each
slowly() {
    at=0
    size=$(wc -c < "$work/whole")
    step=1
    while [ "$at" -lt "$size" ]; do
        tail -c +$((at + 1)) "$work/whole" | head -c "$step"
        at=$((at + step))
        step=$((step * 2))
        sleep 0.05
    done
}

sh scripts/whole-file.sh > "$work/whole"
cmp "$work/whole" crates/show/stdin || bad=1
line='2024-05-01 1 30 47 1 0 4800'
expect 'refused 8' 'no input' < /dev/null || bad=1
zeros 31 | expect 'refused 8' '31 bytes' || bad=1
zeros 65536 | expect 'refused 8' '65,536 bytes' || bad=1
zeros 65537 | expect 'too long' '65,537 bytes' || bad=1
zeros 200000 | expect 'too long' '200,000 bytes' || bad=1
expect "$line" 'the whole case from a file' < "$work/whole" || bad=1
slowly | expect "$line" 'the whole case through a slow pipe' || bad=1
# the whole case with one letter changed
{ printf '\144\000\000\000B\000'; tail -c +7 "$work/whole"; } | expect 'refused 9' 'a wrong letter' || bad=1

# a read that fails: nothing on standard output, the reason on standard error
crates/show/out/show < / > "$work/out" 2> "$work/err"
if [ ! -s "$work/out" ] && grep -q '^standard input: ' "$work/err"; then
    echo 'ok: a read that fails'
else
    echo 'differs: a read that fails'
    bad=1
fi
exit $bad
