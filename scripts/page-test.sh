#!/bin/sh
# Opens the pages of the sample logs, of a year, of an empty book, of two offices and of a log with markup in a comment and odd bytes in its
# name in Chromium, and tests the DOM, the console and that nothing is requested. Wants `make` before it. With a folder named, pages,
# pictures at the sizes of a laptop and a phone, and printed PDFs stay in it to be looked at.
set -eu
cd "$(dirname "$0")/.."
chromium=$(command -v chromium || command -v chromium-browser || true)
if [ -z "$chromium" ] || ! command -v python3 > /dev/null; then
    echo 'page-test.sh wants Chromium and python3: apt-get install chromium python3' >&2
    exit 2
fi
scratch=$(mktemp -d)
trap 'rm -rf "$scratch"' EXIT
out=${1:-$scratch/pages}
mkdir -p "$out"
out=$(cd "$out" && pwd)

samples='month quiet-day wrap drowned fogged marina'
for name in $samples; do
    build/sawmauve page "examples/$name.log" -o "$out/$name.html"
    build/sawmauve publish "examples/$name.log" -o "$scratch/file" 2> /dev/null
    build/sawmauve show --slots "$scratch/file" > "$out/$name.slots"
done
build/sawmauve page examples/two-offices/ours.log examples/two-offices/theirs.log -o "$out/two-offices.html"

echo 'open 2024-05-01 31 30 1 0' > "$scratch/empty.log"
build/sawmauve page "$scratch/empty.log" -o "$out/empty.html"

odd="$scratch/$(printf '<i>odd\377 & "\047.log')"
printf '%s\n' '# <script>document.title = "run"</script><img src=x onerror=alert(1)> & "' \
    'open 2024-05-01 1 30 1 0' 'delivery 48 1 5 0' > "$odd"
build/sawmauve page "$odd" -o "$out/markup.html"

# 400 days of 5 minutes with losses, a dial that is read every 50 days, and holidays
awk 'BEGIN {
    print "open 2024-01-01 400 5 1 500"
    for (slot = 0; slot < 115200; slot++) {
        if (slot % 14400 == 0) print "register", slot / 288, 1, dial % 100000000
        if (slot % 11520 == 0) print "holiday", slot / 288
        value = 60 + slot % 288 / 4 + slot * 7919 % 41; value -= value % 1; dial += value
        if (slot * 104729 % 1000 >= 40) print "delivery", slot, 1, value, 0
    }
    print "register", 400, 1, dial % 100000000
}' > "$scratch/year.log"
begin=$(date +%s%N)
build/sawmauve page "$scratch/year.log" -o "$out/year.html"
took=$((($(date +%s%N) - begin) / 1000000))
size=$(wc -c < "$out/year.html")
echo "year: written in $took ms, $size bytes"
if [ "$took" -ge 5000 ] || [ "$size" -ge 10000000 ]; then
    echo 'the page of a year is over 5 s or 10 MB' >&2
    exit 1
fi

python3 scripts/page-test.py "$chromium" "$scratch/profile" "$out" $samples two-offices empty markup year
