#!/bin/sh
# Looks up every name of docs/TRACE.md in the file that it stands for, and holds the layers of CONTRIBUTING.md against crates.txt. Prints what
# is wrong, and exits 1 if anything is.
set -u
cd "$(dirname "$0")/.."
names=$(mktemp) || exit 2
trap 'rm -f "$names"' EXIT
# one name a line, `a.b.{c, d}` as a.b.c and a.b.d; the introduction above the first table's heading is left out
sed -n '/^## Opening/,$p' docs/TRACE.md | grep -o '`[^`]*`' | tr -d '`' | awk '
    match($0, /\{.*\}/) {
        n = split(substr($0, RSTART + 1, RLENGTH - 2), each, /, */)
        for (i = 1; i <= n; i++) print substr($0, 1, RSTART - 1) each[i]
        next
    }
    { print }' | sort -u > "$names"

# has FILE PATTERN
has() { [ -f "$1" ] && grep -qE -- "$2" "$1"; }

# a definition or theorem, as rules.specs.Opening.head_ok
stated() {
    has "crates/$(echo "${1%.*}" | tr . /).antt" "^ *((unfoldable|abbrev) )?pub (record |data )?${1##*.}( |\$)"
}

# a function or type, as rules::opening::head_ok
coded() {
    folder=crates/${1%%::*}/src
    case ${1#*::} in
        *::*) file=$folder/$(echo "$1" | cut -d: -f3).rt ;;
        *) file=$(ls "$folder/lib.rt" "$folder/main.rt" 2> /dev/null) ;;
    esac
    has "$file" "^(pub )?(extern \"C\" )?(fn|struct|enum) ${1##*::}\\b"
}

missing=0
count=$(wc -l < "$names")
while read -r name; do
    case $name in
        class\ *) grep -rqE -- "^ *\\(?\"${name#class }\"," crosscheck/src ;;
        case\ *) has crates/cases/stdout "^${name#case }\\b" ;;
        *.specs.*|*.proofs.*) stated "$name" ;;
        *::*) coded "$name" ;;
        scripts/*|examples/*|sawmauve/*) [ -f "$name" ] ;;
        */*) [ -f "crates/${name%/*}/must-fail/${name#*/}.edit" ] ;;
        *) true ;;
    esac || { echo "docs/TRACE.md: $name is not there"; missing=1; }
done < "$names"
[ "$missing" = 0 ] && echo "docs/TRACE.md: all $count names are there"
# every crate has a row, which lists what it uses beside base and the kit's own crates, all of them in rows above
awk '
    function wrong(what) { print "CONTRIBUTING.md: " what; bad = 1 }
    FNR == NR {
        name = $1
        sub(/:.*/, "", name)
        sub(/.*:/, "")
        listed[name] = $0
        next
    }
    /^\| `[a-z_]+` \|/ {
        name = $2
        gsub(/`/, "", name)
        split($0, part, "|")
        n = split(part[3], used, " ")
        line = ""
        for (i = 1; i <= n; i++) {
            line = line " " used[i]
            if (!(used[i] in above)) wrong(name " uses " used[i] ", which is not above it")
        }
        n = split(listed[name], used, " ")
        uses = ""
        for (i = 1; i <= n; i++) if (used[i] != "base" && used[i] in listed) uses = uses " " used[i]
        if (line != uses) wrong(name " uses" uses " in crates.txt, and here" line)
        above[name]
        rows++
    }
    END {
        for (name in listed) if (!(name in above)) wrong(name " has no row")
        for (name in above) if (!(name in listed)) wrong(name " is no crate")
        if (!bad) print "CONTRIBUTING.md: the layers of all " rows " crates are those of crates.txt"
        exit bad
    }' crates.txt CONTRIBUTING.md || missing=1
exit "$missing"
