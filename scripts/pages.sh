#!/bin/sh
# Runs every console block of README and docs with the build in build/ and compares what the commands write with the page.
# Each page has a scratch folder of its own with examples/, include/ and build/, and its commands run in it in order, in one shell.
# A command that ends in another status than 0 has `$ echo $?` after it. Links lead to files that are there.
# Wants `make` before it. Arguments: pages; without any, all.
set -u
cd "$(dirname "$0")/.."
home=$PWD
work=$(mktemp -d) || exit 2
trap 'rm -rf "$work"' EXIT
# these have commands; a page that has lost its own is refused
wanted='README.md docs/FILE.md docs/LESSON.md docs/LOG.md docs/RADIO.md examples/README.md'
bad=0

# run PAGE: how many commands it has; 1 where something differs
run() {
    rm -rf "$work/folder" "$work/shown" "$work/commands" "$work/script" "$work/printed"
    mkdir "$work/folder"
    : > "$work/shown"
    cp -R examples "$work/folder/examples"
    ln -s "$home/include" "$home/build" "$work/folder"
    cat > "$work/script" <<'END'
exec 2>&1
status=0
say() { printf '%s\n' "$@"; }
back() { return "$1"; }
settled() { [ "$status" = 0 ] || echo "status $status, and no \$ echo \$? after it"; }
END
    count=$(awk -v shown="$work/shown" -v script="$work/commands" -f scripts/pages.awk "$1") || return 1
    [ "$count" = 0 ] && return 0
    cat "$work/commands" >> "$work/script"
    (cd "$work/folder" && PATH="$home/build:$PATH" LC_ALL=C.UTF-8 sh "$work/script" < /dev/null > "$work/printed")
    diff -u --label "$1" --label 'what its commands print' "$work/shown" "$work/printed"
}

# links PAGE: 1 where a file that it links to is not there
links() {
    grep -o ']([^)#:]*)' "$1" | sed 's/^](//; s/)$//' | {
        missing=0
        while read -r to; do
            [ -e "$(dirname "$1")/$to" ] || { echo "$1: no $to" >&2; missing=1; }
        done
        return "$missing"
    }
}

for page in ${*:-README.md CHANGELOG.md CONTRIBUTING.md docs/*.md examples/*.md}; do
    run "$page" || { echo "$page: what its commands print is not what it says" >&2; bad=1; }
    links "$page" || bad=1
    case " $wanted " in
        *" $page "*) [ "$count" != 0 ] || { echo "$page: no command to run" >&2; bad=1; } ;;
    esac
    [ "$count" = 0 ] || echo "$page: $count commands"
done
# the first page stays short
awk 'length > 120 || FNR >= 150 { print "README.md:" FNR ": over 120 columns, or line 150"; bad = 1 } END { exit bad }' README.md >&2 || bad=1
exit "$bad"
