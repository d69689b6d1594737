#!/bin/sh
# The form of proofs, in every crate or in the one that is named. Refused, with file and line: a run of more than two `.before` (most of
# what lies behind a place has a name there), a part of an invariant by its number (`.invariant.2`), a line of over 140 columns.
cd "$(dirname "$0")/.." || exit 2
LC_ALL=C.UTF-8
export LC_ALL
bad=$(mktemp) || exit 2
trap 'rm -f "$bad"' EXIT

# refuse PATTERN WHAT: each line of $file that has it
refuse() { grep -nE -- "$1" "$file" | sed "s|^\([0-9]*\):.*|$file:\1: $2|"; }

find crates/"${1:-}" -name out -prune -o \( -name '*.antt' -o -name '*.rt' \) -print | sort | while read -r file; do
    refuse '^.{141,}' 'over 140 columns'
    case $file in
        crates/*/proofs/*.antt)
            refuse '(\.before *){3}' 'a run of more than two .before'
            refuse '\.inv(ariant)? ?\.[0-9]' 'a part of an invariant by its number' ;;
    esac
done > "$bad"
[ -s "$bad" ] || exit 0
cat "$bad"
echo "proof-form: $(wc -l < "$bad") places" >&2
exit 1
