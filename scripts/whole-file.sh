#!/bin/sh
# Writes the file of 01's whole case to standard output: 48 slots of 100 Wh, slot 10 filled by the line, no spans.
# The trailer is 01's with layout 3 (02, W10), byte for byte.
set -eu
delivered() { i=0; while [ "$i" -lt "$1" ]; do printf '\144\000\000\000A\000'; i=$((i + 1)); done; }
delivered 10
printf '\144\000\000\000S\002'
delivered 37
for byte in B7 22 01 00 1E 03 00 00 2F 00 00 00 01 00 00 00 00 00 00 00 C0 12 00 00 00 00 00 00 00 00 00 00; do
    printf "\\$(printf '%03o' "0x$byte")"
done
