#!/bin/sh
# Writes what stands in a published file: bytes in hexadecimal, and what they mean. A small reader, which checks nothing. Argument: the file.
od -An -v -t u1 -w1 "$1" | awk '
    { byte[NR - 1] = $1 + 0 }
    # the number in k bytes from a place, low byte first
    function num(at, k,    n) { n = 0; while (k-- > 0) n = n * 256 + byte[at + k]; return n }
    # a line: k bytes from a place, and what they mean
    function put(at, k, what,    i, hex) {
        for (i = 0; i < k; i++) hex = hex sprintf(" %02x", byte[at + i])
        printf "%6d:%-42s  %s\n", at, hex, what
    }
    function slot(i, at) {
        put(at, 6, sprintf("slot %d: value %.0f, quality %c, method %d", i, num(at, 4), byte[at + 4], byte[at + 5]))
    }
    function span(j, at, width,    ends) {
        ends = width == 14 ? sprintf("advance %.0f to %.0f", num(at + 4, 4), num(at + 8, 4)) : sprintf("advance %.0f", num(at + 4, 4))
        put(at, width, sprintf("span %d: boundary %d to %d, %s, state %d", j, num(at, 2), num(at + 2, 2), ends, byte[at + width - 2]))
    }
    function trailer(at,    k, names, widths, n) {
        n = split("first day,days,interval,layout,spans,A slots,S and F slots,N slots,sum,bytes of the span table", names, ",")
        split("2 2 1 1 2 4 4 4 8 4", widths, " ")
        for (k = 1; k <= n; k++) { put(at, widths[k], names[k] ": " sprintf("%.0f", num(at, widths[k]))); at += widths[k] }
    }
    END {
        end = NR - 32
        width = byte[end + 5] == 3 ? 14 : 10
        spans = end - num(end + 28, 4)
        for (i = 0; i < spans / 6; i++) slot(i, 6 * i)
        for (j = 0; j < num(end + 6, 2); j++) span(j, spans + width * j, width)
        trailer(end)
    }'
