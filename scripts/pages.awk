# Takes the console blocks of a page: what they show to the file `shown`, a script that does it to the file `script`.
# A line `$ command` is run and `> ` goes on with it; every other line is what a command writes.
function quoted(text) { gsub(/'/, "'\\''", text); return "'" text "'" }

# ends the command before: a status that the page does not ask for is written, and so differs from the page
function finished(next_command) {
    if (command == "") return
    print "say " said "\nback $status\n" command "\nstatus=$?" > script
    if (next_command != "echo $?") print "settled" > script
    command = ""
}

function started(line) {
    finished(substr(line, 3))
    command = substr(line, 3)
    said = quoted(line)
    open = 1
    count++
}

/^```/ && inside { finished(""); inside = 0; next }
/^```console$/ { inside = 1; open = 0; print "say '# line " NR "'" > script; print "# line " NR > shown; next }
/^```/ { other = !other; next }
!inside && /^( *\$ |(    )?(build\/)?sawmauve (--|[a-z]))/ && (other || /^    /) {
    print FILENAME ":" FNR ": a command outside a console block" > "/dev/stderr"
    bad = 1
}
!inside { next }
{ print > shown }
/^\$ / { started($0); next }
/^> / && open { command = command "\n" substr($0, 3); said = said " " quoted($0); next }
{ open = 0 }
END {
    if (inside) { print FILENAME ": a console block without an end" > "/dev/stderr"; bad = 1 }
    print count + 0
    exit bad
}
