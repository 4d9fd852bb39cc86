# Writes the programs of a table of constructs: each construct in each surrounding, as rows of a table of rows/runs.

function row(shows, program, output) {
    print "# " title ", " shows
    print "| " program
    print "out " output "."
    print "status 0"
    print ""
}

function flush() {
    if (title == "") return
    if (text == "" || out == "") { print FILENAME ": " title ": no text or no output" >"/dev/stderr"; exit 1 }
    inside = "BEGIN " locals " " text " END;"
    shared = "T: MODULE GRANT ALL; " things " END T; "
    stop = " PUT_TEXT(\".\"); END M;"
    row("alone", shared "M: MODULE SEIZE ALL; " inside stop, out)
    row("in a handler", shared "M: MODULE SEIZE ALL; CAUSE lost ON (lost): " inside " END;" stop, out)
    row("before a handler", shared "M: MODULE SEIZE ALL; BEGIN " inside " END ON ELSE PUT_TEXT(\"!\"); END;" stop, out)
    row("in a procedure", shared "M: MODULE SEIZE ALL; go: PROC () EXCEPTIONS (lost); " inside " END go; go();" stop, out)
    row("in a critical procedure", shared "R: REGION SEIZE ALL; GRANT go; go: PROC () EXCEPTIONS (lost); " inside \
        " END go; END R; M: MODULE SEIZE ALL; go();" stop, out)
    row("in a loop", shared "M: MODULE SEIZE ALL; DO FOR turn := 1 TO 2; " inside " OD;" stop, out out)
    row("two deep", shared "M: MODULE SEIZE ALL; IF TRUE THEN CASE 2 OF (1): STOP; (2): " inside " ESAC; FI;" stop, out)
    row("in a process", shared "M: MODULE SEIZE ALL; SIGNAL done; go: PROCESS (); " inside \
        " SEND done; END go; START go(); RECEIVE CASE (done): ESAC;" stop, out)
}

/^# / { flush(); title = substr($0, 3); things = locals = text = out = ""; next }
/^things / { things = substr($0, 8) }
/^locals / { locals = substr($0, 8) }
/^text / { text = substr($0, 6) }
/^out / { out = substr($0, 5) }
END { flush() }
