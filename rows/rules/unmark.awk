# Splits tables of marked texts: writes each text without its marks, and the lines that its marks stand for.
#
# `folder` is where they are written: N.chill and N.told for the N-th text, and a line `N TABLE:LINE` for each in `texts`.
# Bytes are counted, so it must run with LC_ALL=C. README.md says what a table looks like.

function rule(name, words) {
    told[name] = words
    rank[name] = ++rules
}

BEGIN {
    ORS = ""
    rule("T1", "no token")
    rule("T2", "no program")
    rule("N1", "name {1} is defined twice")
    rule("N2", "name {1} is not seen here")
    rule("N3", "name {1} cannot be passed")
    rule("N4", "label {1} does not enclose")
    rule("N5", "name {1} is of the wrong kind")
    rule("N6", "name {1} depends on itself")
    rule("M1", "constant needed")
    rule("M2", "bounds in the wrong order")
    rule("M3", "bound outside its mode")
    rule("M4", "discrete mode needed")
    rule("M5", "powerset too large")
    rule("M6", "length out of limits")
    rule("M7", "field {1} is defined twice")
    rule("M8", "event or buffer mode not allowed here")
    rule("M9", "read-only location {1} without value")
    rule("M10", "constant operands do not fit")
    rule("M11", "constant out of range")
    rule("M12", "synonym value outside its mode")
    rule("M13", "fields {1} and {2} overlap")
    rule("M14", "field {1} has an impossible place")
    rule("S1", "operands do not fit")
    rule("S2", "value does not go with the mode")
    rule("S3", "not a location that can be written")
    rule("S4", "condition is not Boolean")
    rule("S5", "wrong number of parts")
    rule("S6", "argument does not fit its parameter")
    rule("S7", "case label does not fit")
    rule("S8", "loop bounds do not fit")
    rule("S9", "RETURN or RESULT not allowed here")
    rule("S10", "call gives no value")
    rule("S11", "tuple does not fit its mode")
    rule("S12", "exception {1} is listed twice")
    rule("P1", "process {1} is not directly in a module")
    rule("P2", "not allowed in a region")
    rule("P3", "name {1} does not fit this action")
    rule("P4", "region location {1} is granted")
    rule("P5", "name {1} is listed twice or mixed")
    rule("P6", "priority out of limits")
    rule("P7", "SET needs an INSTANCE location")
    rule("P8", "event or buffer {1} is local")
    rule("L1", "text longer than 262144 bytes")
    rule("L2", "nesting deeper than 64")
    rule("L3", "more than 4096 definitions")
    rule("L4", "too many local scalars")
    rule("L5", "mode of more than 4096 scalars")
    rule("L6", "value of more than 256 scalars")
    rule("L7", "too many shared scalars")
    rule("L8", "program too large")
}

function fault(words) {
    print FILENAME ":" row ": " words "\n" > "/dev/stderr"
    faults++
}

# The piece as often as is said, by halves, so that a long text takes no long time.
function repeated(piece, turns,    half) {
    if (turns < 2) return turns == 1 ? piece : ""
    half = repeated(piece, int(turns / 2))
    return half half (turns % 2 ? piece : "")
}

# The text with `{{N|piece}}` written out: N times the piece, each `#` in it being the number of the turn.
function written_out(marked,    before, inside, from, until, turns, piece, k, all) {
    all = ""
    while ((from = index(marked, "{{")) > 0) {
        before = substr(marked, 1, from - 1)
        marked = substr(marked, from + 2)
        until = index(marked, "}}")
        inside = substr(marked, 1, until - 1)
        marked = substr(marked, until + 2)
        turns = inside
        sub(/\|.*/, "", turns)
        all = all before
        piece = substr(inside, length(turns) + 2)
        if (!index(piece, "#")) all = all repeated(piece, turns + 0)
        else for (k = 1; k <= turns + 0; k++) {
            piece = substr(inside, length(turns) + 2)
            gsub(/#/, k, piece)
            all = all piece
        }
    }
    return all marked
}

# Goes on by a piece of the text.
function go(piece,    rows, k) {
    text = text piece
    k = split(piece, rows, "\n")
    if (k > 1) {
        line += k - 1
        column = length(rows[k]) + 1
    } else column += length(piece)
}

# Whether of two marks the first is told before the second.
function before(a, b) {
    if (lines[a] != lines[b]) return lines[a] < lines[b]
    if (columns[a] != columns[b]) return columns[a] < columns[b]
    if (ranks[a] != ranks[b]) return ranks[a] < ranks[b]
    return names[a] < names[b]
}

# Keeps a mark, which stands between « and », at the place of the byte behind it.
function keep(mark,    words, k, said) {
    k = split(mark, words, " ")
    if (!(words[1] in told)) {
        fault("no rule " words[1])
        return
    }
    said = told[words[1]]
    wanted = gsub(/\{[12]\}/, "&", said) + 1
    if (k != wanted) fault("rule " words[1] " has " wanted - 1 " names")
    sub(/\{1\}/, words[2], said)
    sub(/\{2\}/, words[3], said)
    marks++
    lines[marks] = line
    columns[marks] = column
    ranks[marks] = rank[words[1]]
    names[marks] = words[2] "\n" words[3]
    sayings[marks] = line ":" column ": " words[1] " " said "\n"
}

function sort_marks(    i, k, kept) {
    for (i = 1; i <= marks; i++) order[i] = i
    for (i = 2; i <= marks; i++) {
        kept = order[i]
        for (k = i - 1; k >= 1 && before(kept, order[k]); k--) order[k + 1] = order[k]
        order[k + 1] = kept
    }
}

function finish(    pieces, k, i, end) {
    if (row == 0) return
    text = ""
    line = 1
    column = 1
    marks = 0
    k = split(written_out(marked), pieces, "«")
    go(pieces[1])
    for (i = 2; i <= k; i++) {
        end = index(pieces[i], "»")
        if (end == 0) fault("a mark without its end")
        keep(substr(pieces[i], 1, end - 1))
        go(substr(pieces[i], end + 2))
    }
    sort_marks()
    texts++
    print text > (folder "/" texts ".chill")
    close(folder "/" texts ".chill")
    printf "" > (folder "/" texts ".told")
    for (i = 1; i <= marks; i++) {
        if (i > 1 && sayings[order[i]] == sayings[order[i - 1]]) continue
        print sayings[order[i]] > (folder "/" texts ".told")
    }
    close(folder "/" texts ".told")
    print texts " " table ":" row "\n" > (folder "/texts")
    row = 0
}

FNR == 1 {
    finish()
    table = FILENAME
    sub(/.*\//, "", table)
}

/^#/ { next }

/^\|/ {
    piece = substr($0, 2)
    sub(/^ /, "", piece)
    if (row == 0) {
        row = FNR
        marked = piece
    } else marked = marked "\n" piece
    next
}

/^$/ {
    finish()
    next
}

{
    row = FNR
    fault("neither a text nor a comment")
    row = 0
}

END {
    finish()
    exit faults > 0
}
