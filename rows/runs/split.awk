# Splits tables of programs: writes for the N-th row its text, N.chill, and what goes in and must come: N.in, N.out,
# N.report, N.status and N.words. `folder` is where they are written, with a line `N TABLE:LINE` for each row in `rows`.
#
# Bytes are counted, so it must run with LC_ALL=C. README.md says what a table looks like.

function fault(words) {
    print FILENAME ":" FNR ": " words "\n" > "/dev/stderr"
    faults++
}

# The piece, as often as is said: twice as many at a time, so that a long text is made soon.
function times(piece, turns,    all) {
    all = ""
    while (turns > 0) {
        if (turns % 2 == 1) all = all piece
        piece = piece piece
        turns = int(turns / 2)
    }
    return all
}

# The piece, once for each number, which stands for each `#` in it.
function numbered(piece, low, high,    k, one, all) {
    all = ""
    for (k = low; k <= high; k++) {
        one = piece
        gsub(/#/, k, one)
        all = all one
    }
    return all
}

# What stands between {{ and }}.
function repeated(inside,    bar, turns, piece, ends) {
    bar = index(inside, "|")
    turns = substr(inside, 1, bar - 1)
    piece = substr(inside, bar + 1)
    if (split(turns, ends, /\.\./) == 2) return numbered(piece, ends[1] + 0, ends[2] + 0)
    if (index(piece, "#") > 0) return numbered(piece, 1, turns + 0)
    return times(piece, turns + 0)
}

# The line with its repeats written out.
function written_out(line,    from, until, all) {
    all = ""
    while ((from = index(line, "{{")) > 0) {
        all = all substr(line, 1, from - 1)
        line = substr(line, from + 2)
        until = index(line, "}}")
        all = all repeated(substr(line, 1, until - 1))
        line = substr(line, until + 2)
    }
    return all line
}

# The byte with the number of three octal digits.
function byte_of(digits) {
    return sprintf("%c", substr(digits, 1, 1) * 64 + substr(digits, 2, 1) * 8 + substr(digits, 3, 1))
}

# The bytes that a line behind `in`, `out` or `report` stands for.
function bytes_of(line,    at, sign, all) {
    line = written_out(line)
    all = ""
    while ((at = index(line, "\\")) > 0) {
        all = all substr(line, 1, at - 1)
        sign = substr(line, at + 1, 1)
        line = substr(line, at + 2)
        if (sign == "n") all = all "\n"
        else if (sign == "t") all = all "\t"
        else if (sign == "r") all = all "\r"
        else if (sign == "s") all = all " "
        else if (sign == "\\") all = all "\\"
        else if (sign ~ /[0-3]/) {
            all = all byte_of(sign line)
            line = substr(line, 3)
        } else fault("no byte: \\" sign)
    }
    return all line
}

function put(bytes, part) {
    printf "%s", bytes > (folder "/" rows "." part)
    close(folder "/" rows "." part)
}

function finish() {
    if (begun == 0) return
    if (texts == 0) fault("a row without a text")
    if (status == "") fault("a row without a status")
    rows++
    put(text, "chill")
    put(input, "in")
    put(output, "out")
    put(report, "report")
    put(status "\n", "status")
    put(words, "words")
    print rows " " table ":" begun "\n" > (folder "/rows")
    begun = 0
}

function begin() {
    begun = FNR
    text = input = output = report = status = words = ""
    texts = inputs = outputs = 0
}

BEGIN { ORS = "" }

FNR == 1 {
    finish()
    table = FILENAME
    sub(/.*\//, "", table)
}

/^#/ { next }

/^$/ {
    finish()
    next
}

{
    if (begun == 0) begin()
    piece = $0
    sub(/^[^ ]+ ?/, "", piece)
}

/^\|/ {
    text = text (texts++ ? "\n" : "") written_out(piece)
    next
}

$1 == "in" {
    input = input (inputs++ ? "\n" : "") bytes_of(piece)
    next
}

$1 == "out" {
    output = output (outputs++ ? "\n" : "") bytes_of(piece)
    next
}

$1 == "report" {
    report = report bytes_of(piece) "\n"
    next
}

$1 == "status" && status == "" && piece ~ /^[0-9]$/ {
    status = piece
    next
}

$1 == "words" {
    words = words (words == "" ? "" : " ") piece
    next
}

{ fault("neither a text nor what must come") }

END {
    finish()
    exit faults > 0
}
