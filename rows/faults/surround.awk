# Writes texts with marks, as rows of a table of rows/rules: for each fault one text with all surroundings of its kind, each on
# a line of its own. The surroundings stand in the first file, the faults in the second; README.md says how both are read.
#
# Bytes are counted, so it must run with LC_ALL=C.

function fail(words) {
    print FILENAME ":" FNR ": " words >"/dev/stderr"
    exit 1
}

# The phase in which a rule is told: names, modes and constants, statements, processes.
function phase_of(rule) {
    if (rule ~ /^M/ || rule == "L5" || rule == "L7") return 2
    if (rule ~ /^S/ || rule == "L4" || rule == "L6") return 3
    if (rule ~ /^P/) return 4
    fail("no rule " rule)
}

function has(tags, tag) { return index(" " tags " ", " " tag " ") > 0 }

# Whether the conditions before the colon of a mark hold: each is a tag, or one behind `!` that may not be there.
function holds(conditions, tags,    all, k, one) {
    k = split(conditions, all, ",")
    for (; k > 0; k--) {
        one = all[k]
        if (substr(one, 1, 1) == "!" ? has(tags, substr(one, 2)) : !has(tags, one)) return 0
    }
    return 1
}

# The line with its marks that count under the tags and are of this phase, or of any where it is 0, without their conditions.
# The first phase of them is kept.
function settled(line, tags, only,    pieces, count, k, end, mark, colon, phase) {
    count = split(line, pieces, "«")
    line = pieces[1]
    for (k = 2; k <= count; k++) {
        end = index(pieces[k], "»")
        mark = substr(pieces[k], 1, end - 1)
        colon = index(mark, ":")
        if (colon == 0 || holds(substr(mark, 1, colon - 1), tags)) {
            mark = substr(mark, colon + 1)
            phase = phase_of(substr(mark, 1, index(mark " ", " ") - 1))
            if (phase < first_phase) first_phase = phase
            if (only == 0 || phase == only) line = line "«" mark "»"
        }
        line = line substr(pieces[k], end + length("»"))
    }
    return line
}

# The text with what stands in its place: each sign is replaced.
function replaced(text, sign, other,    at, all) {
    all = ""
    while ((at = index(text, sign)) > 0) {
        all = all substr(text, 1, at - 1) other
        text = substr(text, at + 1)
    }
    return all text
}

function begin_text() {
    count_of_lines = 0
    cases = 0
    first_phase = 9
}

function add_line(line, tags) { lines[++count_of_lines] = settled(line, tags, 0) }

function add_all(kind, tags,    k) {
    for (k = 1; k <= count_of[kind]; k++) add_line(texts[kind, k], tags)
}

# Of its marks those of the first phase are written: what is told of a later one is told where nothing else is.
function end_text(    k) {
    if (cases == 0) return
    print "# " title
    for (k = 1; k <= count_of_lines; k++) print "| " settled(lines[k], "", first_phase)
    print ""
}

# Adds a surrounding with what stands in it, as one line of the text.
function add_case(surrounding, inside, tags) {
    if (cases++ == 0) add_all("vocabulary", has(fault_tags, "alone") ? tags " " fault_tags : fault_tags)
    add_line(replaced(replaced(surrounding, "@", inside), "%", ++number), tags " " fault_tags)
}

# The same, in a text of its own where the fault is to stand alone in the outermost process.
function put(surrounding, inside, tags,    is_alone) {
    is_alone = has(fault_tags, "alone") && has(tags, "outermost")
    if (is_alone && cases > 0 || cases == most_cases) next_text()
    add_case(surrounding, inside, tags)
    if (is_alone) next_text()
}

function next_text() {
    end_text()
    begin_text()
}

function put_all(kind, inside, tags,    k) {
    for (k = 1; k <= count_of[kind]; k++) put(texts[kind, k], inside, tags_of[kind, k] " " tags)
}

# What is used stands round the uses.
function put_uses(kind, around,    k) {
    for (k = 1; k <= count_of[kind]; k++) put(around, texts[kind, k], tags_of[kind, k])
}

# An action stands in each body, alone and in each action that holds actions; a definition directly in each body that may
# have one, and in the same places as an action, with BEGIN and END round it.
function put_in_bodies(inside, is_definition,    k, tags) {
    for (k = 1; k <= count_of["body"]; k++) {
        tags = tags_of["body", k]
        if (is_definition && !has(tags, "actions")) put(texts["body", k], inside, tags (has(tags, "modulion") ? "" : " local"))
        put_in_actions(texts["body", k], is_definition ? "BEGIN " inside " END;" : inside, tags)
    }
}

# What stands alone is put into all actions of the first body, and into the first two of each other.
function put_in_actions(body, inside, tags,    k, last) {
    last = has(fault_tags, "alone") && has(tags, "outermost") && body != texts["body", 1] ? 2 : count_of["action"]
    for (k = 1; k <= last; k++) put(body, replaced(texts["action", k], "@", inside), tags " action local")
}

function put_fault(kind, inside) {
    if (kind == "action") put_in_bodies(inside, 0)
    else if (kind == "definition") put_in_bodies(inside, 1)
    else if (kind == "item") put_all("modulion", inside, "")
    else if (kind == "value") {
        put_all("value", inside, "")
        put_all("constant", "SIZE(a(" inside "))", "")
        if (has(fault_tags, "constant")) put_all("constant", inside, "")
    } else if (kind == "constant") put_all(kind, inside, "")
    else if (kind == "use" || kind == "result") put_uses(kind, inside)
    else if (kind == "mode" || kind == "base" || kind == "discrete") {
        put_all("mode", inside, "")
        if (kind != "mode") put_all("base", inside, "")
        if (kind == "discrete") put_all("discrete", inside, "")
    } else fail("no kind of fault: " kind)
}

# A text has so many cases that the counters and received names of the outermost process are below the limit of rule L4.
BEGIN { most_cases = 250 }

/^#/ || /^$/ { next }

{
    bar = index($0, " | ")
    if (bar == 0) fail("neither a comment nor a line of two parts")
    kind = $1
    tags = substr($0, length(kind) + 2, bar - length(kind) - 2)
    text = substr($0, bar + 3)
}

NR == FNR {
    k = ++count_of[kind]
    tags_of[kind, k] = tags
    texts[kind, k] = text
    next
}

{
    title = FILENAME ":" FNR ": " kind " " text
    sub(/^.*\//, "", title)
    fault_tags = tags
    number = 0
    begin_text()
    put_fault(kind, text)
    end_text()
}
