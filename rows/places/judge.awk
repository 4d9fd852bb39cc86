# Says of texts where they stop being the beginning of a program, by the grammar alone and in all ways at once.
#
# The productions are read from docs/LANGUAGE.md, the first file. What its notes add stands in `add_notes` and in the two
# places that speak of `closing` and of turns. A text is taken token by token; for each token there are all the places in
# productions at which a tree may stand there, as Earley's recognizer keeps them, with a machine of states for the right side
# of each production. A token that leaves none is the place. So nothing here looks ahead, goes back or chooses.
#
# The other files hold texts: `.chill` has one, without a line feed at its end, and a table has lines `program tree TEXT`, or `| LINE` up to an empty line.
#
# `-v mutants=N` takes N texts of one changed token: one is left out, put in, put in the place of another, or changed with
# the next, by a fixed generator. For each a line comes: the place, or `tree`, a tab, and the tokens in one line with a blank
# between each two. Without it the texts are taken as they are, and for each a line with its place comes, or `tree`.

# ---- the productions, as machines

function state() {
    states++
    empties[states] = 0
    return states
}

function empty_step(from, to) { empty[from, ++empties[from]] = to }

function put_step(from, symbol, to) {
    step_to[from] = to
    step_symbol[from] = symbol
}

# Cuts the right side of a production into its pieces.
function cut(text, what) {
    pieces = 0
    place = 1
    while (match(text, /^[ \t\n]*("[^"]*"|[A-Za-z_0-9]+|[][(){}|])/)) {
        what = substr(text, 1, RLENGTH)
        text = substr(text, RLENGTH + 1)
        gsub(/[ \t\n]/, "", what)
        piece[++pieces] = what
    }
    piece[pieces + 1] = ""
}

# Each of the next three leaves a machine from the state `first` to the state that it returns.
function alternatives(first, end, from) {
    end = state()
    for (;;) {
        from = state()
        empty_step(first, from)
        empty_step(sequence(from), end)
        if (piece[place] != "|") return end
        place++
    }
}

function sequence(from) {
    while (place <= pieces && piece[place] !~ /^[])}|]$/) from = factor(from)
    return from
}

function factor(from, what, end, begin, turn, behind) {
    what = piece[place++]
    if (what == "(") {
        end = alternatives(from)
        place++
        return end
    }
    if (what == "[") {
        end = alternatives(from)
        empty_step(from, end)
        place++
        return end
    }
    if (what == "{" && !has_turns) {
        begin = state()
        empty_step(from, begin)
        empty_step(alternatives(begin), begin)
        place++
        return begin
    }
    if (what == "{") {
        behind = state()
        begin = place
        for (turn = 1; turn <= 32; turn++) {
            place = begin
            empty_step(from, behind)
            from = alternatives(from)
        }
        empty_step(from, behind)
        place++
        return behind
    }
    end = state()
    put_step(from, what, end)
    return end
}

function put_production(name, text) {
    right[name] = text
    if (!(name in known)) {
        known[name] = 1
        names[++productions] = name
    }
}

# What the notes below the productions say. A handler has an alternative or ELSE. At most 8 arrays stand in succession. An
# array with PACK or NOPACK has as its element no array and no structure without a word, one with STEP no array without.
function add_notes(k, inner) {
    put_production("handler", "ON alternative {alternative} [ELSE actions] END | ON ELSE actions END")
    put_production("alternative", "\"(\" names \")\" \":\" actions")
    put_production("plain", "discrete | POWERSET discrete | CHARS \"(\" expr \")\"")
    put_production("bare_structure", "STRUCT \"(\" field {\",\" field} \")\"")
    put_production("packed_structure", "bare_structure (PACK | NOPACK)")
    for (k = 1; k <= 8; k++) {
        inner = k > 1 ? " | array_with_word_" (k - 1) : ""
        put_production("array_with_word_" k, "ARRAY \"(\" index \")\" (plain | packed_structure" inner ") (PACK | NOPACK)" \
            " | ARRAY \"(\" index \")\" (plain | bare_structure | packed_structure" inner ") step")
        if (k > 1) inner = inner " | bare_array_" (k - 1)
        put_production("bare_array_" k, "ARRAY \"(\" index \")\" (plain | bare_structure | packed_structure" inner ")")
    }
    put_production("base", "plain | bare_structure | packed_structure | bare_array_8 | array_with_word_8")
}

function make_machines(k, name) {
    add_notes()
    for (k = 1; k <= productions; k++) {
        name = names[k]
        # a name before the last semicolon is the one at the beginning
        gsub(/\[name\] ";"/, "[closing] \";\"", right[name])
        has_turns = name ~ /^(expr|e1|e2|e3|e4|e6|loc)$/
        cut(right[name])
        begin_of[name] = state()
        ends[alternatives(begin_of[name])] = name
    }
    for (k = 1; k <= states; k++) {
        gathered++
        gather(k, k)
    }
    find_empty()
}

# What can be done in the state `of`: the steps of the states that are reached without a token, and what ends there.
function gather(of, s, k) {
    if (met[s] == gathered) return
    met[s] = gathered
    if (s in step_to) {
        symbol[of, ++steps[of]] = step_symbol[s]
        target[of, steps[of]] = step_to[s]
    }
    if (s in ends) ended[of] = ends[s]
    for (k = 1; k <= empties[s]; k++) gather(of, empty[s, k])
}

# Which productions may have no token.
function find_empty(more, k) {
    do {
        more = 0
        for (k = 1; k <= productions; k++)
            if (!(names[k] in may_be_empty) && is_empty_from(begin_of[names[k]], names[k])) {
                may_be_empty[names[k]] = 1
                more = 1
            }
    } while (more)
}

function is_empty_from(s, name, k) {
    if (ended[s] == name) return 1
    for (k = 1; k <= steps[s]; k++)
        if (symbol[s, k] in may_be_empty && is_empty_from(target[s, k], name)) return 1
    return 0
}

# ---- the tokens of a text

function put_token(what, kind) {
    token[++tokens] = what
    kind_of[tokens] = kind
    place_of[tokens] = row ":" column
}

# Goes behind so many bytes of a text, and gives what is left of it.
function behind(text, bytes, what, k) {
    what = substr(text, 1, bytes)
    k = split(what, skipped, "\n")
    row += k - 1
    column = k > 1 ? length(skipped[k]) + 1 : column + bytes
    return substr(text, bytes + 1)
}

function kind_of_name(what, big) {
    big = toupper(what)
    if ((what == big || what == tolower(what)) && ("" big) in words) return big
    return "name"
}

function kind_of_token(what) {
    if (what ~ /^'/) return "character"
    if (what ~ /^"/) return "text"
    if (what ~ /^[0-9]/ || what ~ /^[DdHhOoBb]'/) return "whole"
    if (what ~ /^[A-Za-z]/) return kind_of_name(what)
    return "\"" what "\""
}

function tokenize(text, what) {
    tokens = 0
    row = column = 1
    while (text != "") {
        if (match(text, /^[ \t\r\n]+/) || match(text, /^--[^\n]*/)) {
            text = behind(text, RLENGTH)
            continue
        }
        if (substr(text, 1, 2) == "/*") {
            text = behind(text, index(substr(text, 3), "*/") + 3)
            continue
        }
        if (!match(text, /^[DdHhOoBb]'[0-9A-Fa-f]+(_[0-9A-Fa-f]+)*/) && !match(text, /^[0-9]+(_[0-9]+)*/) &&
            !match(text, /^[A-Za-z][A-Za-z0-9_]*/) && !match(text, /^''''/) && !match(text, /^'[^'\n]'/) &&
            !match(text, /^("[^"\n]*")+/) && !match(text, /^(:=|\/=|<=|>=)/))
            RLENGTH = 1
        what = substr(text, 1, RLENGTH)
        put_token(what, kind_of_token(what))
        text = behind(text, length(what))
    }
    place_of[tokens + 1] = row ":" column
}

# ---- all ways at once

# An item in a set: a state, and the number of tokens before its production.
function add(set, s, origin) {
    if ((set, s, origin) in has) return
    has[set, s, origin] = 1
    item_state[set, ++items[set]] = s
    item_origin[set, items[set]] = origin
}

# A symbol that an item waits for, in a set.
function wait(set, what, to, origin, k) {
    k = ++waiting[set, what]
    waits_to[set, what, k] = to
    waits_origin[set, what, k] = origin
    if (k == 1) waited[set, ++waits[set]] = what
}

# All that follows without a token from what the set has.
function complete(set, k, s, origin, j, what) {
    for (k = 1; k <= items[set]; k++) {
        s = item_state[set, k]
        origin = item_origin[set, k]
        if (s in ended && origin < set)
            for (j = 1; j <= waiting[origin, ended[s]]; j++)
                add(set, waits_to[origin, ended[s], j], waits_origin[origin, ended[s], j])
        for (j = 1; j <= steps[s]; j++) {
            what = symbol[s, j]
            wait(set, what, target[s, j], origin)
            if (what in begin_of) {
                add(set, begin_of[what], set)
                if (what in may_be_empty) add(set, target[s, j], origin)
            }
        }
    }
}

function clear(set, k, j, what) {
    for (k = 1; k <= items[set]; k++) {
        delete has[set, item_state[set, k], item_origin[set, k]]
        delete item_state[set, k]
        delete item_origin[set, k]
    }
    for (k = 1; k <= waits[set]; k++) {
        what = waited[set, k]
        for (j = 1; j <= waiting[set, what]; j++) {
            delete waits_to[set, what, j]
            delete waits_origin[set, what, j]
        }
        delete waiting[set, what]
        delete waited[set, k]
    }
    delete items[set]
    delete waits[set]
}

# The set behind the token at the place `at` of the line, and how many items it has.
function take(set, at, kind, k, n, origin) {
    items[set] = waits[set] = 0
    kind = line_kind[at]
    n = waiting[set - 1, kind]
    for (k = 1; k <= n; k++) add(set, waits_to[set - 1, kind, k], waits_origin[set - 1, kind, k])
    if (kind == "name") {
        n = waiting[set - 1, "closing"]
        for (k = 1; k <= n; k++) {
            origin = waits_origin[set - 1, "closing", k]
            if (line_kind[origin + 1] == "name" && line[origin + 1] == line[at]) add(set, waits_to[set - 1, "closing", k], origin)
        }
    }
    complete(set)
    return items[set]
}

function is_program(set, k) {
    for (k = 1; k <= items[set]; k++)
        if (ended[item_state[set, k]] == "program" && item_origin[set, k] == 0) return 1
    return 0
}

# The place in a line of so many tokens, of which those before `from` are taken: the number of the token, the number behind
# the last for the end, or 0 for a tree.
function place_from(from, length_of, k, found) {
    found = -1
    for (k = from; k <= length_of; k++)
        if (!take(k, k)) {
            found = k
            break
        }
    if (found < 0) found = is_program(length_of) ? 0 : length_of + 1
    for (; k >= from; k--) clear(k)
    return found
}

function tell(found, length_of, k, column, text) {
    column = 1
    for (k = 1; k <= length_of; k++) {
        if (k == found) column = length(text) + 1
        text = text line[k] (k < length_of ? " " : "")
    }
    if (found > length_of) column = length(text) + 1
    print (found ? "1:" column : "tree") "\t" text
}

# ---- changed tokens

function random(below) {
    seed = (seed * 16807) % 2147483647
    return int(seed / 2147483647 * below)
}

function other_token() {
    if (random(2)) return token[1 + random(tokens)]
    return pool[1 + random(pooled)]
}

function put_line(k, what) {
    line[k] = what
    line_kind[k] = kind_of_token(what)
}

# Changes the token at the place `at`, and gives how many tokens there are then. The line has the tokens before it.
function change(at, way, k, n) {
    way = random(4)
    if (way == 3 && at == tokens) way = 2
    n = at - 1
    if (way == 1 || way == 2) put_line(++n, other_token())
    if (way == 3) {
        put_line(++n, token[at + 1])
        put_line(++n, token[at])
    }
    for (k = at + (way == 0 || way == 2) + 2 * (way == 3); k <= tokens; k++) {
        line[++n] = token[k]
        line_kind[n] = kind_of[k]
    }
    return n
}

# Judges so many changes of the text, at places in order, since what was taken of the text before them stays. Of a text
# that is none only its beginning is changed.
function judge_changes(text, many, k, j, at, n) {
    tokenize(text)
    split("", tries)
    for (k = 1; k <= many; k++) tries[1 + random(tokens)]++
    begin_sets()
    for (at = 1; at <= tokens; at++) {
        for (j = 1; j <= tries[at]; j++) {
            n = change(at)
            tell(place_from(at, n), n)
        }
        line[at] = token[at]
        line_kind[at] = kind_of[at]
        if (!take(at, at)) break
    }
    for (k = at; k >= 0; k--) clear(k)
}

function begin_sets() {
    items[0] = waits[0] = 0
    add(0, begin_of["program"], 0)
    complete(0)
}

function judge(text, k, found) {
    tokenize(text)
    begin_sets()
    for (k = 1; k <= tokens; k++) {
        line[k] = token[k]
        line_kind[k] = kind_of[k]
    }
    found = place_from(1, tokens)
    print (found ? place_of[found] : "tree")
    clear(0)
}

# ---- the files

# Keeps a text. One with `{{` stands for a longer one, and is left out.
function put_text(text) { if (text != "" && text !~ /\{\{/) texts[++texts_read] = text }

BEGIN { seed = 20261129 }

FNR == 1 {
    put_text(so_far)
    so_far = ""
    file++
}
file == 1 && /^```/ {
    inside = !inside
    if (inside) production = ""
    next
}
file == 1 && inside && /^[a-z][a-z0-9]* += / {
    production = $1
    sub(/^[a-z0-9]+ += /, "")
    put_production(production, $0)
    next
}
file == 1 {
    if (inside && production != "") right[production] = right[production] " " $0
    next
}
FILENAME ~ /\.chill$/ {
    so_far = so_far (FNR == 1 ? "" : "\n") $0
    next
}
/^program tree / {
    put_text(substr($0, 14))
    next
}
/^\| / { so_far = so_far substr($0, 3) "\n" }
/^$/ {
    put_text(so_far)
    so_far = ""
}
END {
    put_text(so_far)
    for (name in right) {
        text = right[name]
        while (match(text, /[A-Z][A-Z]+/)) {
            words[substr(text, RSTART, RLENGTH)] = 1
            text = substr(text, RSTART + RLENGTH)
        }
    }
    pooled = split("( ) [ ] , ; : := . + - * / = /= < <= > >= a b 1 'c' \"t\" IF THEN ELSE FI END OD DO CASE OF ESAC ON BEGIN FOR TO BY IN WHILE NOT AND OR MODULE REGION PROC PROCESS DCL SYN SYNMODE INT READ ARRAY STRUCT PACK STEP POS SET POWERSET CHARS BUFFER EVENT CALL EXIT RETURN RESULT ASSERT CAUSE STOP START DELAY CONTINUE SEND RECEIVE PRIORITY THIS SEIZE GRANT ALL SIGNAL RETURNS EXCEPTIONS", pool, " ")
    make_machines()
    for (k = 1; k <= texts_read; k++) {
        if (mutants == "") {
            judge(texts[k])
            continue
        }
        share = int(k * mutants / texts_read) - int((k - 1) * mutants / texts_read)
        if (share) judge_changes(texts[k], share)
    }
}
