# Takes out of a page what can be run. `want` is `rules`, `idioms` or `commands`; `folder` is where the last two are written.

# The text of a cell: what stands between its backticks, with its bars.
function text_of(cell) {
    gsub(/^ *`|` *$/, "", cell)
    gsub(/\001/, "|", cell)
    return cell
}

function put(name, text) {
    printf "%s", text > (folder "/" name)
    close(folder "/" name)
}

/^\|/ { gsub(/\\\|/, "\001") }
/^\| Rule \| A module that breaks it \| Mended \|/ { is_rules = 1; next }
/^\| Of Z.200 \|/ { is_idioms = 1; next }
!/^\|/ { is_rules = is_idioms = 0 }
/^\|---/ { next }
want == "rules" && is_rules {
    split($0, cell, "|")
    print "# " cell[2] "\n| " text_of(cell[3]) "\n\n| " text_of(cell[4]) "\n"
}
want == "idioms" && is_idioms {
    split($0, cell, "|")
    gsub(/^ *| *$/, "", cell[4])
    put(++idioms ".idiom", text_of(cell[3]))
    put(idioms ".told", cell[4] "\n")
    put(idioms ".mend", text_of(cell[5]))
}
want == "commands" && /^    \$ / {
    put(++commands ".command", substr($0, 7) "\n")
    put(commands ".wanted", "")
    is_open = 1
    empty = 0
    next
}
want == "commands" && is_open && /^$/ { empty++; next }
want == "commands" && is_open && /^    / {
    for (; empty > 0; empty--) print "" >> (folder "/" commands ".wanted")
    print substr($0, 5) >> (folder "/" commands ".wanted")
    next
}
{ is_open = 0 }
