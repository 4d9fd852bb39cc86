# Makes of the table of words what `want` names: usage.txt, chill.1 or chill.bash.

BEGIN { FS = " *[|] *" }
/^#/ || NF < 6 { next }
$1 ~ /^--/ {
    options[verb] = options[verb] (options[verb] == "" ? "" : " ") $1
    long[verb] = long[verb] " [" $1 ($2 == "" ? "" : " " $2) "]"
    if ($2 != "" && !taken[$1]++) takes = takes (takes == "" ? "" : " | ") $1
}
$1 !~ /^--/ {
    verb = $1
    order[++count] = verb
    operand[verb] = $2
    verbs = verbs (count == 1 ? "" : " ") verb
    if ($2 ~ /^FILE/) files = files (files == "" ? "" : " | ") verb
}
{
    row[++rows] = $1
    of[rows] = verb
    names[rows] = $2
    does[rows] = $6
    range[rows] = $3 == "" ? "" : $3 " to " thousands($4) ($5 == "" ? "" : ", " thousands($5) " where nothing is said")
}
END {
    if (want == "usage.txt") usage()
    else if (want == "chill.1") page()
    else completion()
}

# A number with commas between its thousands.
function thousands(number) {
    return number < 1000 ? number : thousands(int(number / 1000)) "," substr(number, length(number) - 2)
}

# The line that is told where words are no command.
function usage(    each, line) {
    for (each = 1; each <= count; each++)
        line = line (each == 1 ? "" : " | ") order[each] " " operand[order[each]] long[order[each]]
    print "usage: chill " line
}

# A text as it stands on a man page.
function man(text) {
    gsub(/\\/, "\\e", text)
    gsub(/-/, "\\-", text)
    return text
}

function page(    each) {
    print ".\\\" Made by tools/around of tools/words.txt."
    print ".TH CHILL 1 \"\" \"\" \"User Commands\""
    print ".SH NAME"
    print "chill \\- compiles and runs programs of CHILL, the language of telephone exchanges"
    print ".SH SYNOPSIS"
    for (each = 1; each <= count; each++) {
        if (each > 1) print ".br"
        print ".B chill " order[each]
        print ".I " operand[order[each]]
        if (long[order[each]] != "") print man(substr(long[order[each]], 2))
    }
    print ".SH COMMANDS"
    for (each = 1; each <= rows; each++) {
        print ".TP"
        if (row[each] ~ /^--/) print ".BR \"" of[each] " \" ... \" " man(row[each]) "\" \" " names[each] "\""
        else print ".BI \"" row[each] " \" " names[each]
        print man(does[each]) (range[each] == "" ? "." : "; " man(range[each]) ".")
    }
    print ".PP"
    print "Options stand before or behind"
    print ".IR FILE ,"
    print "each at most once, as"
    print ".B \\-\\-name N"
    print "or"
    print ".BR \\-\\-name=N ."
    print "Behind"
    print ".B \\-\\-"
    print "each word is a file."
    print ".SH EXIT STATUS"
    status(0, "done")
    status(1, "a process ended with an exception")
    status(2, "the words are no command; the usage line was written")
    status(3, "the text breaks a rule; a line for each was written")
    status(4, "the file or the input can't be read")
    status(5, "what was to be written can't be")
    status(6, "stuck: nobody can go on, and somebody hasn't ended")
    status(7, "spent: the budget is reached")
    status(8, "no memory")
    status(9, "the input has more than 1,048,576 bytes")
    status(10, "the journal is none, or is too long")
    status(11, "the journal is no run of the program")
    status(126, "no program could be built (the wrapper's own)")
    status(127, "no program is there, and no kit to build one (the wrapper's own)")
    print ".SH SEE ALSO"
    print "README.md, docs/USING.md and docs/COMMANDS.md beside the program."
}

function status(number, means) {
    print ".TP"
    print ".B " number
    print man(means) "."
}

function completion() {
    print "# Completion of chill for bash: source this file. Made by tools/around of tools/words.txt."
    print "_chill() {"
    print "    local word=${COMP_WORDS[COMP_CWORD]} before=${COMP_WORDS[COMP_CWORD - 1]} options="
    print "    if [ \"$COMP_CWORD\" -eq 1 ]; then"
    print "        COMPREPLY=($(compgen -W '" verbs "' -- \"$word\"))"
    print "        return"
    print "    fi"
    print "    case $before in " takes ") return ;; esac"
    print "    case ${COMP_WORDS[1]} in"
    for (each = 1; each <= count; each++)
        if (options[order[each]] != "") print "    " order[each] ") options='" options[order[each]] "' ;;"
    print "    esac"
    print "    case $word in -?*) COMPREPLY=($(compgen -W \"$options\" -- \"$word\")) && return ;; esac"
    print "    case ${COMP_WORDS[1]} in"
    print "    " files ") compopt -o filenames 2>/dev/null; COMPREPLY=($(compgen -f -- \"$word\")) ;;"
    print "    esac"
    print "}"
    print "complete -F _chill chill ./chill"
}
