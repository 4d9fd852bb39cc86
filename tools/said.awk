# What words say, by the table of words: usage where they are no command, the place of the word that names the file, from 1,
# or 0 where none does. Usage: awk -f said.awk TABLE WORD..
#
# It is the reading of crates/word_reader, for the time in which there is no program.

# Whether the text is the number of the word: 1 to 8 decimal digits, from the least to the most.
function is_number(text, word) {
    return text ~ /^[0-9][0-9]?[0-9]?[0-9]?[0-9]?[0-9]?[0-9]?[0-9]?$/ && text + 0 >= least[word] && text + 0 <= most[word]
}

# Takes the option at `place`, and returns the place of its last word, or 0 where it is none.
function option_at(place,    text, word) {
    text = ARGV[place]
    word = text
    sub(/=.*/, "", word)
    if (!((verb, word) in options) || seen[word]++) return 0
    if (operand[word] == "") return text == word ? place : 0
    if (text != word) return is_number(substr(text, length(word) + 2), word) ? place : 0
    return place + 1 < ARGC && is_number(ARGV[place + 1], word) ? place + 1 : 0
}

function read_table(    line, part) {
    while ((getline line < ARGV[1]) > 0) {
        if (line ~ /^#/ || split(line, part, / *[|] */) < 6) continue
        operand[part[1]] = part[2]
        least[part[1]] = part[3]
        most[part[1]] = part[4]
        if (part[1] ~ /^--/) options[command, part[1]] = 1
        else verbs[command = part[1]] = 1
    }
}

# The place of the first word that is no option, or 0 where the words are no command: there are to be as many as it has operands.
function operand_at(wanted,    place, found, count, trailing) {
    for (place = 3; place < ARGC; place++) {
        if (!trailing && ARGV[place] == "--") trailing = 1
        else if (!trailing && ARGV[place] ~ /^-./) {
            place = option_at(place)
            if (!place) return 0
        } else if (!count++) found = place
    }
    return count == wanted ? found : 0
}

BEGIN {
    read_table()
    verb = ARGV[2]
    place = ARGC > 2 && verb in verbs ? operand_at(split(operand[verb], each, " ")) : 0
    if (!place || operand[verb] == "N" && !is_number(ARGV[place], verb)) print "usage"
    else print operand[verb] ~ /^FILE/ ? place - 1 : 0
    exit
}
