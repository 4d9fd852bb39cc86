# Whether the lines are those of the file `wanted`, in which `..` stands for any lines, at its end or before a line that comes.
# Blanks at the end of a line don't count.
BEGIN {
    while ((getline line < wanted) > 0) want[++wants] = line
    at = 1
}
{ sub(/ *$/, "") }
differs { next }
want[at] == ".." && (at == wants || $0 != want[at + 1]) { next }
want[at] == ".." { at++ }
at > wants || $0 != want[at] { differs = 1; next }
{ at++ }
END {
    if (at == wants && want[at] == "..") at++
    exit differs || at != wants + 1
}
