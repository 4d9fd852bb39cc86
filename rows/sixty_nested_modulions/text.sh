# 60 modules in one another, with 4,096 definitions. 200 locations of the innermost are granted through all of them, each
# SEIZE ALL takes what is seen around, and assignments between the locations of all modules, then blanks, fill the text up
# to 262,144 bytes.
awk '
function put(line) {
    printf "%s\n", line
    written += length(line) + 1
}

# the name of the module at this depth, or of a location in it
function module(depth) { return "m" depth }
function location(depth, number) { return "x" depth "_" number }

# how many locations the module at this depth has: 3,836 in all
function locations(depth) { return depth < 60 ? 64 : 60 }

BEGIN {
    granted = "g1"
    for (k = 2; k <= 200; k++) granted = granted ", g" k
    for (depth = 1; depth <= 60; depth++) {
        put(module(depth) ": MODULE SEIZE ALL; GRANT ALL; GRANT " granted ";")
        line = "DCL " location(depth, 1)
        for (k = 2; k <= locations(depth); k++) line = line ", " location(depth, k)
        put(line " INT;")
    }
    put("DCL " granted " INT;")
    for (depth = 60; depth >= 1; depth--) closing = closing "END " module(depth) ";\n"
    for (k = 0; ; k++) {
        from = k % 60 + 1
        to = 60 - k % 59
        line = location(from, k % locations(from) + 1) " := " location(to, k % locations(to) + 1) " + g" (k % 200 + 1) ";"
        if (written + length(line) + 1 + length(closing) > 262144) break
        put(line)
    }
    printf "%" (262144 - written - length(closing)) "s%s", "", closing
}'
