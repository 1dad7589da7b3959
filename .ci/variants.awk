# Writes variants of a script to the present folder, each a script without refused allocations that says what is to be told where
# one is refused in a line:
#
# | file | the script |
# |---|---|
# | front.LINE | up to the line, all after it made comments of the same length |
# | without.LINE | without the line |
# | ended.LINE | if the run that the line steps has ended: this line and later steps of it name a run that there is not |
#
# It prints `KIND LINE` for each file, also `frame LINE` and `batch LINE FILE` for a line that has variants of its own.
#
#   awk -f .ci/variants.awk SCRIPT

# Whether a line does nothing.
function is_silent(text) {
    sub(/#.*/, "", text)
    return text !~ /[^ \t\r]/
}

# A comment of the length of a line.
function comment(text) {
    gsub(/./, "#", text)
    return text
}

function write_front(line,    at, file) {
    file = "front." line
    printf "" >file
    for (at = 1; at <= NR; at++) print (at <= line ? text[at] : comment(text[at])) >file
    close(file)
    print "front", line
}

function write_without(line,    at, file) {
    file = "without." line
    printf "" >file
    for (at = 1; at <= NR; at++) if (at != line) print text[at] >file
    close(file)
    print "without", line
}

function write_ended(line,    at, file) {
    file = "ended." line
    for (at = 1; at <= NR; at++) print (at >= line && text[at] == text[line] ? "run step 4294967295" : text[at]) >file
    close(file)
    print "ended", line
}

{ text[NR] = $0 }
END {
    for (line = 0; line <= NR; line++) write_front(line)
    for (line = 1; line <= NR; line++) {
        if (is_silent(text[line])) continue
        write_without(line)
        if (text[line] ~ /^run step /) write_ended(line)
        if (text[line] ~ /^frame /) print "frame", line
        if (text[line] ~ /^batch file /) print "batch", line, substr(text[line], 12)
    }
}
