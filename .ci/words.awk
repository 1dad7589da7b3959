# Prints where a phrase of a list stands in prose: `PHRASE: FILE:LINE: write INSTEAD`.
#
#   awk -f .ci/words.awk PHRASES FILES
#
# PHRASES has on each line a pattern, a tab and what to write. FILES lists files to read. Prose is, in small letters: all of a
# page but its code; in a source file the comments, and what stands between quotation marks but for the names of values in it; in
# any other file its comments.

BEGIN { FS = "\t" }
FNR == NR {
    phrase[++phrases] = $1
    pattern[phrases] = "(^|[^a-z_])" $1 "([^a-z_]|$)"
    instead[phrases] = $2
    next
}
{ look_through($0) }

function look_through(file,    line, number, n, text) {
    is_code = is_quoted = 0
    while ((getline line <file) > 0) {
        number++
        text = tolower(prose_of(file, line))
        for (n = 1; n <= phrases; n++) {
            if (text ~ pattern[n]) print phrase[n] ": " file ":" number ": write: " instead[n]
        }
    }
    close(file)
}

function prose_of(file, line) {
    if (file ~ /\.md$/) return of_page(line)
    if (file ~ /\.8$/) return line
    if (file ~ /\.rt$/) return of_source(line, "//")
    if (file ~ /\.antt$/) return of_source(line, "-- ")
    return line ~ /^ *#/ ? without_code(line) : ""
}

# What of a line is not between two backquotes.
function without_code(line) {
    gsub(/`[^`]*`/, "`", line)
    return line
}

function of_page(line) {
    if (line ~ /^ *```/) is_code = !is_code
    return is_code ? "" : without_code(line)
}

# The comment of a line, and what of it stands between quotation marks, which may have begun on a line before.
function of_source(line, mark,    at, text, parts, count, n) {
    at = is_quoted ? 0 : index(line, mark)
    if (at && (at == 1 || substr(line, 1, at - 1) ~ /^ *$/)) return without_code(line)
    gsub(/\\\\|\\"|'"'|[{][^}"]*[}]/, "", line)
    count = split(line, parts, "\"")
    for (n = 1; n <= count; n++) {
        if (is_quoted) text = text " " parts[n]
        if (n < count) is_quoted = !is_quoted
    }
    if (mark != "//") is_quoted = 0
    return text
}
