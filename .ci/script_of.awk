# Prints the script of one case of a file of crates/case_scripts/data, with what its names stand for, and writes the files that
# are at hand in it to the present folder. Its status is 1 if there is no such case, or none that the program can run.
#
#   awk -v name=undo_to_a_mark -f .ci/script_of.awk crates/case_scripts/data/first_steps.cases

# Notes NAME = TEXT, or NAME = COUNT * TEXT for a text so many times.
function define(words,    at, text, count) {
    at = index(words, " = ")
    text = substr(words, at + 3)
    count = 1
    if (match(text, /^[0-9]+ \* /)) {
        count = text + 0
        text = substr(text, RLENGTH + 1)
    }
    defined[substr(words, 1, at - 1)] = repeated(text, count)
}

function repeated(text, count,    half) {
    if (count < 2) return count ? text : ""
    half = repeated(text, int(count / 2))
    return half half (count % 2 ? text : "")
}

# A given line with the text for each name after $.
function given(text,    done) {
    done = ""
    while (match(text, /\$[A-Za-z0-9_]+/)) {
        done = done substr(text, 1, RSTART - 1) defined[substr(text, RSTART + 1, RLENGTH - 1)]
        text = substr(text, RSTART + RLENGTH)
    }
    return done text
}

# A case ends here that no script of bytes alone says.
function stop(why) {
    print FILENAME ": " name ": " why >"/dev/stderr"
    exit 1
}

/^let / { define(substr($0, 5)) }
/^case / { is_asked = $2 == name; is_found = is_found || is_asked }
!is_asked { next }
/^(limits|devices) / { stop("the program has its own limits and devices") }
/^[>|].*\\/ { stop("bytes after a backslash are not read here") }
/^>/ { print given(substr($0, 3)) }
/^file / { file = $2; printf "" >file }
/^\| / { print given(substr($0, 3)) >file }
END { if (!is_found) { print FILENAME ": no case " name >"/dev/stderr"; exit 1 } }
