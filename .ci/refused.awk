# Judges what a script told with each of its allocations refused in turn, from the files that .ci/refusals left in the present
# folder. A line tells of each that fails; the last one is 'PASSED FAILED'.
#
#   awk -v name=SCRIPT [-v goes_on=ANSWER] [-v by_line=1] -f .ci/refused.awk
#
# The status is to be 1 if a line was refused, else 0, and the transcript one of these, byte for byte:
#
# | transcript | with this told at the line |
# |---|---|
# | of the script itself | the same |
# | without the line | `Error: no memory` |
# | of a batch: if its file ends before one of its lines | `Error: no memory`, before `processed` |
# | of a frame: if a run is started in its place, stepped any number of its accesses, and left | `XDP_ABORTED 0 Refused`, or ANSWER |
# | of a step: if its run has ended | `run R XDP_ABORTED 0 Refused` |
#
# So a frame keeps just the changes of the accesses before the one that was refused: the list of the journal, the dumps and all
# later look-ups and serials are those of that many steps. ANSWER is that of a program that was told -12, and goes on.
#
# On standard error each hint, after its file and its line, is one that a run with memory gives, or ends with `the line changed
# nothing`; or it tells of a program that was aborted, by the reason alone, which is all that is known of its instruction then.
#
# The lines of a script are run in their order, so an allocation after another is told in no line before that of the other. The
# first ones, before the first line, end the program with status 2: nothing is told, and standard error has `bpfcon: no memory`
# alone. With `by_line` threads are started first, so it may have `bpfcon: cannot start a thread` then; and the lines are read one
# by one, so the program may also end before any line with status 2 and `bpfcon: no memory`, when it has told the answers of the
# lines before.

# All lines of a file.
function text_of(file,    line, text) {
    text = ""
    while ((getline line <file) > 0) text = text line "\n"
    close(file)
    return text
}

function lines_of(text) { return gsub(/\n/, "\n", text) }

# The lines of a text from one to another.
function part_of(text, from, to,    line, count, at, part) {
    count = split(text, line, "\n") - 1
    part = ""
    for (at = from; at <= to && at <= count; at++) part = part line[at] "\n"
    return part
}

function behind(text, line) { return part_of(text, line + 1, lines_of(text)) }

# A transcript in which so many lines after the answers to those before a line of the script are another text.
function instead(text, line, count, other,    before) {
    before = answers[line - 1]
    return part_of(text, 1, before) other behind(text, before + count)
}

# Notes a transcript that is allowed if an allocation is refused in a line. Lines that told nothing share theirs.
function allow(line, text) {
    if (!(text in first)) first[text] = line
    last[text] = line
}

# A batch that stops at a refused line comes to no line after it.
function allow_batch(line, text,    at) {
    at = answers[line - 1]
    while (at < lines_of(text) && part_of(text, at + 1, at + 1) !~ /^processed /) at++
    if (at > answers[line - 1] && part_of(text, at, at) ~ /^Error: /) return
    allow(line, part_of(text, 1, at) NO_MEMORY behind(text, at))
}

function allow_stepped(line, steps, text) {
    allow(line, instead(text, line, 1 + steps, "XDP_ABORTED 0 Refused\n"))
    if (goes_on != "") allow(line, instead(text, line, 1 + steps, goes_on "\n"))
}

function allow_variant(kind, line, detail, text) {
    if (kind == "without") {
        without[line] = instead(text, line, 0, NO_MEMORY)
        allow(line, without[line])
    } else if (kind == "ended") {
        allow(line, instead(text, line, 1, "run " substr(script[line], 10) " XDP_ABORTED 0 Refused\n"))
    } else if (kind == "batched") {
        allow_batch(line, text)
    } else if (kind == "stepped") {
        allow_stepped(line, detail, text)
    }
}

function read_script(    line, front) {
    while ((getline line <"script") > 0) script[++lines] = line
    whole = text_of("script.told")
    for (line = 0; line <= lines; line++) {
        front = text_of("front." line ".told")
        answers[line] = lines_of(front)
        fronts[front] = line
    }
}

function read_variants(    row, word) {
    while ((getline row <"variants") > 0) {
        split(row, word, " ")
        allow_variant(word[1], word[2], word[3], text_of(word[1] "." word[2] (word[3] == "" ? "" : "." word[3]) ".told"))
    }
    while ((getline row <"statuses") > 0) {
        split(row, word, " ")
        status[word[1]] = word[2]
        if (word[1] !~ /^(refused|from)[.]/) read_hints(word[1] ".said")
    }
}

# Whether a transcript is allowed, in no line before that in which an allocation was refused before.
function is_told(told, came) {
    if (came != (("\n" told) ~ /\nError: /)) return 0
    if (told == whole) return 1
    if (!(told in first) || last[told] < reached) return 0
    if (first[told] > reached) reached = first[told]
    return 1
}

function ends_before(told, came, said) {
    return !reached && came == 2 && told == "" && (said == "bpfcon: no memory\n" || by_line && said == "bpfcon: cannot start a thread\n")
}

function ends_between(told, came, said) {
    return by_line && came == 2 && told in fronts && fronts[told] >= reached - 1 && said ~ /bpfcon: no memory\n$/
}

# Notes the hints of a run with memory.
function read_hints(file,    line) {
    while ((getline line <file) > 0) known[hint_in(line)] = 1
    close(file)
}

# A hint without the file and the line for which it is given.
function hint_in(line) {
    sub(/^[^:]*:[0-9]+: /, "", line)
    return line
}

# Whether a hint says nothing false if memory is lacking.
function is_right(hint) {
    return hint in known || hint ~ /the line changed nothing$/ || hint == "bpfcon: no memory to tell what was taken out" || hint ~ /^bpfcon: [0-9]+ lines? refused$/ || is_reason(hint)
}

# Whether it tells of an aborted program by the reason alone.
function is_reason(hint) {
    return hint ~ /^XDP_ABORTED 0 [A-Za-z]+: slot [0-9]+ of program [0-9]+ (used a map that is not live|used bytes outside the stack, the frame or a value$|used a pointer as a number|was refused a look-up)/
}

# The first hint of a text that is not right; empty if each is.
function wrong_hint(said,    line, count, at) {
    count = split(said, line, "\n") - 1
    for (at = 1; at <= count; at++) if (!is_right(hint_in(line[at]))) return line[at]
    return ""
}

# The transcript that was to come in place of this one.
function better_than(told,    place, line) {
    place = index("\n" told, "\n" NO_MEMORY)
    if (!place) return whole
    place = lines_of(substr(told, 1, place - 1))
    for (line = 1; line < lines && answers[line] <= place; line++) {}
    return without[line]
}

# Tells where a transcript differs.
function show_difference(told, wanted,    came_line, wanted_line, at) {
    split(told, came_line, "\n")
    split(wanted, wanted_line, "\n")
    for (at = 1; came_line[at] == wanted_line[at] && at <= lines_of(wanted); at++) {}
    print "  wanted in line " at " of what is printed: " wanted_line[at]
    print "  came: " came_line[at]
}

function judge(number,    told, came, said) {
    told = text_of("refused." number ".told")
    came = status["refused." number]
    said = text_of("refused." number ".said")
    if (ends_before(told, came, said) || ends_between(told, came, said)) {
        passed++
    } else if (!is_told(told, came)) {
        failed++
        print "FAILED " name ", REFUSE=" number ": status " came
        show_difference(told, better_than(told))
    } else if (wrong_hint(said) != "") {
        failed++
        print "FAILED " name ", REFUSE=" number ": no run with memory says: " wrong_hint(said)
    } else {
        passed++
    }
}

BEGIN {
    NO_MEMORY = "Error: no memory\n"
    read_script()
    read_variants()
    count = text_of("script.count") + 0
    for (number = 1; number <= count; number++) judge(number)
    print passed + 0, failed + 0
}
