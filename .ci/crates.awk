# Reads crates.txt, and prints its floors as a picture, the highest at the top, and then a table of the crates of each, the
# lowest first. With the variable `above`, names between spaces, it prints instead the crates that use one of these, also by way
# of others.
#
# A line `## NAME: SENTENCE` begins a floor. The lines `# NOUN` right above a crate's own line say what it is.

/^## / {
    floor_name[++floors] = substr($0, 4, index($0, ": ") - 4)
    sentence[floors] = substr($0, index($0, ": ") + 2)
    next
}
/^#/ {
    noun = noun (noun == "" ? "" : " ") substr($0, 3)
    next
}
NF == 0 {
    noun = ""
    next
}
{
    split($0, halves, ":")
    split(halves[1], words)
    name = words[1]
    crate[++crates] = name
    place[name] = crates
    floor[name] = floors
    noun_of[name] = noun
    uses[name] = halves[2]
    noun = ""
}

END {
    for (n = 1; n <= crates; n++) look_at(crate[n])
    look_for(above)
    if (faults) exit 1
    for (n = 1; n <= crates; n++) find_below(crate[n])
    if (above != "") {
        for (n = 1; n <= crates; n++) if (has_any(below[crate[n]], above)) print crate[n]
        exit
    }
    draw()
    for (n = 1; n <= floors; n++) tabulate(n)
}

# Whether a set has a word. A set is its words, each between spaces.
function has(set, word) {
    return index(set, " " word " ") > 0
}

# Whether it has one of these words.
function has_any(set, text,    words, count, n) {
    count = split(text, words)
    for (n = 1; n <= count; n++) if (has(set, words[n])) return 1
    return 0
}

# The set with these words added.
function with(set, text,    words, count, n) {
    count = split(text, words)
    for (n = 1; n <= count; n++) if (!has(set, words[n])) set = set words[n] " "
    return set
}

# Says what is wrong with crates.txt, and counts it.
function blame(what) {
    print "crates.txt: " what >"/dev/stderr"
    faults++
}

function look_at(name,    used, count, n) {
    if (!floor[name]) blame(name " has no floor")
    if (noun_of[name] == "") blame(name " has no noun above it")
    count = split(uses[name], used)
    for (n = 1; n <= count; n++) {
        if ((used[n] in place) && place[used[n]] >= place[name]) blame(name " uses " used[n] ", which is listed after it")
    }
}

function look_for(names,    words, count, n) {
    count = split(names, words)
    for (n = 1; n <= count; n++) if (!(words[n] in place)) blame("no crate is " words[n])
}

# Finds all that a crate stands on, once that is known of each crate above it in the list.
function find_below(name,    used, count, n) {
    below[name] = " "
    count = split(uses[name], used)
    for (n = 1; n <= count; n++) below[name] = with(with(below[name], used[n]), below[used[n]])
}

# What a crate uses, without what another crate that it uses stands on already.
function shortest(name,    used, count, n, other, is_brought, text) {
    count = split(uses[name], used)
    for (n = 1; n <= count; n++) {
        is_brought = 0
        for (other = 1; other <= count; other++) if (has(below[used[other]], used[n])) is_brought = 1
        if (!is_brought) text = text (text == "" ? "" : ", ") "`" used[n] "`"
    }
    return text == "" ? "nothing" : text
}

# So many of a character; a text with spaces after it, up to a width.
function times(count, character,    text) {
    while (length(text) < count) text = text character
    return text
}
function padded(text, width) {
    return text times(width - length(text), " ")
}

function draw(    n, left, right, edge) {
    for (n = 1; n <= floors; n++) {
        if (length(floor_name[n]) > left) left = length(floor_name[n])
        if (length(sentence[n]) > right) right = length(sentence[n])
    }
    edge = "+" times(left + 2, "-") "+" times(right + 2, "-") "+"
    print "```text"
    print edge
    for (n = floors; n >= 1; n--) {
        print "| " padded(floor_name[n], left) " | " padded(sentence[n], right) " |"
        print edge
    }
    print "```\n"
}

function tabulate(of_floor,    n, name) {
    print "### " toupper(substr(floor_name[of_floor], 1, 1)) substr(floor_name[of_floor], 2) "\n"
    print "| crate | its noun | stands on |"
    print "|---|---|---|"
    for (n = 1; n <= crates; n++) {
        name = crate[n]
        if (floor[name] == of_floor) print "| `" name "` | " noun_of[name] " | " shortest(name) " |"
    }
    print ""
}
