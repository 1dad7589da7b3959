# Prints each name that several libraries give to public types, with these libraries: `types: NAME is public in CRATE..`.
#
#   awk -f .ci/types.awk SHARED FILES
#
# SHARED has on each line a name that may be shared, by how many, and what it is in each. FILES lists the first files of libraries. A
# type is public if that file or a public module of it makes it, or if that file passes it on from a module of the library.

FILENAME == ARGV[1] && FILENAME != "-" {
    may_share[$1] = $2
    next
}
{ look_through($0) }
END {
    for (name in count) {
        if (count[name] > 1 && count[name] != may_share[name]) print "types: " name " is public in" owners[name]
    }
    for (name in may_share) if (count[name] != may_share[name]) print "types: " name " is listed with " may_share[name] " owners and has " count[name] + 0
}

function look_through(file,    parts, crate, line, text) {
    split(file, parts, "/")
    crate = parts[2]
    split("", is_own)
    while ((getline line <file) > 0) {
        if (line ~ /^ *\/\//) continue
        text = text " " line
        if (line !~ /[;{}] *$/) continue
        if (text ~ /[{] *$/ && text ~ /pub use/) continue
        note(crate, text)
        text = ""
    }
    close(file)
}

# Notes what an item of a library declares: a module of its own, a type, or types of such a module that are passed on.
function note(crate, text,    words, parts, n, many, path) {
    gsub(/^ +| +$/, "", text)
    sub(/^#!?\[[^\]]*\] */, "", text)
    if (match(text, /^(pub )?mod [a-z_0-9]+;/)) {
        split(text, words, /[ ;]/)
        is_own[words[1] == "pub" ? words[3] : words[2]] = 1
        if (words[1] == "pub") look_into(crate, "crates/" crate "/src/" words[3] ".rt")
    } else if (match(text, /^pub (struct|enum|trait|type) [A-Za-z0-9]+/)) {
        split(text, words, /[ <;:({]/)
        add(crate, words[3])
    } else if (text ~ /^pub use /) {
        path = substr(text, 9)
        sub(/^crate::/, "", path)
        sub(/;.*/, "", path)
        split(path, parts, "::")
        if (!(parts[1] in is_own)) return
        gsub(/[{},]/, " ", path)
        sub(/.*::/, "", path)
        many = split(path, words, / +/)
        for (n = 1; n <= many; n++) add(crate, words[n])
    }
}

# Notes the types of a module that is public itself.
function look_into(crate, file,    line, words) {
    while ((getline line <file) > 0) {
        if (line !~ /^pub (struct|enum|trait|type) /) continue
        split(line, words, /[ <;:({]/)
        add(crate, words[3])
    }
    close(file)
}

function add(crate, name) {
    if (name !~ /^[A-Z][A-Za-z0-9]*[a-z][A-Za-z0-9]*$/ || (crate, name) in seen) return
    seen[crate, name] = 1
    count[name]++
    owners[name] = owners[name] " " crate
}
