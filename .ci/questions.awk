# Prints a script, and after it what the console can be asked of all that it leaves: the journal, the maps with what they hold,
# the programs, each path that is pinned, and the devices. The files that the script names are read after it, not printed.
#
#   awk -f .ci/questions.awk SCRIPT FILE..

# Notes a path at which the script pins a map or a program.
function note_pin(object, path) {
    if ((object, path) in is_noted) return
    is_noted[object, path] = 1
    pin[++pins] = object " show pinned " path
}

FILENAME == ARGV[1] { print }
$1 == "map" && $2 == "create" { maps++; note_pin("map", $3) }
$1 == "prog" && $2 == "load" { note_pin("prog", $4) }
($1 == "map" || $1 == "prog") && $2 == "pin" { note_pin($1, $5) }
END {
    print "journal list"
    print "map show"
    print "prog show"
    print "net show"
    for (id = 1; id <= maps; id++) print "map dump id " id
    for (at = 1; at <= pins; at++) print pin[at]
}
