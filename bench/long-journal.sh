#!/bin/sh
# Tells how many machine instructions an update of an array takes in a short journal and in a long one, by callgrind, so that
# other work on the machine does not disturb it: each as the difference of two scripts, of which one has 10,000 updates more.
#
#   long-journal.sh ../crates/case_scripts/out/case_scripts 989999
#
# The second word is how many updates stand in the long journal before those that are counted, at most 989,999: a journal has
# at most 1,000,000 moments, and bpfcon's has 65,536; hence the cases, which set their own limits.
set -e
if [ $# -ne 2 ]; then
    echo "usage: long-journal.sh SCRIPT_CASES COUNT" >&2
    exit 2
fi
cases=$(realpath "$1")
cd "$(dirname "$0")"
work=$(mktemp -d)
trap 'rm -rf "$work"' EXIT
. ./scripts.sh

# counted COUNT: the machine instructions of a case with so many updates.
counted() {
    {
        printf 'limits journal=1000000\ncase updates\n> %s\nok 1 id 1\n' "$(create array 8 65536)"
        lines 10000 1 | awk -v count="$1" '
            { line[NR] = $0 }
            END { for (k = 0; k < count; k++) printf "> %s\nok %d\n", line[k % NR + 1], k + 2 }'
    } > "$work/updates.cases"
    valgrind -q --tool=callgrind --callgrind-out-file="$work/counts" "$cases" "$work/updates.cases" > "$work/printed" 2> "$work/said"
    awk '/^(summary|totals):/ { print $2; exit }' "$work/counts"
}
short=$(($(counted 20000) - $(counted 10000)))
long=$(($(counted $(($2 + 10000))) - $(counted "$2")))
echo "an update after 10,000 moments: $((short / 10000)) instructions"
echo "an update after $2 moments: $((long / 10000)) instructions"
