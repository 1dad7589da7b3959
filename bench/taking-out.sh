#!/bin/sh
# Times how one change is taken out from below tens of thousands, ROUNDS times, and its undo and redo, and tells how much
# memory such a moment takes; beside each figure stands the one asked for:
#
#   taking-out.sh ../crates/bpfcon/out/bpfcon 7 ../crates/case_scripts/out/case_scripts
#
# Each figure is the difference of two scripts of which one does it so many times more, divided by how many, so that reading
# the script does not count: of the least of all rounds, and of their medians.
#
# apart     the first of 65,515 updates of different keys of a hash is taken out, then the next one, up to the twentieth
# turned    the first taking out is undone and redone, in a journal of 65,517 moments
# million   the same in a journal of 1,000,000, if a third word is given: bpfcon's has room for 65,536, and case_scripts
#           sets its own limits
# again     the first of 60,010 updates, the last ten of which are of the first ten keys, so that the later ones have to be
#           undone and done again; then the next one, up to the tenth
# memory    the resident size after COUNT updates of different keys, each of which is then taken out when it is the first
#           one left, over as many takings out that are refused; COUNT is 16,000, or what MOMENTS says. A bpfcon that keeps
#           all later changes anew takes some 90 bytes times the square of COUNT: give it 1,000
#
# The status is 1 if a script did not end as it should.
set -e
if [ $# -lt 2 ] || [ $# -gt 3 ]; then
    echo "usage: taking-out.sh BPFCON ROUNDS [SCRIPT_CASES]" >&2
    exit 2
fi
bpfcon=$(realpath "$1")
rounds=$2
cases=${3:+$(realpath "$3")}
moments=${MOMENTS:-16000}
cd "$(dirname "$0")"
work=$(mktemp -d)
trap 'rm -rf "$work"' EXIT
. ./scripts.sh

# without FROM TO: takings out of the changes of these serials.
without() {
    seq -f 'journal without %.0f' "$1" "$2"
}
# turns COUNT: so many undos, each with a redo.
turns() {
    yes 'journal undo
journal redo' | head -n $((2 * $1))
}
{ create hash 8 65536; lines 65515 1; without 2 2; } > "$work/one"
{ cat "$work/one"; without 3 21; } > "$work/apart"
{ cat "$work/one"; turns 100; } > "$work/turned"
{ create hash 8 65536; lines 60000 1; lines 10 1; } > "$work/written"
{ cat "$work/written"; without 2 11; } > "$work/again"
scripts="one apart turned written again"

# The update of key 0, and 999,997 of the other keys in turn.
if [ -n "$cases" ]; then
    {
        printf 'limits journal=1000000\ncase updates\n> %s\nok 1 id 1\n' "$(create hash 8 65536)"
        lines 65536 1 | awk '
            { line[NR - 1] = $0 }
            END {
                for (k = 0; k < 999998; k++) printf "> %s\nok %d\n", line[k ? 1 + (k - 1) % 65535 : 0], k + 2
                print "> journal without 2\nok 1000000"
            }'
    } > "$work/million_one"
    {
        cat "$work/million_one"
        turns 20 | awk '{ print "> " $0; print $2 == "undo" ? "undone 1" : "redone 1" }'
    } > "$work/million_turned"
fi

for round in $(seq "$rounds"); do
    for script in $scripts; do
        timed $script "$bpfcon" run "$work/$script"
    done
    if [ -n "$cases" ]; then
        timed million_one "$cases" "$work/million_one"
        timed million_turned "$cases" "$work/million_turned"
    fi
done

status=0
# of_rounds NAME: the least and the median of the milliseconds.
of_rounds() {
    sort -n "$work/$1.times" | awk '{ times[NR] = $1 } END { print times[1], times[int((NR + 1) / 2)] }'
}
# row WHAT ASKED SCRIPT WITHOUT COUNT LAST: what the script takes longer than the other, for each of so many; LAST is the last
# line that it prints.
row() {
    if [ "$(tail -n 1 "$work/$3.printed")" = "$6" ]; then
        echo "$(of_rounds "$3") $(of_rounds "$4")" | awk -v what="$1" -v asked="$2" -v count="$5" '{
            printf "%-58s %9.3f %9.3f ms   %s\n", what, ($1 - $3) / count, ($2 - $4) / count, asked }'
    else
        echo "$1: ended otherwise"
        status=1
    fi
}
printf '%-58s %9s %9s      %s\n' what least median asked
row "a change taken out of 65,515 that are apart from it" "under 2" apart one 19 "ok 65536"
row "an undo or a redo of that among 65,517 moments" "under 0.1" turned one 200 "redone 1"
if [ -n "$cases" ]; then
    row "an undo or a redo of that among 1,000,000 moments" "under 5" million_turned million_one 40 "1 passed, 0 failed"
fi
row "a change taken out of 60,010 with one of its key" "no more than before" again written 10 "ok 60021"

{ create hash 8 "$moments"; lines "$moments" 1; } > "$work/updates"
{ cat "$work/updates"; without 2 $((moments + 1)); } > "$work/taken_out"
{ cat "$work/updates"; without $((moments + 2)) $((2 * moments + 1)); } > "$work/refused"
refused=$(resident "$work/refused")
taken_out=$(resident "$work/taken_out")
if [ "$(tail -n 1 "$work/printed")" = "ok $((2 * moments + 1))" ]; then
    printf '%-58s %9d bytes          %s\n' "a moment of $moments that each take one change out" \
        $(((taken_out - refused) * 1024 / moments)) "at most 200"
else
    echo "a moment that takes one change out: ended otherwise"
    status=1
fi
exit $status
