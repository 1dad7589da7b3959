#!/bin/sh
# Tells what a change costs in a full journal, each of which gives the oldest moment up: its machine instructions beside those
# of a change below the limit, by callgrind, so that other work on the machine does not disturb it; the memory of ever more of
# them; frames in a full journal, and an undo of all that it keeps:
#
#   window.sh ../crates/bpfcon/out/bpfcon 7 ../crates/case_scripts/out/case_scripts
#
# The second word is how often the times are taken. Beside each figure stands the one asked for. The status is 1 if a script
# did not end as it should.
set -e
if [ $# -ne 3 ]; then
    echo "usage: window.sh BPFCON ROUNDS SCRIPT_CASES" >&2
    exit 2
fi
bpfcon=$(realpath "$1")
rounds=$2
cases=$(realpath "$3")
cd "$(dirname "$0")"
work=$(mktemp -d)
trap 'rm -rf "$work"' EXIT
. ./scripts.sh

# updates JOURNAL COUNT: a case with so many updates, in a journal of so many moments.
updates() {
    printf 'limits journal=%d\ncase updates\n> %s\nok 1 id 1\n' "$1" "$(create array 8 65536)"
    lines 10000 1 | awk -v count="$2" '
        { line[NR] = $0 }
        END { for (k = 0; k < count; k++) printf "> %s\nok %d\n", line[k % NR + 1], k + 2 }'
}

# counted JOURNAL COUNT: its machine instructions.
counted() {
    updates "$1" "$2" > "$work/updates.cases"
    valgrind -q --tool=callgrind --callgrind-out-file="$work/counts" "$cases" "$work/updates.cases" > "$work/printed" 2> "$work/said"
    awk '/^(summary|totals):/ { print $2; exit }' "$work/counts"
}
below=$((($(counted 1000000 90000) - $(counted 1000000 80000)) / 10000))
full=$((($(counted 65536 90000) - $(counted 65536 80000)) / 10000))
echo "an update after 80,000 moments of 1,000,000:  $below instructions"
echo "an update in a full journal of 65,536:        $full instructions   at most $((below * 105 / 100))"

# The longest journal that there is takes some minutes.
longest=$((($(counted 1000000 1020000) - $(counted 1000000 1010000)) / 10000))
echo "an update in a full journal of 1,000,000:     $longest instructions   at most $((below * 105 / 100))"

# after BATCHES: the resident size after so many batches of 10,000 updates, each of which prints one line more.
lines 10000 1 > "$work/batch"
after() {
    { create array 8 65536; yes "batch file $work/batch" | head -n "$1"; } > "$work/batches"
    resident "$work/batches" $((1 + 10001 * $1))
}
echo "resident after 200,000 updates:    $(after 20) KB"
echo "resident after 2,000,000 updates:  $(after 200) KB   no more"

# The program of the example counts in an array: two accesses a frame, of which one is a moment.
grep -E '^(map create|prog load|net attach.*eth0)' ../examples/tally.bpfcon > "$work/tally"
yes "frame dev eth0 hex:0200000000010200000000020800" | head -n 70000 > "$work/frames"
{ cat "$work/tally" "$work/frames"; } > "$work/filled"
{ cat "$work/filled"; head -n 60000 "$work/frames"; } > "$work/behind"
{ cat "$work/filled"; echo "journal mark now"; head -n 65536 "$work/frames"; } > "$work/kept"
{ cat "$work/kept"; echo "journal undo now"; } > "$work/undone"
for round in $(seq "$rounds"); do
    for script in filled behind kept undone; do
        timed $script "$bpfcon" run "$work/$script"
    done
done
status=0

# The same frames by two workers, after the script that fills the journal.
sed 's/^frame dev //' "$work/frames" | head -n 60000 > "$work/served"
timed host "$bpfcon" host "$work/filled" "$work/served"
served=$(grep -c '^frame [0-9]* XDP_PASS 2$' "$work/host.printed" || true)
echo "of 60,000 frames by two workers in a full journal, so many got their action: $served"
[ "$served" = 60000 ] || status=1
# row WHAT ASKED SCRIPT WITHOUT LAST: the least milliseconds of a script over those of another; LAST is the last line that it
# prints.
row() {
    if [ "$(tail -n 1 "$work/$3.printed")" = "$5" ] && ! grep -q Refused "$work/$3.printed"; then
        echo "$(sort -n "$work/$3.times" | head -n 1) $(sort -n "$work/$4.times" | head -n 1)" |
            awk -v what="$1" -v asked="$2" '{ printf "%-58s %9.1f ms   %s\n", what, $1 - $2, asked }'
    else
        echo "$1: ended otherwise"
        status=1
    fi
}
row "60,000 frames in a full journal" "" behind filled "XDP_PASS 2"
row "an undo to a mark of 65,536 moments from there" "under 30" undone kept "undone 65536"
exit $status
