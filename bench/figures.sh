#!/bin/sh
# Times a bpfcon on the work that has a figure to keep, and `bpftool batch` on the same lines, if it is there and may make
# maps of the kernel's: each script in turn, ROUNDS times. Of each it prints the least seconds, and the figure asked for:
#
#   figures.sh ../crates/bpfcon/out/bpfcon 7
#
# A dump, an undo, a forgetting, frames and the making of a map are what a script takes longer than the same without them. A
# journal has 65,536 moments, of which the making of the map is one: hence 65,535 updates. BPFTOOL names another bpftool. The
# status is 1 if a script did not end as it should.
set -e
if [ $# -lt 1 ] || [ $# -gt 2 ]; then
    echo "usage: figures.sh BPFCON [ROUNDS]" >&2
    exit 2
fi
bpfcon=$(realpath "$1")
rounds=${2:-5}
bpftool=${BPFTOOL:-bpftool}
cd "$(dirname "$0")"
work=$(mktemp -d)
pin=/sys/fs/bpf/figures_of_bpfcon
trap 'rm -rf "$work" "$pin"_*' EXIT
. ./scripts.sh

: > "$work/nothing"
head -c 16777216 /dev/zero | tr '\0' '\n' > "$work/empty"
create array 256 65536 > "$work/made"
kernel=
for type in array hash; do
    { create $type 8 65536; lines 65535 1; } > "$work/$type"
    { cat "$work/$type"; echo "map dump id 1"; } > "$work/dump_$type"
    if id=$(kernel_map "$bpftool" "${pin}_$type" $type 65536 2> "$work/said") && [ -n "$id" ]; then
        kernel="$kernel $type"
        lines 65535 "$id" > "$work/batch_$type"
        echo "map dump id $id" > "$work/batch_dump_$type"
    fi
done
{ cat "$work/array"; lines 2 1; } > "$work/full"
{ echo "journal mark start"; cat "$work/array"; echo "journal undo start"; } > "$work/undo"
{ cat "$work/array"; echo "journal mark end"; echo "journal forget end"; } > "$work/forget"
# The program of the example counts in an array: two accesses a frame, of which one is a moment.
grep -E '^(map create|prog load|net attach.*eth0)' ../examples/tally.bpfcon > "$work/tally"
{ cat "$work/tally"; yes "frame dev eth0 hex:0200000000010200000000020800" | head -n 60000; } > "$work/frames"

for round in $(seq "$rounds"); do
    for script in nothing empty made array hash dump_array dump_hash full undo forget tally frames; do
        timed $script "$bpfcon" run "$work/$script"
    done
    for type in $kernel; do
        timed batch_$type "$bpftool" batch file "$work/batch_$type"
        timed batch_dump_$type "$bpftool" batch file "$work/batch_dump_$type"
    done
done

status=0
least() {
    sort -n "$work/$1.times" | head -n 1
}
# row WHAT ASKED SCRIPT WITHOUT [LAST]: the script, without the time of another; LAST is the last line that it prints.
row() {
    without=0
    [ -z "$4" ] || without=$(least "$4")
    seconds=$(awk -v whole="$(least "$3")" -v without="$without" 'BEGIN { printf "%.3f", (whole - without) / 1000 }')
    if [ -n "$5" ] && [ "$(tail -n 1 "$work/$3.printed")" != "$5" ]; then
        seconds="ended otherwise"
        status=1
    fi
    printf '%-46s %15s   %s\n' "$1" "$seconds" "$2"
}
printf '%-46s %15s   %s\n' what seconds asked
row "65,535 updates of an array" "less than bpftool" array "" "ok 65536"
row "65,535 updates of a hash" "less than bpftool" hash "" "ok 65536"
for type in $kernel; do
    row "the same updates of a kernel's $type by bpftool" "" batch_$type ""
    row "a dump of it by bpftool" "" batch_dump_$type ""
done
[ -n "$kernel" ] || printf '%-46s %15s\n' "the same by bpftool" "not here"
row "a dump of 65,536 entries of an array" "under 0.050" dump_array array "found 65536 elements"
row "a dump of 65,535 entries of a hash" "under 0.050" dump_hash hash "found 65535 elements"
row "an undo to a mark of 65,536 moments" "" undo array "undone 65536"
row "giving up 65,536 moments before a mark" "under 0.030" forget array "forgot end"
row "60,000 frames" "under 0.090" frames tally "XDP_PASS 2"
row "making an array of 65,536 values of 256 bytes" "under 0.015" made nothing "ok 1 id 1"
row "a script of 16 MB of empty lines" "under 0.100" empty ""
row "65,537 updates, the last two in a full journal" "as 65,535" full "" "ok 65538"
exit $status
