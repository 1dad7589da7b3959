#!/bin/sh
# Times bpfcon on scripts of COUNT `map update` lines by id, and what the kernel takes for the same, in turn, ROUNDS times each,
# and prints the least and the median of the milliseconds:
#
#   updates.sh 65535 15 /usr/sbin/bpftool
#
# made     a script that only makes a map of 65,536 values of 252 bytes
# updates  the lines, on an array and on a hash
# dump     the lines and then a dump of the map
# undo     the lines and then an undo to a mark in front of them all
# calls    the same lines and dumps as system calls alone (updates.c)
# bpftool  the same lines under `bpftool batch`, if a third word is given
#
# Then, if valgrind is there, it prints the machine instructions that bpfcon takes for a map, a line, an entry of a dump and a
# moment of an undo, each as the difference of two scripts, so that other work on the machine does not disturb them.
#
# First build bpfcon, by `rt run` in crates/bpfcon; BPFCON names another program, to compare two. To run as root, since maps of the
# kernel's are made.
set -e
if [ $# -lt 2 ] || [ $# -gt 3 ]; then
    echo "usage: updates.sh COUNT ROUNDS [BPFTOOL]" >&2
    exit 2
fi
count=$1 rounds=$2
bpftool=$3
bpfcon=$(realpath "${BPFCON:-$(dirname "$0")/../crates/bpfcon/out/bpfcon}")
cd "$(dirname "$0")"
work=$(mktemp -d)
pin=/sys/fs/bpf/updates_of_bpfcon
trap 'rm -rf "$work" "$pin"' EXIT
gcc -O2 -o "$work/updates" updates.c
. ./scripts.sh
for type in array hash; do
    create $type 252 65536 > "$work/made_$type"
    { create $type 8 "$count"; lines "$count" 1; } > "$work/updates_$type"
    { create $type 8 "$count"; lines $((count / 2)) 1; } > "$work/half_$type"
    { cat "$work/updates_$type"; echo "map dump id 1"; } > "$work/dump_$type"
done
{ echo "journal mark start"; cat "$work/updates_array"; echo "journal undo start"; } > "$work/undo_array"
: > "$work/nothing"
if [ -n "$bpftool" ]; then
    lines "$count" "$(kernel_map "$bpftool" "$pin" array "$count")" > "$work/batch"
fi
scripts="made_array made_hash updates_array updates_hash dump_array dump_hash undo_array"
for round in $(seq "$rounds"); do
    for script in $scripts; do
        timed "$script" "$bpfcon" run "$work/$script"
    done
    for type in array hash; do
        timed "calls_$type" "$work/updates" $type "$count"
        timed "calls_dump_$type" "$work/updates" $type "$count" dump
    done
    if [ -n "$bpftool" ]; then
        timed bpftool_array "$bpftool" batch file "$work/batch"
    fi
done
for times in "$work"/*.times; do
    sort -n "$times" | awk -v name="$(basename "$times" .times)" '
        { times[NR] = $1 }
        END { printf "%-16s least %7.1f ms, median %7.1f ms\n", name, times[1], times[int((NR + 1) / 2)] }'
done
command -v valgrind > "$work/printed" || exit 0
counted() {
    valgrind -q --tool=callgrind --callgrind-out-file="$work/counts" "$bpfcon" run "$work/$1" > "$work/printed" 2> "$work/said"
    awk '/^(summary|totals):/ { print $2; exit }' "$work/counts"
}
nothing=$(counted nothing)
for type in array hash; do
    whole=$(counted "updates_$type")
    echo "$type: $(($(counted "made_$type") - nothing)) instructions a map," \
        "$(((whole - $(counted "half_$type")) / (count - count / 2))) a line," \
        "$((($(counted "dump_$type") - whole) / count)) an entry of a dump"
    if [ $type = array ]; then
        echo "undo: $((($(counted undo_array) - whole) / count)) instructions a moment"
    fi
done
