#!/bin/sh
# Tells what commands take that put links and cut them, and that find a map by its name, and what a script holds that names a
# file again and again: each with so much to do and with twice as much, and by how much it grows.
#
#   links.sh ../crates/bpfcon/out/bpfcon 5
#
# The second word is how often each is timed; the least counts. Beside a time stands the one asked for, if there is one. The
# status is 1 if a script did not end as it should.
set -e
if [ $# -ne 2 ]; then
    echo "usage: links.sh BPFCON ROUNDS" >&2
    exit 2
fi
bpfcon=$(realpath "$1")
rounds=$2
cd "$(dirname "$0")"
work=$(mktemp -d)
trap 'rm -rf "$work"' EXIT
. ./scripts.sh

# A program that passes each frame, and one that also names the map of an id.
pass=b7000000020000009500000000000000

# slots COUNT: one program is put into so many empty slots of a program array.
slots() {
    create prog_array 4 65536
    echo "prog load hex:$pass /prog"
    awk -v count="$1" 'BEGIN {
        for (k = 0; k < count; k++)
            printf "map update id 1 key %d %d 0 0 value id 1\n", k % 256, int(k / 256)
    }'
}

# chain COUNT: half as many program arrays as programs and maps together, each of which holds the program that names the one
# before it; all are pinned.
chain() {
    awk -v count="$1" -v pass="$pass" 'BEGIN {
        for (k = 1; k <= count / 2; k++) {
            printf "map create /map%d type prog_array key 4 value 4 entries 1 name map\n", k
            printf "prog load hex:18110000%02x%02x00000000000000000000%s /prog%d\n", k % 256, int(k / 256), pass, k
            if (k > 1) printf "map update id %d key 0 0 0 0 value id %d\n", k, k - 1
        }
    }'
}

# unpins COUNT: and then no more of them is.
unpins() {
    chain "$1"
    awk -v count="$1" 'BEGIN { for (k = 1; k <= count / 2; k++) printf "unpin /map%d\nunpin /prog%d\n", k, k }'
}

# maps COUNT: so many maps of names of their own.
maps() {
    awk -v count="$1" 'BEGIN {
        for (k = 1; k <= count; k++)
            printf "map create /map%d type array key 4 value 8 entries 1 name map%d\n", k, k
    }'
}

# named COUNT: and 1,000 look-ups in one of them by its name.
named() {
    maps "$1"
    awk 'BEGIN { for (k = 0; k < 1000; k++) print "map lookup name map7 key 0 0 0 0" }'
}

# loads COUNT: so many lines that name one file.
loads() {
    yes "prog load $work/file /prog" | head -n "$1"
}

nothing() {
    :
}

status=0
# row WHAT ASKED SCRIPT WITHOUT HALF ALL: what a script takes longer than another, with so much to do and with twice as much.
row() {
    for count in "$5" "$6"; do
        "$3" "$count" > "$work/$3.$count"
        "$4" "$count" > "$work/$4.$count"
        rm -f "$work/$3.$count.times" "$work/$4.$count.times"
        for round in $(seq "$rounds"); do
            timed "$3.$count" "$bpfcon" run "$work/$3.$count"
            timed "$4.$count" "$bpfcon" run "$work/$4.$count"
        done
        if grep -q '^Error' "$work/$3.$count.printed"; then
            echo "$1: ended otherwise"
            status=1
        fi
    done
    for count in "$5" "$6"; do
        echo "$(sort -n "$work/$3.$count.times" | head -n 1) $(sort -n "$work/$4.$count.times" | head -n 1)"
    done | awk -v what="$1" -v asked="$2" -v half="$5" -v all="$6" '
        { taken[NR] = $1 - $2 }
        END { printf "%-44s %6d: %9.1f ms   %6d: %9.1f ms   %5.1f times   %s\n", what, half, taken[1], all, taken[2], taken[2] / taken[1], asked }'
}
row "links into empty slots" "under 1,000 ms" slots nothing 32768 65536
row "unpins of a chain of maps and programs" "under 500 ms" unpins chain 750 1500
row "1,000 look-ups by name, among so many maps" "under 300 ms" named maps 10000 20000

# held COUNT: the most kilobytes that are resident while so many lines name a file of 16,000,000 bytes.
held() {
    loads "$1" > "$work/loads.$1"
    /usr/bin/time -f %M "$bpfcon" run "$work/loads.$1" 2>&1 > "$work/loads.$1.printed" | tail -n 1
}
head -c 16000000 /dev/zero > "$work/file"
awk -v half="$(held 30)" -v all="$(held 60)" 'BEGIN {
    printf "%-44s %6d: %9d KB   %6d: %9d KB   %5.1f times\n", "lines that name one file of 16 MB", 30, half, 60, all, all / half
}'
exit $status
