#!/bin/sh
# Tells what a host in a file costs: a question and a change of one call on files of 1,000 and of 65,536 events, and a script of
# 65,536 updates with a file and without, the least and the median of so many rounds, and how long the program takes to start:
#
#   kept.sh ../crates/bpfcon/out/bpfcon 7 [FOLDER]
#
# The files lie in FOLDER, whose disk counts: a change waits until it is written. Without it they lie where mktemp puts them.
set -e
if [ $# -ne 2 ] && [ $# -ne 3 ]; then
    echo "usage: kept.sh BPFCON ROUNDS [FOLDER]" >&2
    exit 2
fi
bpfcon=$(realpath "$1")
rounds=$2
[ $# = 2 ] || TMPDIR=$(realpath "$3")
export TMPDIR
cd "$(dirname "$0")"
work=$(mktemp -d)
trap 'rm -rf "$work"' EXIT
. ./scripts.sh

# shown NAME: the least and the median of the times of this name.
shown() {
    sort -n "$work/$1.times" | awk '{ time[NR] = $1 } END { printf "least %8.2f ms   median %8.2f ms", time[1], time[int((NR + 1) / 2)] }'
}

# book NAME COUNT: a file with so many events.
book() {
    { create hash 8 65536; lines $(($2 - 1)) 1; } > "$work/$1.script"
    "$bpfcon" -b "$work/$1.db" run "$work/$1.script" > "$work/printed"
}
book small 1000
book large 65536
for _ in $(seq "$rounds"); do
    timed start "$bpfcon" version
    timed ask-small "$bpfcon" -b "$work/small.db" map lookup id 1 key 0 0 0 0
    timed ask-large "$bpfcon" -b "$work/large.db" map lookup id 1 key 0 0 0 0
    cp "$work/small.db" "$work/change-small.db"
    cp "$work/large.db" "$work/change-large.db"
    timed change-small "$bpfcon" -b "$work/change-small.db" map update id 1 key 0 0 0 0 value 1 0 0 0 0 0 0 0
    timed change-large "$bpfcon" -b "$work/change-large.db" map update id 1 key 0 0 0 0 value 1 0 0 0 0 0 0 0
    timed plain "$bpfcon" run "$work/large.script"
    rm -f "$work/new.db" "$work/new.db-wal"
    timed kept "$bpfcon" -b "$work/new.db" run "$work/large.script"
done
echo "bpfcon version:                     $(shown start)"
echo "a question on 1,000 events:         $(shown ask-small)   wanted 15"
echo "a question on 65,536 events:        $(shown ask-large)   wanted 200"
echo "a change on 1,000 events:           $(shown change-small)"
echo "a change on 65,536 events:          $(shown change-large)"
echo "a script of 65,536 lines:           $(shown plain)"
echo "the same, with a file:              $(shown kept)   wanted 5 times that"
