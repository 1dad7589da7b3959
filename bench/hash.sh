#!/bin/sh
# Runs bench_hash on 65,536 keys ROUNDS times, and prints for each call the least and the median of its nanoseconds:
#
#   hash.sh 15
#
# First build bench_hash, by `rt run` in crates/bench_hash.
set -e
if [ $# != 1 ]; then
    echo "usage: hash.sh ROUNDS" >&2
    exit 2
fi
cd "$(dirname "$0")"
work=$(mktemp -d)
trap 'rm -r "$work"' EXIT
for round in $(seq "$1"); do
    ../crates/bench_hash/out/bench_hash 16 2>> "$work/times" > "$work/printed"
done
awk '$2 == "keys" || $2 == "prefixes" { keys = $1; next } { print keys " " $1 $2 }' "$work/times" | tr : ' ' | sort -k1,1r -k2,2 -k3,3n | awk '
    function tell() { if (n) printf "%-20s least %6d ns, median %6d ns\n", name, times[1], times[int((n + 1) / 2)] }
    $1 " " $2 != name { tell(); name = $1 " " $2; n = 0 }
    { times[++n] = $3 }
    END { tell() }'
