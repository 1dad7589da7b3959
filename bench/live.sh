#!/bin/sh
# Tells how fast the workers of a live host serve frames as fast as they can: by 1, 2 and 4 workers, on one map and on maps of
# their own, beside a script that has the same frames as lines; and what a batch of look-ups takes a line among workers at full
# speed, beside one among workers that rest.
#
#   live.sh ../crates/bpfcon/out/bpfcon 5
#
# The second word is how often each is timed; the least counts. Run it with nothing beside it.
set -e
if [ $# -ne 2 ]; then
    echo "usage: live.sh BPFCON ROUNDS" >&2
    exit 2
fi
bpfcon=$(realpath "$1")
rounds=$2
cd "$(dirname "$0")"
work=$(mktemp -d)
trap 'rm -rf "$work"' EXIT
. ./scripts.sh
frames=60000

# counter ID: a program that adds 1 to the value at index 0 of the map of this id.
counter() {
    printf '620afcff00000000bfa200000000000007020000fcffffff18110000%02x000000000000000000000085000000010000001500020000000000b701000001000000db10000000000000b7000000020000009500000000000000' "$1"
}

# One map at eth0, and another at eth1.
for map in 1 2; do
    create array 8 1 | sed "s|/updates|/m$map|; s/name updates/name m$map/"
    echo "prog load hex:$(counter "$map") /p$map"
    echo "net attach xdp id $map dev eth$((map - 1))"
done > "$work/counters"
yes 'eth0 hex:00' | head -n 6000 > "$work/one"
awk 'BEGIN { for (k = 0; k < 3000; k++) print "eth0 hex:00\neth1 hex:00" }' > "$work/two"
{
    cat "$work/counters"
    yes 'frame dev eth0 hex:00' | head -n "$frames"
} > "$work/script"
yes 'map lookup id 1 key 0 0 0 0' | head -n 1000 > "$work/lookups"

# least NAME: the least of the times of this name.
least() {
    sort -n "$work/$1.times" | head -n 1
}

# row WHAT MILLISECONDS: what a frame takes by it.
row() {
    awk -v what="$1" -v taken="$2" -v frames="$frames" 'BEGIN { printf "%-40s %8.1f ms %8.0f ns a frame\n", what, taken, 1000000 * taken / frames }'
}

for round in $(seq "$rounds"); do
    timed script "$bpfcon" run "$work/script"
    for workers in 1 2 4; do
        for maps in one two; do
            echo 'workers wait' > "$work/wait"
            timed "$maps.$workers" "$bpfcon" live --rate 0 --repeat 10 --workers "$workers" "$work/counters" "$work/$maps" < "$work/wait"
        done
    done
done
row "a script" "$(least script)"
for maps in one two; do
    for workers in 1 2 4; do
        row "$workers workers, $maps map(s)" "$(least "$maps.$workers")"
    done
done

# batches ORDER WORKERS: the milliseconds that 10 batches of 1,000 look-ups take longer than none, after an order to workers.
batches() {
    for round in $(seq "$rounds"); do
        echo "$1" > "$work/none"
        {
            echo "$1"
            for batch in 1 2 3 4 5 6 7 8 9 10; do
                echo "batch file $work/lookups"
            done
        } > "$work/ten"
        timed "none.$1.$2" "$bpfcon" live --rate 0 --workers "$2" "$work/counters" "$work/one" < "$work/none"
        timed "ten.$1.$2" "$bpfcon" live --rate 0 --workers "$2" "$work/counters" "$work/one" < "$work/ten"
    done
    awk -v none="$(least "none.$1.$2")" -v ten="$(least "ten.$1.$2")" -v what="$1, $2 worker(s)" 'BEGIN { printf "%-40s %8.2f us a line\n", what, (ten - none) / 10 }'
}
for workers in 1 2 4; do
    batches 'workers stop' "$workers"
    batches 'workers go' "$workers"
done
