#!/bin/sh
# Counts the machine instructions that bench_interp and switch.c take, by valgrind's callgrind, and prints for each program
# those of a run and those of one instruction of it, less what a run costs at least. Other work on the machine does not
# disturb them. The argument is how often each program is run. First build bench_interp, as interpreter.sh does.
set -e
cd "$(dirname "$0")"
runs=${1:-50}
work=$(mktemp -d)
trap 'rm -r "$work"' EXIT
gcc -O2 -o "$work/switch" switch.c
for program in ../crates/bench_interp/out/bench_interp "$work/switch"; do
    # The clock is read before and after the runs of each program, so every second part is one program's.
    valgrind -q --tool=callgrind --dump-before='clock_gettime*' --callgrind-out-file="$work/part" "$program" "$runs" \
        > "$work/printed" 2> "$work/times"
    basename "$program"
    for part in 2 4 6 8 10; do
        awk '/^(summary|totals):/ { print $2; exit }' "$work/part.$part"
    done | awk -v runs="$runs" '
        BEGIN { split("passes,counts,arithmetic 1024,arithmetic 4096,stack 1024", names, ","); split("2,10,1024,4096,1024", counts, ",") }
        { each = $1 / runs }
        NR == 1 { least = each; printf "%-16s %9.0f a run\n", names[NR], each; next }
        { printf "%-16s %9.0f a run %8.2f an instruction\n", names[NR], each, (each - least) / (counts[NR] - 2) }'
    rm "$work"/part*
done
