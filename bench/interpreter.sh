#!/bin/sh
# Runs the programs of bench_interp and of switch.c in turn, nine times each, and prints for each program the least
# nanoseconds of a run in both, with their ratio. The argument is how often each program is run at a time.
set -e
cd "$(dirname "$0")"
runs=${1:-2000}
work=$(mktemp -d)
trap 'rm -r "$work"' EXIT
gcc -O2 -o "$work/switch" switch.c
(cd ../crates/bench_interp && rt run -- 1 > "$work/proved" 2>&1) || { cat "$work/proved"; exit 1; }
for round in 1 2 3 4 5 6 7 8 9; do
    ../crates/bench_interp/out/bench_interp "$runs" 2>> "$work/proved_times" > "$work/proved"
    "$work/switch" "$runs" 2>> "$work/switch_times" > "$work/plain"
done
awk -F ': | ns in | runs' '
    function least(times) { if (!($1 in times) || $2 / $3 < times[$1]) times[$1] = $2 / $3 }
    FNR == NR { if (!($1 in ours)) names[++count] = $1; least(ours); next }
    { least(plain) }
    END {
        for (k = 1; k <= count; k++) {
            name = names[k]
            if (!(name in plain)) { printf "%-20s %9.0f ns\n", name, ours[name]; continue }
            printf "%-20s %9.0f ns, switch loop %9.0f ns, ratio %.2f\n", name, ours[name], plain[name], ours[name] / plain[name]
        }
    }
' "$work/proved_times" "$work/switch_times"
