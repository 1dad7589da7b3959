# What the scripts of this folder have in common: the lines of scripts for bpfcon, and the time and the memory of a run. $work
# is their folder, and $bpfcon the program.

# create TYPE VALUE ENTRIES: the line that makes such a map, with keys of 4 bytes.
create() {
    echo "map create /sys/fs/bpf/updates type $1 key 4 value $2 entries $3 name updates"
}

# lines COUNT ID: so many updates of the map with this id, under ascending keys from 0 on, with values of 8 bytes.
lines() {
    awk -v count="$1" -v id="$2" 'BEGIN {
        for (k = 0; k < count; k++)
            printf "map update id %d key %d %d %d 0 value %d %d %d 1 0 0 0 0\n", id,
                k % 256, int(k / 256) % 256, int(k / 65536), (7 * k) % 256, int(7 * k / 256) % 256, int(7 * k / 65536) % 256
    }'
}

# kernel_map BPFTOOL PIN TYPE ENTRIES: makes such a map of the kernel's, with values of 8 bytes, and prints its id.
kernel_map() {
    "$1" map create "$2" type "$3" key 4 value 8 entries "$4" name updates
    "$1" map show pinned "$2" | sed -n 's/^\([0-9]*\):.*/\1/p'
}

# timed NAME COMMAND..: adds the milliseconds that the command takes to $work/NAME.times; what it prints goes to NAME.printed.
# A status of 1 says no more than that a line was refused.
timed() {
    name=$1
    shift
    before=$(date +%s%N)
    "$@" > "$work/$name.printed" 2> "$work/said" || [ $? = 1 ]
    after=$(date +%s%N)
    awk -v taken=$((after - before)) 'BEGIN { printf "%.2f\n", taken / 1000000 }' >> "$work/$name.times"
}

# resident SCRIPT [LINES]: the resident size in kilobytes when all lines have been answered, by so many lines, or one each.
resident() {
    lines=${2:-$(wc -l < "$1")}
    rm -f "$work/lines"
    mkfifo "$work/lines"
    "$bpfcon" run - < "$work/lines" > "$work/printed" 2> "$work/said" &
    exec 3> "$work/lines"
    cat "$1" >&3
    while kill -0 $! && [ "$(wc -l < "$work/printed")" -lt "$lines" ]; do
        sleep 0.1
    done
    awk '/^VmRSS:/ { print $2 }' /proc/$!/status
    exec 3>&-
    wait $! || [ $? = 1 ]
}
