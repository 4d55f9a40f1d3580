#!/bin/sh
# Runs the proved command on the words that it is given, with its exit status. Where the program isn't
# built yet, or its sources changed since, it is proved and built first, several crates at a time.
top=$(cd "$(dirname "$0")" && pwd)
home=$top/crates/cake_main
program=$home/out/cake_main
log=$home/out/building.log
# the folders of the sources that the program was built of; it is as old as the start of that build
sources=$home/out/sources

# How long the proofs take from nothing: by the sum of what the crates take (docs/GATE.md), and as seen beside other proofs; and the memory of one crate's check in kB, at most.
measured="half an hour to an hour on four processors"
memory=3000000

# The crates that the program stands on, and itself, by crates.txt.
crates() {
    awk '
        { sub(/#.*/, "") }
        /:/ { split($0, parts, ":"); sub(/[ \t].*/, "", parts[1]); below[parts[1]] = parts[2] }
        function reach(name, names, count, i) {
            if (!(name in below) || name in reached) return
            reached[name]
            print name
            count = split(below[name], names, " ")
            for (i = 1; i <= count; i++) reach(names[i])
        }
        END { reach("cake_main") }' "$top/crates.txt"
}

folders() {
    for name in $(crates); do
        for part in src specs proofs; do
            [ ! -d "$top/crates/$name/$part" ] || echo "crates/$name/$part"
        done
    done
}

is_built() {
    [ -x "$program" ] && [ -f "$sources" ] &&
        [ -z "$(cd "$top" && find crates.txt $(cat "$sources") -newer "$sources" -print -quit 2>&1)" ]
}

# How many crates are proved at a time: one a processor, as far as the memory reaches.
at_once() {
    processors=$(nproc 2>/dev/null || echo 1)
    free=$(awk '/^MemAvailable:/ { print $2 }' /proc/meminfo 2>/dev/null)
    room=$((${free:-$memory} / memory))
    [ "$room" -ge "$processors" ] || processors=$room
    [ "$processors" -ge 1 ] || processors=1
    echo "$processors"
}

# Keeps what the kit says of the crates in the log, and tells of each that is proved. A section of the
# kit's that has no verdict is of a crate that was proved before.
tell() {
    all=$(crates | wc -l)
    proved=0
    open=0
    begun=$(date +%s)
    while IFS= read -r line; do
        printf '%s\n' "$line" >>"$log"
        case $line in
        "== "*)
            proved=$((proved + open))
            open=1
            ;;
        "logic=proved "*)
            proved=$((proved + open))
            open=0
            echo "cake: proved $proved of $((all)) crates, $((($(date +%s) - begun) / 60)) min" >&2
            ;;
        "logic="*)
            open=0
            ;;
        esac
    done
}

prove() {
    (cd "$home" && rt all check --jobs "$(at_once)" </dev/null 2>&1) | tell
    grep -q '^\([0-9]*\) of \1 crates ok$' "$log"
}

build() {
    (cd "$home" && rt run -- - </dev/null) >>"$log" 2>&1
    grep -q '^rt: running' "$log"
}

if ! is_built; then
    echo "cake: proving and building the program; from nothing that takes $measured, and what an earlier start proved is kept" >&2
    mkdir -p "$home/out"
    folders >"$sources.new"
    : >"$log"
    if ! prove || ! build; then
        grep -v ': ok$' "$log" | tail -n 20 >&2
        echo "cake: the program isn't built; the whole log is in $log" >&2
        exit 70
    fi
    mv "$sources.new" "$sources"
fi
exec "$program" "$@"
