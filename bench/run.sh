#!/usr/bin/env bash
# How fast accepted programs run: four loops of 1,000,000 and of 10,000,000 units, beside CPython and Java's interpreter on
# the same loops where these are there. An operation is a unit of the run, for all three. Then how much memory is taken
# by runs that make and drop objects all along, and by a release that is over. Makes its files in a folder of its own,
# which it removes.
set -u
. "$(dirname "$0")/timing.sh"

missed=0

# Says where a bar isn't met.
miss() {
    echo "  NOT MET: $1"
    missed=1
}

# Writes a loop for so many units, and compiles it for Java where a compiler is there.
make() {
    rm -rf "$work/loop"
    mkdir "$work/loop"
    python3 "$top/bench/run_sources.py" "$1" "$2" "$work/loop" || exit 1
    if [ -n "$compiler" ] && [ -f "$work/loop/Loop.java" ]; then
        env -u GLIBC_TUNABLES javac -proc:none -d "$work/loop" "$work/loop/Loop.java" || exit 1
    fi
}

# The most memory that the loop has at once, the least of so many runs: by chance more pages of the program itself are
# there.
taken() {
    local i
    for ((i = 0; i < $1; i++)); do peak "$program" run --plan "$work/loop/plan.toml" "$work/loop/A.java"; done |
        sort -n | head -1
}

ours() { "$program" run --plan "$work/loop/plan.toml" "$work/loop/A.java"; }
cpython() { python3 -I "$work/loop/loop.py"; }
java_interpreted() { env -u GLIBC_TUNABLES java -Xint -XX:+UseSerialGC -cp "$work/loop" Loop; }

# All three print the same number, where a loop prints one.
compare() {
    local wanted
    wanted=$(ours | sed -n 's/^[0-9]* print //p')
    [ "$(cpython)" = "$wanted" ] || miss "CPython prints another number than $wanted"
    [ -z "$compiler" ] || [ "$(java_interpreted)" = "$wanted" ] || miss "Java prints another number than $wanted"
}

# Times the three by turns, since the machine may be slow for a while: sets `spent`, `other` and `interpreted` to the
# least of each.
by_turns() {
    local round mine=() theirs=() its=()
    for ((round = 0; round < $1; round++)); do
        mine+=("$(least 1 ours)")
        theirs+=("$(least 1 cpython)")
        if [ -n "$compiler" ]; then its+=("$(least 1 java_interpreted)"); fi
    done
    spent=$(printf '%s\n' "${mine[@]}" | sort -n | head -1)
    other=$(printf '%s\n' "${theirs[@]}" | sort -n | head -1)
    interpreted=$(printf '%s\n' "${its[@]:-0}" | sort -n | head -1)
}

# Operations per second, in millions.
speed() { per "$1" "$2" 2; }

# Tells of a loop of so many units how fast it runs, and its growth against the size before it, if there was one.
tell() {
    local line rounds=5
    make "$1" "$2"
    compare
    [ "$2" -gt 1000000 ] && rounds=3
    by_turns $rounds
    line="$1 $2: $spent us, $(speed "$2" "$spent") million a second; CPython $(speed "$2" "$other"), $(per "$other" "$spent" 2) of its speed"
    if [ "$interpreted" -gt 0 ]; then
        line="$line; Java's interpreter $(speed "$2" "$interpreted"), $(per "$interpreted" "$spent" 2) of its speed"
    fi
    if [ "$before" -gt 0 ]; then line="$line; $(per "$spent" "$before" 1) times the time before"; fi
    echo "$line"
    case $1 in
        arithmetic | calls) [ $((5 * other)) -ge "$spent" ] || miss "a fifth of CPython's operations per second" ;;
    esac
    [ "$before" -eq 0 ] || [ $((13 * before)) -ge "$spent" ] || miss "at most 13 times the time for ten times the units"
    [ "$spent" -le 60000000 ] || miss "within a minute"
    before=$spent
}

# Tells how much memory a run takes that enters so many private memories, and how much one that enters fewer.
tell_areas() {
    local count few many=0
    for count in "$2" "$3"; do
        make "$1" "$count"
        few=$many
        many=$(taken 5)
        ours | grep -q " print entered $count\$" || miss "$count private memories in a run"
    done
    echo "$1: at most $many bytes with $3 private memories, $few with $2"
    [ $((100 * many)) -le $((101 * few)) ] || miss "at most 1% more"
}

# Tells how much memory is taken by a release that is over. There is one in each ten units.
tell_releases() {
    local few many
    make releases 1000000
    few=$(taken 1)
    make releases 10000000
    many=$(taken 1)
    echo "releases: at most $few bytes with 100000, $many with 1000000, $(per $((many - few)) 900000 1) bytes a release"
}

begin_bench
for loop in arithmetic calls handlers releases; do
    before=0
    for units in 1000000 10000000; do tell "$loop" "$units"; done
done
tell_areas areas 300 300000
tell_areas arrays 3 300
tell_releases
exit "$missed"
