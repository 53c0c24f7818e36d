#!/usr/bin/env bash
# How fast whole programs are checked, by all phases: none of them has a break. Against a Java compiler on the same
# sources where one is there. Then how fast hostile ones are, and how much memory is taken. Makes its files from numbers
# in a folder of its own, which it removes.
set -u
. "$(dirname "$0")/timing.sh"

missed=0

# Says where a bar isn't met.
miss() {
    echo "  NOT MET: $1"
    missed=1
}

# Makes a shape of a size by a maker of shapes, and sets `files` and `bytes`.
make() {
    rm -rf "$work/sources"
    mkdir "$work/sources"
    python3 "$top/bench/$3.py" "$1" "$2" "$work/sources" || return
    files=()
    for ((k = 0; k < 16; k++)); do
        if [ -f "$work/sources/F$k.java" ]; then files+=("$work/sources/F$k.java"); fi
    done
    bytes=$(cat "${files[@]}" | wc -c)
}

# The least of numbers.
lowest() { printf '%s\n' "$@" | sort -n | head -1; }

# Times the program and, where there is one, the compiler on `files` by turns, since the machine may be slow for a while:
# sets `spent` and `other` to the least of each.
by_turns() {
    local round ours=() theirs=()
    for round in 1 2 3 4 5; do
        ours+=("$(least 3 "$program" check "${files[@]}")")
        if [ -n "$compiler" ]; then theirs+=("$(compiler_time 1 "${files[@]}")"); fi
    done
    spent=$(lowest "${ours[@]}")
    other=$(lowest "${theirs[@]:-0}")
}

# Tells the time of a shape, and its growth against the size before it, if there was one. It is the least of so many
# runs, or for `ratio` that of runs by turns with the compiler's.
tell() {
    local line spent other=0 answer
    make "$1" "$2" sources
    answer=$("$program" check "${files[@]}" 2>&1 | head -1 | sed "s|$work/sources/||")
    if [ "$3" = ratio ]; then by_turns; else spent=$(least "$3" "$program" check "${files[@]}"); fi
    line="$1 $2: $bytes bytes, $spent us, $(per "$bytes" "$spent" 1) MB/s"
    if [ "$before" -gt 0 ]; then
        line="$line, growth $(per "$((spent * before_bytes / 1000))" "$((before * bytes / 1000))" 2) times the size's"
    fi
    before=$spent
    before_bytes=$bytes
    if [ "$other" -gt 0 ]; then line="$line, javac $other us, ratio 1/$(per "$other" "$spent" 0)"; fi
    echo "$line: $answer"
}

# Tells the time of a hostile shape and its growth, and sets `spent`. A call that takes longer than a minute is ended.
tell_hostile() {
    local answer line
    make "$1" "$2" hostile_sources || return
    answer=$(timeout 60 "$program" check "${files[@]}" 2>&1 | head -1 | sed "s|$work/sources/||")
    spent=$(least 3 timeout 60 "$program" check "${files[@]}")
    line="$1 $2: $bytes bytes, $spent us, $(per "$spent" "$bytes" 2) s a MB"
    if [ "$before" -gt 0 ]; then line="$line, growth $(per "$((spent * before_bytes))" "$((before * bytes))" 2)"; fi
    echo "$line: $answer"
    if [ "$before" -gt 0 ] && [ $((10 * spent * before_bytes)) -gt $((13 * before * bytes)) ]; then
        miss "at most 1.3 times the size's growth"
    fi
    if [ $((spent * 1048576)) -gt $((1000000 * bytes)) ] && [ "$bytes" -ge 65536 ]; then miss "at most a second a MiB"; fi
    before=$spent
    before_bytes=$bytes
}

# Tells the peak of the memory by byte of the text, as a program is checked and as it is shown.
tell_memory() {
    local mode most
    make "$1" "$2" hostile_sources || return
    for mode in check show; do
        most=$(peak "$program" $mode "${files[@]}")
        echo "$1 $2, $mode: $bytes bytes, at most $(per "$most" "$bytes" 1) bytes a byte"
        [ "$most" -lt $((150 * bytes)) ] || miss "below 150 bytes a byte"
    done
}

begin_bench
echo "start of the program: $(least 20 "$program" check /dev/null) us (included below)"
before=0
for size in 65536 262144 1048576; do tell ordinary "$size" ratio; done
before=0
for size in 1048576 4194304 16777216; do tell few "$size" 7; done
while read -r shape count; do
    before=0
    tell "$shape" $((count / 4)) 20
    tell "$shape" "$count" 20
done <<'SHAPES'
chain 255
fields 255
methods 20000
locals 50000
block 100000
scopes 254
overrides 255
calls 100000
deep 2000
SHAPES
while read -r shape count; do
    before=0
    for part in 4 2 1; do tell_hostile "$shape" $((count / part)); done
done <<'SHAPES'
empty_chain 30000
field_chain 30000
method_chain 30000
same_chain 30000
runnable_chain 30000
cycle 30000
locked_chain 20000
locked_runs 10000
narrower_results 20000
wide_fields 7500
wide_methods 7500
same_siblings 30000
open_methods 15000
repeats 36000
repeats_above 100000
repeats_asked 40000
top_calls 200000
unknown_calls 200000
top_fields 200000
shared_calls 200000
shared_fields 200000
far_accesses 140000
casts 170000
far_overrides 27000
many_locals 80000
many_parameters 40000
far_scopes 140000
guards 20000
guard_nests 20000
guarded_stores 80000
undone_guards 120000
SHAPES
before=0
tell_hostile top_calls $((15 * 200000))
while read -r others colliding; do
    before=0
    tell_hostile "$others" 60000
    apart=$spent
    before=0
    command -v cc >/dev/null 2>&1 || continue
    tell_hostile "$colliding" 60000
    [ "$spent" -le $((3 * apart)) ] || miss "names that collide take at most 3 times as long as others"
done <<'SHAPES'
names colliding
fields colliding_fields
SHAPES
for shape in semicolons empty_guard blocks sums literals negations assignments nots long_sum; do tell_memory "$shape" 1048576; done
exit "$missed"
