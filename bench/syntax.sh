#!/usr/bin/env bash
# How fast sources are read: lexemes and grammar alone, since the last token of the last file can't stand there.
# Against a Java compiler on the same sources without that token, where one is there.
set -u
. "$(dirname "$0")/timing.sh"

# Makes COUNT files of a SHAPE, each a part 1/SHARE of its whole size, and names them in `files`.
make() {
    local shape=$1 count=$2 share=$3 k
    files=()
    bytes=0
    rm -f "$work"/*.java
    for ((k = 0; k < count; k++)); do
        python3 "$top/bench/syntax_sources.py" "$shape" "$share" $((k * 100000)) >"$work/F$k.java"
        bytes=$((bytes + $(stat -c %s "$work/F$k.java")))
        files+=("$work/F$k.java")
    done
}

# Times the program on `files`, and says how the time grew: since the size before, and since the first.
measure() {
    local name=$1 peak
    spent=$(least 7 "$program" check "${files[@]}")
    peak=$(/usr/bin/time -f %M "$program" check "${files[@]}" 2>&1 >/dev/null | tail -1)
    line="$name: $bytes bytes, $spent us, $(per "$bytes" "$spent" 1) MB/s, peak $(per "$((peak * 1024))" "$bytes" 0) bytes a byte"
    if [ "$before" -gt 0 ]; then
        line="$line, growth $(per "$((spent * before_bytes / 1000))" "$((before * bytes / 1000))" 2) times the size's"
    else
        first=$spent
        first_bytes=$bytes
    fi
    if [ "$before" -gt "$first" ]; then
        line="$line, since the first $(per "$((spent * first_bytes / 1000))" "$((first * bytes / 1000))" 2)"
    fi
    before=$spent
    before_bytes=$bytes
}

begin_bench
before=0
# A MiB is asked twice against the compiler: in one file, and in 16 as a program has them.
for parts in "1 16" "1 4" "1 1" "16 1" "16 16"; do
    read -r count share <<<"$parts"
    make ordinary "$count" "$share"
    other=0
    if [ -n "$compiler" ] && [ "$count" = "$share" ]; then
        other=$(compiler_time 3 "${files[@]}")
    fi
    if [ "$parts" = "16 16" ]; then before=0; fi
    printf '}' >>"$work/F$((count - 1)).java"
    measure "ordinary in $count"
    if [ "$other" -gt 0 ]; then line="$line, javac $other us, ratio 1/$(per "$other" "$spent" 0)"; fi
    echo "$line"
done
for shape in operators parentheses comment line empty_classes else_if; do
    before=0
    # A break of the grammar ends the reading: of further files behind it the lexemes alone would be read.
    case $shape in
        comment | line | empty_classes) sizes=("1 4" "1 1" "16 1") ;;
        *) sizes=("1 4" "1 1") ;;
    esac
    for parts in "${sizes[@]}"; do
        read -r count share <<<"$parts"
        make "$shape" "$count" "$share"
        printf '}' >>"$work/F$((count - 1)).java"
        measure "$shape"
        echo "$line: $("$program" check "${files[@]}" 2>&1 | tail -2 | head -1 | sed "s|$work/||")"
    done
done
