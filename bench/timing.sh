# Shared by the benches: sourced, not run. `begin_bench` sets `program`, the folder `work`, which goes at the end, and
# `compiler`, which is empty where no JDK is.
top=$(cd "$(dirname "${BASH_SOURCE[0]}")/.." && pwd)

# Builds the program, makes the folder, and compiles the framework's stubs for the compiler.
begin_bench() {
    "$top/scj" gen --size 1 >/dev/null 2>&1 || { echo "bench: the program can't be built" >&2; exit 1; }
    program=$top/crates/scj_main/out/rlib/scj_main
    eval "$(grep '^export GLIBC_TUNABLES=' "$top/scj")" # as the program is started by `scj`
    work=$(mktemp -d) || exit 1
    trap 'rm -rf "$work"' EXIT
    compiler=''
    if command -v javac >/dev/null 2>&1; then
        mkdir "$work/stubs"
        javac -proc:none -d "$work/stubs" "$top"/bench/stubs/*.java && compiler=yes
    else
        echo "no JDK here: speeds without a ratio"
    fi
    echo "cores: $(nproc)"
}

# A quotient, to so many places: per DIVIDEND DIVISOR PLACES.
per() { awk "BEGIN { printf \"%.$3f\", $1 / $2 }"; }

# The most memory that a call has at once, in bytes. Where it can be had, addresses are the same in each call: by their
# places some pages more or fewer are used.
peak() {
    local fixed=()
    if setarch -R true 2>/dev/null; then fixed=(setarch -R); fi
    echo $(($("${fixed[@]}" /usr/bin/time -f %M "$@" 2>&1 >/dev/null | tail -1) * 1024))
}

# The least of several runs of a command, in microseconds.
least() {
    local runs=$1 best=0 begin end spent i
    shift
    for ((i = 0; i < runs; i++)); do
        begin=$(date +%s%N)
        "$@" >/dev/null 2>&1
        end=$(date +%s%N)
        spent=$(((end - begin) / 1000))
        if [ "$best" -eq 0 ] || [ "$spent" -lt "$best" ]; then best=$spent; fi
    done
    echo "$best"
}

# The least of several runs of the compiler on files, in microseconds.
compiler_time() {
    local runs=$1 spent
    shift
    mkdir -p "$work/classes"
    spent=$(least "$runs" env -u GLIBC_TUNABLES javac -proc:none -cp "$work/stubs" -d "$work/classes" "$@")
    rm -rf "$work/classes"
    echo "$spent"
}
