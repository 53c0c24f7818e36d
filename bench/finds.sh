#!/usr/bin/env bash
# Whether each look-up of an object in a run finds it, within 23 steps: that one finds it is proved of accepted programs,
# and how many steps it takes is said by no clause. Makes a copy of the sources in which a look-up that finds nothing, or
# that takes one step more, ends the program; builds crates/scj_tables of it without proofs, and runs it over its tables
# and over 10,000,000 units that make and drop objects all along. Takes the command `rt` of the kit, and some minutes.
#
#     bench/finds.sh [STEPS]    with fewer steps the program ends in some run
set -u
top=$(cd "$(dirname "$0")/.." && pwd)
steps=${1-23}
work=$(mktemp -d) || exit 1
trap 'rm -rf "$work"' EXIT

fail() {
    echo "  NOT MET: $1"
    exit 1
}

(cd "$top" && tar cf - crates.txt tools/build_unproved crates/*/src) | tar xf - -C "$work" || exit 1
python3 - "$work/crates/region_heap/src/finds.rt" "$steps" <<'EDIT' || exit 1
import pathlib
import sys

file, steps = pathlib.Path(sys.argv[1]), sys.argv[2]
before, found, body = file.read_text().partition("pub(crate) fn find(")
counted = "    let mut steps = 0;\n    while low < high {\n        steps += 1;\n        if steps > %s {\n            unreachable!();\n        }\n"
for old, new in (("    while low < high {\n", counted % steps), ("    None\n}\n", "    unreachable!()\n}\n")):
    if body.count(old) != 1:
        sys.exit("bench: `find` has another form than this bench knows")
    body = body.replace(old, new)
file.write_text(before + found + body)
EDIT

(cd "$work" && tools/build_unproved scj_tables "$work/scj_tables" >/dev/null) || exit 1
(cd "$top/crates/scj_tables/data" && "$work/scj_tables" <../stdin) | cmp - "$top/crates/scj_tables/stdout" ||
    fail "the tables come out as they are written"
echo "tables: each look-up finds its object in at most $steps steps"
mkdir "$work/loop"
python3 "$top/bench/run_sources.py" areas 500000 "$work/loop" || exit 1
{
    printf '%%%% runs\n== areas\n'
    for file in plan.toml A.java; do
        printf -- '-- %s\n' "$file"
        cat "$work/loop/$file"
    done
} >"$work/loop/stdin"
"$work/scj_tables" <"$work/loop/stdin" | grep -q '^10000000 stopped$' ||
    fail "10,000,000 units that make and drop objects"
echo "10,000,000 units: each look-up finds its object in at most $steps steps"
