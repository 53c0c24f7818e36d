"""Makes docs/OPERATION_INDEX.md: for each operation of a run its row of docs/MACHINE.md, definition, code, law, wrong
bodies, and runs that show it.

    python3 operation_index.py          writes the page
    python3 operation_index.py --check  compares it with what would be written

The operations are the variants of `Op` and `SeqOp`, and START. Definitions, code and laws are found by the clauses and
arms that name an operation. Wrong bodies and runs stand in operation_rows.py, by hand, and so do the words of
docs/MACHINE.md for what isn't in its table. What isn't found, an edit that isn't there, and a run whose trace is the
same without the operation fail.
"""

import os
import re
import sys
import tomllib

sys.dont_write_bytecode = True
from operation_rows import EDITS, RUNS, SEQUENCER, START
from rule_index import definition_begun, edits_told, function_begun, link, parts_of, read, told

sys.path.insert(0, os.path.join(os.path.dirname(os.path.abspath(__file__)), "..", "expected"))
import slow_machine

PAGE = "docs/OPERATION_INDEX.md"
MACHINE = "docs/MACHINE.md"
KINDS = "crates/scj_model/src/operations.rt"
SPECS = "crates/scj_model/specs"
# Where an operation of a body is done, where the sequencer's own are, and where a release starts.
BODIES = "crates/call_operations/src/all_operations.rt"
OWN = "crates/mission_steps/src/operations.rt"
FOLLOWING = "crates/mission_steps/src/transitions.rt"
STARTS = "crates/mission_steps/src/starts.rt"
# Where the code lists the operations of a body, and files there that name them all, or one only to fill a row.
LIST = "crates/op_list/src"
ALL_NAMED = ("parts.rt", "resolving.rt")
# The lemmas that say of each operation that it is never stuck and keeps the invariant, and the law for START.
FINE = "crates/frame_sound/proofs/Acts.antt"
OPERATES = "crates/mission_sound/proofs/SequencerOps.antt"
STARTING = ("crates/frame_sound/src/jobs.rt", "releases_start")

# What these do is never seen, only the units that they take.
UNSEEN = ("DROP",)

HEAD = """# Where each operation stands

`docs/MACHINE.md` says what a run does, operation by operation. This page leads from an operation to its row there, to its definition, to the code that does it, to the law that it is never stuck, to wrong bodies that the proofs must refuse, and to runs that show it. `python3 .ci/operation_index.py` makes the page.

- Definitions stand in a crate's `specs/`, and are named as in their files, without `.antt`. First stands what the operation does, and then what gives it to a node, or what follows it. `Apply` in the same folder does the effect to the state.
- Of the code the function that does the operation stands first. Its contract is that it does what the definition says. Those of `op_list` list the operations of a body.
- The laws are the parts of `operations_are_fine` (`crates/frame_sound/src/operations.rt`) and of `the_sequencer_operates` (`crates/mission_sound/src/sequencer.rt`): in an accepted program the operation finds what it needs, and keeps what `docs/SAFETY.md` rests on.
- Wrong bodies are edits in a crate's `must-fail/`.
- The runs stand in `expected/runs`. Their traces were worked out by hand, and each is another one where the operation does nothing (of DROP, where it takes no unit: a value that stays is never seen).
"""


def variants(kind):
    """The variants of an enum of operations, in their order."""
    body = re.search(rf"pub enum {kind} {{(.*?)\n}}", read(KINDS), re.S)[1]
    return re.findall(r"(?m)^    (\w+)(?:\(\w+\))?,$", body)


def section(name):
    """The text of docs/MACHINE.md below a heading."""
    return read(MACHINE).partition(f"\n## {name}\n")[2].partition("\n## ")[0]


# ---- rows of MACHINE.md


def rows_of(word):
    """The nodes in the table of operations that have this operation."""
    nodes = []
    for line in section("Operations").split("\n"):
        cells = [cell.strip() for cell in re.split(r"(?<!\\)\|", line)[1:-1]]
        if len(cells) == 2 and re.search(rf"\b{word}\b", cells[1]):
            nodes.append(cells[0])
    return nodes


def page_cell(nodes, name):
    return f"[{'; '.join(nodes)}]({os.path.basename(MACHINE)}#{name})" if nodes else ""


def words_of(phrase, name):
    """The phrase, where it stands below that heading."""
    return [phrase] if phrase in section(name) else []


# ---- definitions


def named_in(path, begins, comment, word, beside=()):
    """The items of a file that name a word, without those that name all operations."""
    items = []
    for item, line in parts_of(path, begins, comment):
        if item and re.search(rf"(?<!\w){word}(?!\w)", line) and not re.match(r"\s*(pub |ghost )*use ", line):
            if item not in items and item not in beside:
                items.append(item)
    return [(path, item) for item in items]


def definitions_of(word):
    path = f"{SPECS}/Operations.antt"
    does = re.search(rf"(?m)^effect_of code world f \(?{word}(?: id\))? = (\w+)", read(path))
    found = [(path, does[1])] if does else []
    return found + named_in(f"{SPECS}/Ops.antt", definition_begun, "--", word, ("node_of",))


def own_definitions_of(name):
    path = f"{SPECS}/Sequencer.antt"
    clause = re.search(rf"(?ms)^sequencer_op code s \(?{name}\b(.*?)(?=^\S)", read(path))
    names = re.findall(r"\b(area_opened|safelet_made|body_called|method_called)\b", clause[1]) if clause else []
    return [(path, item) for item in [*dict.fromkeys(names), "transition"]] if names else []


# ---- code


def file_of(crate, function):
    """The file of a crate that has this public function."""
    folder = f"crates/{crate}/src"
    for file in sorted(os.listdir(folder)):
        if re.search(rf"(?m)^pub(?:\(crate\))? fn {function}\(", read(f"{folder}/{file}")):
            return f"{folder}/{file}"
    return None


def code_of(name):
    arm = re.search(rf"Instruction::{name}(?:\(\w+\))? => (?:{{\s*)?(?:Ok\()?(\w+)::(\w+)\(", read(BODIES))
    if not arm:
        return []
    folder = os.path.dirname(BODIES)
    path = file_of("value_operations", arm[2]) if arm[1] == "value_operations" else f"{folder}/{arm[1]}.rt"
    found = [(path, arm[2])]
    for file in sorted(os.listdir(LIST)):
        if file not in ALL_NAMED:
            found += named_in(f"{LIST}/{file}", function_begun, "//", f"Op::{name}")
    return found


def own_code_of(name):
    arm = re.search(rf"SeqOp::{name}(?:\(\w+\))? => (\w+)\(", read(OWN))
    followed = re.search(rf"SeqOp::{name}(?:\(\w+\))? => (?:{{\s*)?(\w+)\(", read(FOLLOWING))
    if not arm or not followed:
        return []
    after = "what_follows" if followed[1] == "goes_to" else followed[1]
    return [(OWN, arm[1]), (FOLLOWING, after)]


# ---- laws


def where_stands(name, path):
    """The file of a lemma that stands in this file of proofs, or is imported there."""
    text = read(path)
    if re.search(rf"(?m)^ *(?:pub )?{name} :", text):
        return path
    imported = re.search(rf"(?m)^use Rattle\.(\w+)\.proofs\.(\w+)\.{{[^}}]*\b{name}\b[^}}]*}}", text)
    return imported and f"crates/{imported[1]}/proofs/{imported[2]}.antt"


def law_of(word):
    clause = re.search(rf"(?m)^effect_fine m \(?{word}(?: id\))?(?: \w+)* r = (\w+)", read(FINE))
    path = clause and where_stands(clause[1], FINE)
    return [(path, clause[1])] if path else []


def own_law_of(name):
    clause = re.search(rf"(?ms)^  operates \(?{name}\b.*? e x o =(.*?)(?=^  \w|^\w|\Z)", read(OPERATES))
    if not clause:
        return []
    lemma = re.match(r"\s*(\w+)", re.sub(r"\s*let .*? in\n", "", clause[1], flags=re.S))[1]
    path = where_stands(lemma, OPERATES)
    return [(path, lemma)] if path else []


def starting_law():
    path, name = STARTING
    return [STARTING] if re.search(rf"\bpub fn {name}\(", read(path)) else []


# ---- runs


def run_of(name):
    """The files, the texts and the plan of a run."""
    folder = f"expected/runs/{name}"
    paths = read(f"{folder}/sources").split()
    return [os.path.basename(path) for path in paths], list(map(read, paths)), tomllib.loads(read(f"{folder}/plan.toml"))


class Without(slow_machine.Machine):
    """A machine that leaves out each operation of one kind: its unit passes, and nothing is done; or it has no unit."""

    def __init__(self, run, left_out):
        super().__init__(*run)
        self.left_out = left_out

    def operate(self, job):
        if job.frames:
            if job.frames[-1].rest[0].word == self.left_out:
                job.frames[-1].rest.pop(0)
                if self.left_out not in UNSEEN:
                    return
        elif self.left_out == ("START" if job is not self.sequencer else f"sequencer {self.following}"):
            if job is self.sequencer:
                self.gave = (None,)
            return
        super().operate(job)


def is_shown(name, left_out):
    """Whether the trace of a run is another one without the operation."""
    try:
        lines = Without(run_of(name), left_out).run()
    except (ArithmeticError, AttributeError, LookupError, TypeError, ValueError):
        return True
    return lines != read(f"expected/runs/{name}/trace").splitlines()


def runs_told(key, left_out, fail):
    links = []
    for name in RUNS.get(key, "").split():
        path = f"expected/runs/{name}/trace"
        if not os.path.isfile(path):
            fail(f"there is no run {name}")
        elif not is_shown(name, left_out):
            fail(f"the run {name} is the same without {left_out}")
        links.append(link(name, path))
    return ", ".join(links)


# ---- the page


def operations():
    """Of each operation its key and name, what the slow machine calls it, and its places."""
    for name in variants("Op"):
        word = name.upper()
        yield (name, word, word, page_cell(rows_of(word), "operations"), definitions_of(word), code_of(name),
               law_of(word))
    start = ("START", "START", "START", page_cell(words_of(START, "Operations"), "operations"))
    yield (*start, named_in(f"{SPECS}/Run.antt", definition_begun, "--", "start_op", ("release_op_of",)),
           named_in(STARTS, function_begun, "//", "start_op"), starting_law())
    for name in variants("SeqOp"):
        if name in SEQUENCER:
            word, phrase, slow = SEQUENCER[name]
            yield (name, word, f"sequencer {slow}", page_cell(words_of(phrase, "Missions"), "missions"),
                   own_definitions_of(name), own_code_of(name), own_law_of(name))
        elif not re.search(rf"(?m)^sequencer_op code s {name} = None$", read(f"{SPECS}/Sequencer.antt")):
            yield name, name, f"sequencer {name}", "", [], [], []


def page(fail):
    lines = [HEAD, "| Operation | Row | Defined by | Done by | Law | Wrong bodies | Runs |", "|---|---|---|---|---|---|---|"]
    for key, word, left_out, row, definitions, code, law in operations():
        cells = {
            "row in docs/MACHINE.md": row,
            "definition": told(definitions),
            "function": told(code),
            "law": told(law),
            "wrong body": edits_told(EDITS.get(key, ""), fail),
            "run": runs_told(key, left_out, fail),
        }
        for what, cell in cells.items():
            if not cell:
                fail(f"{key} has no {what}")
        lines.append(f"| {' | '.join([word, *cells.values()])} |")
    return "\n".join(lines) + "\n"


def main():
    os.chdir(os.path.join(os.path.dirname(os.path.abspath(__file__)), ".."))
    wrong = []
    made = page(wrong.append)
    if "--check" in sys.argv[1:]:
        if not os.path.isfile(PAGE) or read(PAGE) != made:
            wrong.append(f"{PAGE} isn't what the crates say: python3 .ci/operation_index.py makes it anew")
    else:
        with open(PAGE, "w", encoding="utf-8") as file:
            file.write(made)
    for it in wrong:
        print(f"operation_index: {it}", file=sys.stderr)
    return 1 if wrong else 0


if __name__ == "__main__":
    sys.exit(main())
