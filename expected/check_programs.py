#!/usr/bin/env python3
"""Compares the printed nodes of the programs whose runs are computed with their sources.

    check_programs.py            says which file differs, and then ends with status 1
    check_programs.py --write    writes the files anew

Each folder in crates/scj_tables/data/programs is a program: its files in the order of their names. The nodes of `some_name` stand
in crates/scj_model/proofs/ProgramSomeName.antt, and those of a program that breaks a rule, whose code its name begins
with, in crates/needed_rules/proofs, and their texts beside them; those of `ceiling` stand in crates/safe_texts/specs.
All nodes stand in the table `nodes` of crates/scj_tables, which prints what the parser makes of the same files.
"""
import os.path
import pathlib
import re
import subprocess
import sys

import print_texts
import table_files

HERE = pathlib.Path(__file__).resolve().parent
CRATES = HERE.parent / "crates"
PROGRAMS = CRATES / "scj_tables" / "data" / "programs"


def printed(words):
    return subprocess.run([sys.executable, str(HERE / "print_nodes.py")] + words, check=True, capture_output=True,
                          text=True).stdout


def breaks_rule(name):
    return re.match(r"[a-z]\d+_", name)


def texts_of_broken():
    """The texts of the programs that break a rule, each one file. They begin alike."""
    texts = {folder.name + "_text": next(folder.iterdir()).read_text()
             for folder in sorted(PROGRAMS.iterdir()) if breaks_rule(folder.name)}
    alike = os.path.commonprefix(list(texts.values()))
    alike = alike[:alike.rfind("\n") + 1]
    return ("-- The texts of the programs, which begin alike. Printed by expected/check_programs.py.\n"
            "use Rattle.std.specs.Prelude.{ℕ, List, ◌++◌, codes}\n"
            + print_texts.definition("beginning", alike, shown=False)
            + "".join(print_texts.definition(name, text[len(alike):], "beginning") for name, text in texts.items()))


def texts_of_shared_gate():
    names = {"base_text": "B.java", "gate_text": "D.java"}
    return ("-- Two texts: a mission with two periodic handlers, which share an object with a ceiling. Printed by\n"
            "-- expected/check_programs.py.\n"
            "use Rattle.std.specs.Prelude.{ℕ, List, ◌++◌, codes}\n"
            + "".join(print_texts.definition(name, (PROGRAMS / "ceiling" / file).read_text())
                      for name, file in names.items()))


def expected_files():
    """Each file that is made, and each part of the table, with its text."""
    calls, lines = [], []
    for folder in sorted(PROGRAMS.iterdir()):
        names = sorted(path.name for path in folder.iterdir())
        words = [folder.name] + [str(folder / name) for name in names]
        crate = "needed_rules" if breaks_rule(folder.name) else "scj_model"
        module = "Program" + "".join(word.capitalize() for word in folder.name.split("_"))
        yield CRATES / crate / "proofs" / f"{module}.antt", printed(words)
        calls.append(" ".join([folder.name] + names) + "\n")
        lines.append(printed(["--lines"] + words))
    yield CRATES / "needed_rules" / "proofs" / "Texts.antt", texts_of_broken()
    yield CRATES / "safe_texts" / "specs" / "SharedGate.antt", texts_of_shared_gate()
    yield "stdin", "".join(calls)
    yield "stdout", "".join(lines)


def kept(place):
    """The text that stands in a file or in a part of the table."""
    if isinstance(place, str):
        return table_files.read(place, "nodes")
    return place.read_text() if place.exists() else None


def put(place, text):
    """Writes a file or a part of the table."""
    if isinstance(place, str):
        table_files.write(place, "nodes", text)
    else:
        place.write_text(text)


def main():
    differs = False
    for place, text in expected_files():
        if "--write" in sys.argv:
            put(place, text)
        elif kept(place) != text:
            print(f"{place} isn't what print_nodes.py prints")
            differs = True
    sys.exit(1 if differs else 0)


main()
