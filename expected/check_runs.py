#!/usr/bin/env python3
"""Compares what slow_machine.py prints of the runs in runs/ with their traces.

    check_runs.py              says which run differs, and then ends with status 1
    check_runs.py FOLDER..     the same of other folders of such runs

Each folder in runs/ is a run: plan.toml, the trace (`trace` or `trace.txt`), and the sources. These are the files
*.java of the folder in the order of their names, or, where there is a file `sources`, those that it names, from the
top of the repository on. A folder without a plan is passed over. The traces in runs/ were worked out by hand. In their
traces a file is called by its name alone, and in those of other folders by its path as it is found from there.
"""
import pathlib
import sys
import tomllib

import slow_machine

HERE = pathlib.Path(__file__).resolve().parent
TOP = HERE.parent


def sources(folder):
    listed = folder / "sources"
    if listed.exists():
        return [TOP / line for line in listed.read_text().split()]
    return sorted(folder.glob("*.java"))


def difference(folder):
    """What is wrong with a run, or None."""
    paths = sources(folder)
    plan = tomllib.loads((folder / "plan.toml").read_text())
    try:
        names = [path.name if folder.parent == HERE / "runs" else str(path) for path in paths]
        lines = slow_machine.trace(names, [path.read_text() for path in paths], plan)
    except slow_machine.Refused:
        return "its files aren't accepted"
    wanted = next(folder.glob("trace*")).read_text().splitlines()
    for number, (line, other) in enumerate(zip(lines, wanted), 1):
        if line != other:
            return f"line {number} is `{line}` in place of `{other}`"
    return None if len(lines) == len(wanted) else f"it has {len(lines)} lines in place of {len(wanted)}"


def main():
    differs = False
    for folders in [pathlib.Path(word) for word in sys.argv[1:]] or [HERE / "runs"]:
        for folder in sorted(plan.parent for plan in folders.glob("*/plan.toml")):
            wrong = difference(folder)
            if wrong is not None:
                print(f"{folder.name}: {wrong}")
                differs = True
    sys.exit(1 if differs else 0)


main()
