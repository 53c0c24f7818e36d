#!/usr/bin/env python3
"""Compares docs/BOUNDS.md with the programs in expected/bounds.

Each block of Java below a line with the name of a program is a part of it, and each answer between backquotes is a line
of what was worked out of the program that was named last. Each cause has an answer of its own, and a `yes` behind it.
"""
import pathlib
import re
import sys

TOP = pathlib.Path(__file__).resolve().parent.parent
PROGRAMS = TOP / "expected" / "bounds"
CAUSES = ["Recursion", "NotLiteral", "OuterArea", "NewInLoop", "TooSmall"]
PIECE = re.compile(
    r"^(?P<heading>#+) (?P<title>[^\n]*)$"
    r"|^```java\n(?P<part>.*?)^```$"
    r"|`(?P<program>[a-z]+[.]java)`"
    r"|`(?P<answer>[A-Z]\w* (?:yes \d+|no \w+ (?P<of>\w+[.]java):\d+:\d+)|need \d+)`",
    re.M | re.S,
)


def complaints(text):
    program, cause, shown = None, None, {}
    for piece in PIECE.finditer(text):
        program = piece["program"] or piece["of"] or program
        if piece["heading"] == "##":
            cause = None
        elif piece["heading"] == "###":
            cause = piece["title"]
            shown[cause] = []
        elif piece["part"] and piece["part"] not in (PROGRAMS / program).read_text():
            yield f"this isn't in {program}: {piece['part']}"
        elif piece["answer"]:
            if piece["answer"] not in (PROGRAMS / program).with_suffix(".want").read_text().splitlines():
                yield f"this isn't said of {program}: {piece['answer']}"
            if cause:
                shown[cause].append(piece["answer"])
    if list(shown) != CAUSES:
        yield f"the causes are {list(shown)}"
    for cause, answers in shown.items():
        if not any(f" no {cause} " in it for it in answers) or not any(" yes " in it for it in answers):
            yield f"{cause} has no example or no mend"


def main():
    found = list(complaints((TOP / "docs" / "BOUNDS.md").read_text(encoding="utf-8")))
    for it in found:
        print(f"bounds_page: {it}", file=sys.stderr)
    return 1 if found else 0


if __name__ == "__main__":
    sys.exit(main())
