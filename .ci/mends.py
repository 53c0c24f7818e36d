#!/usr/bin/env python3
"""Compares the mends of tools/findings with docs/FROM_JAVA.md, and with mistakes of which a person said the mend.

    .ci/mends.py             the page and the mistakes
    .ci/mends.py PROGRAM     that the program reports each mistake so, too

Of each row of the tables of the page, the row of tools/mending/mends.toml that is chosen for a finding of its source is
of that form. Of each mistake in .ci/mistakes.txt the mends are those, one for each cause.
"""
import os
import re
import subprocess
import sys
import tempfile

sys.dont_write_bytecode = True
TOP = os.path.dirname(os.path.dirname(os.path.realpath(__file__)))
sys.path[:0] = [f"{TOP}/tools", f"{TOP}/.ci"]
import tables
from mending.forms import choose, table

DATA = f"{TOP}/crates/scj_tables/data"
MARK = "⟦".encode()
# Rows of the page that say the same as another one of the lexeme, and share its mend.
SHARED = {
    "size from a constant": "computed size",
    "handler without a start": "handler with a name",
    "field counted up": "field counted up",
    "lines that end in a carriage return alone": None,
    "file missing in the call": None,
    "scope name misspelt": "scope name misspelt",
}


def complain(text):
    print(f"mends: {text}", file=sys.stderr)


def page_rows():
    """The rows of the page: their titles and the names of their sources."""
    with open(f"{TOP}/docs/FROM_JAVA.md", encoding="utf-8") as it:
        text = it.read()
    inside = False
    for line in text.split("\n"):
        if line.startswith("| What | Java | Report | In its place |"):
            inside = True
        elif not line.startswith("|"):
            inside = False
        elif inside and not line.startswith("|--"):
            title = line.split("|")[1].strip()
            yield title, re.sub(r"[^a-z0-9]+", "_", title.lower())


def page_findings(findings):
    """The findings of the first call of each row's case."""
    found, title, calls = {}, None, 0
    for line in tables.table("stdout", "reports"):
        if line.startswith("== "):
            title, calls = line[13:] if line.startswith("== FROM_JAVA ") else None, 0
        elif line.startswith("$ "):
            calls += 1
        elif title and calls == 1 and findings.FINDING.fullmatch(line):
            found.setdefault(title, []).append(line)
    return found


def compare_page(findings):
    wrong, forms = 0, {row.get("form") for rows in table().values() for row in rows} - {None}
    printed, titles = page_findings(findings), []
    for title, name in page_rows():
        titles.append(title)
        wanted = SHARED.get(title, title)
        if wanted is None:
            continue
        chosen = set()
        for line in printed.get(title, []):
            it = findings.FINDING.fullmatch(line)
            with open(f"{DATA}/{it[1]}", "rb") as data:
                source = findings.Source(data.read())
            finding = findings.Finding(it[1], int(it[2]), int(it[3]), it[4], it[5])
            row = choose(finding, source, findings.Classes([source]))[0]
            chosen.add(row.get("form") if row else None)
        if wanted not in chosen:
            complain(f"docs/FROM_JAVA.md: {title}: the mend is of {chosen}")
            wrong += 1
    for it in sorted(forms - set(titles)):
        complain(f"docs/FROM_JAVA.md has no row {it}")
        wrong += 1
    return len(titles), wrong


def mistakes():
    """The rule and title of each mistake, its bytes with marks, and its mends."""
    with open(f"{TOP}/.ci/mistakes.txt", encoding="utf-8") as it:
        text = it.read()
    for part in re.split(r"^== ", text, flags=re.M)[1:]:
        head, *lines = part.split("\n")
        rule, _, title = head.partition(" ")
        body = []
        for line in lines:
            many = re.fullmatch(r"%% (\d+) (.*)", line)
            if many:
                body += [many[2].replace("#", str(n)) for n in range(int(many[1]))]
            elif not line.startswith("=> "):
                body.append(line)
        data = "\n".join(body).rstrip("\n").encode() + b"\n"
        data = re.sub(rb"\\x([0-9a-f]{2})", lambda it: bytes([int(it[1], 16)]), data)
        if data.endswith(MARK + b"\n"):
            data = data.removesuffix(b"\n")
        yield rule, title, data, [it[3:] for it in lines if it.startswith("=> ")]


def places(data):
    """The bytes without the marks, and the places that these had."""
    found, left = [], data
    while MARK in left:
        at = left.index(MARK)
        left = left[:at] + left[at + len(MARK) :]
        found.append((left[:at].count(b"\n") + 1, at - (left.rfind(b"\n", 0, at) + 1) + 1))
    return left, found


def texts_of_rules():
    with open(f"{TOP}/docs/RULES.md", encoding="utf-8") as it:
        return dict(re.findall(r"^### ([A-Z]+\d+): (.*)$", it.read(), re.M))


def compare_mistake(findings, mistake, texts):
    """Whether the mends of a mistake are those."""
    rule, title, data, mends = mistake
    left, found = places(data)
    with open("M.java", "wb") as it:
        it.write(left)
    rows = [findings.Finding("M.java", line, column, rule, texts[rule]) for line, column in found]
    report = findings.Report(rows)
    told = [findings.utf8(report.mends[group[0]]) for group in report.groups()]
    if told == mends:
        return True
    for a, b in zip([*mends, *["nothing"] * len(told)], [*told, *["nothing"] * len(mends)]):
        if a != b:
            complain(f"{rule} {title}:\n  wanted {a}\n  told   {b}")
    return False


def is_reported(program, mistake, texts):
    """Whether the program reports a mistake at its marks."""
    rule, title, data, _ = mistake
    left, found = places(data)
    with open("M.java", "wb") as it:
        it.write(left)
    alone = rule == "C8" and "alone" in title
    words = ["M.java"] if alone else ["M.java", f"{DATA}/A.java"] if rule in ("L1", "L2", "L3", "L4", "P1") else [f"{DATA}/A.java", "M.java"]
    said = subprocess.run([program, "check", *words], stdout=subprocess.PIPE, check=False).stdout.decode()
    wanted = "".join(f"M.java:{line}:{column}: {rule} {texts[rule]}\n" for line, column in found) + f"refused {len(found)}\n"
    if said != wanted:
        complain(f"{rule} {title}: reported is {said}")
    return said == wanted


def main(words):
    findings = tables.script("findings")
    texts, every = texts_of_rules(), list(mistakes())
    rows, wrong = compare_page(findings)
    counts = {}
    with tempfile.TemporaryDirectory() as room:
        os.chdir(room)
        for it in every:
            counts[it[0]] = counts.get(it[0], 0) + 1
            wrong += not compare_mistake(findings, it, texts)
            if words:
                wrong += not is_reported(words[0], it, texts)
    for rule in texts:
        if counts.get(rule, 0) < 2:
            complain(f"{rule}: {counts.get(rule, 0)} mistakes")
            wrong += 1
    print(f"mends: {len(every)} mistakes and {rows} rows of the page, {wrong} wrong")
    return 1 if wrong or len(every) < 150 or rows < 100 else 0


if __name__ == "__main__":
    sys.exit(main([os.path.abspath(it) for it in sys.argv[1:]]))
