"""Makes docs/RULE_INDEX.md: for each rule of docs/RULES.md its definition, the code that notes it, wrong bodies, tests.

    python3 rule_index.py          writes the page
    python3 rule_index.py --check  compares it with what would be written

Definitions are found by the rule's code in them, or in the comment above them as `-- C1, what it asks`; functions by
the code in them, or in their documentation as `Notes C1 at`. Tests are the cases of the table `reports` that are named
after the rule. The wrong bodies stand in rule_rows.py, by hand. What isn't found, an edit that isn't there, and a case
that doesn't print its rule alone fail.
"""

import glob
import os
import re
import sys

sys.dont_write_bytecode = True
from rule_rows import COMMON, EDITS

PAGE = "docs/RULE_INDEX.md"
# Where rules are defined: those of lexemes, of the grammar, and all others.
DEFINED_IN = ("scj_base", "scj_tree", "scj_rules")
# What names more rules than so is about all of them.
MOST = 16

HEAD = """# Where each rule stands

`docs/RULES.md` says what each rule asks. This page leads from its code to its definition, to the functions that note its breaks or choose the rule, to wrong bodies that the proofs must refuse, and to tests. `python3 .ci/rule_index.py` makes the page.

Definitions stand in a crate's `specs/`, functions in its `src/`, and wrong bodies, as edits, in its `must-fail/`. A definition is named as it stands in its file, without `.antt`. Tests are cases of the table `reports` (`crates/scj_tables`, `docs/TESTING.md`): the example of `docs/RULES.md`, texts that break the rule alone, and texts that come near and break nothing.
"""


def read(path):
    with open(path, encoding="utf-8") as file:
        return file.read()


def parts_of(path, begins, comment):
    """The lines of a file, each with the name of the item in which it stands, without comments."""
    name = None
    for line in read(path).split("\n"):
        line = line.partition(comment)[0]
        found = begins(line)
        name = found or name
        yield name, line


def definition_begun(line):
    if re.match(r"(pub |unfoldable )*(use|mod|module)\b", line):
        return None
    found = re.match(r"(?:(?:abbrev|unfoldable|opaque|pub|data|record) )*([^\s:(){}]+)(?=\s)", line)
    return found and found[1]


def function_begun(line):
    found = re.match(r"\s*(?:pub(?:\(\w+\))? )?(?:const )?fn (\w+)", line)
    return found and found[1]


def headed_rules(pattern, rules):
    """For each rule the definitions that a comment with its code stands above, as (file, item)."""
    code = "|".join(sorted(rules, key=len, reverse=True))
    head = re.compile(rf"(?<![\w.])({code})(?: to ({code}))?(?:[:;]|,(?! and)| off?) ")
    found = {}
    for path in sorted(glob.glob(pattern, recursive=True)):
        comment = ""
        for line in read(path).split("\n"):
            item = definition_begun(line)
            if item and not line.startswith("--"):
                for first, last in head.findall(comment):
                    for rule in rules[rules.index(first) : rules.index(last or first) + 1]:
                        if (path, item) not in found.setdefault(rule, []):
                            found[rule].append((path, item))
            comment = f"{comment} {line} " if line.startswith("--") else ""
    return found


def documented_rules(pattern, rules):
    """For each rule the functions whose documentation says that they note it, as (file, function)."""
    code = "|".join(sorted(rules, key=len, reverse=True))
    found = {}
    for path in sorted(glob.glob(pattern, recursive=True)):
        comment = ""
        for line in map(str.strip, read(path).split("\n")):
            if line.startswith("///"):
                comment += line
            elif not line.startswith("#["):
                noted = function_begun(line) and re.match(r"/// Notes (.*?) at ", comment)
                for first, last in re.findall(rf"\b({code})\b(?: to ({code})\b)?", noted[1] if noted else ""):
                    for rule in rules[rules.index(first) : rules.index(last or first) + 1]:
                        found.setdefault(rule, []).append((path, function_begun(line)))
                comment = ""
    return found


def named_rules(pattern, begins, comment, mention):
    """For each rule the items of the files that name it, as (file, item)."""
    named = {}
    for path in sorted(glob.glob(pattern, recursive=True)):
        if re.search(r"/(library_)?tests?[./]", path):
            continue
        for item, line in parts_of(path, begins, comment):
            if item is None or re.match(r"\s*(ghost )?(pub )?(unfoldable )?use ", line):
                continue
            for rule in re.findall(mention, line):
                items = named.setdefault((path, item), [])
                if rule not in items:
                    items.append(rule)
    found = {}
    for place, rules in named.items():
        if len(rules) <= MOST:
            for rule in rules:
                found.setdefault(rule, []).append(place)
    return found


def report_cases():
    """The cases of the table `reports`: of each name the lines that are printed for it."""
    text = read("crates/scj_tables/stdout").partition("%% reports\n")[2].partition("\n%% ")[0]
    found = {}
    for case in re.split(r"(?m)^== ", text)[1:]:
        name, _, lines = case.partition("\n")
        found[name] = lines.split("\n")
    return found


def ranged(name, numbers):
    """Cases `name 1`, `name 2` as one phrase."""
    return f"`{name} {numbers[0]}`" if len(numbers) == 1 else f"`{name} {numbers[0]}` to `{numbers[-1]}`"


def tests_of(rule, cases, fail):
    """The cases that are named after a rule. Its example and those alone print the rule, and no other one."""
    example = f"RULES {rule}"
    path = f"crates/scj_tables/data/{rule}.java"
    tests = [link(f"`{example}`", path)] if example in cases and os.path.isfile(path) else []
    breaking = [example] if tests else []
    for kind in "alone", "near":
        numbers = sorted(int(name.split()[2]) for name in cases if re.fullmatch(rf"{rule} {kind} \d+", name))
        if numbers:
            tests.append(ranged(f"{rule} {kind}", numbers))
        breaking += [f"{rule} {kind} {number}" for number in numbers if kind == "alone"]
    for name in breaking:
        printed = {found[1] for found in map(re.compile(r"\S+:\d+:\d+: ([A-Z]+\d+) ").match, cases[name]) if found}
        if rule not in printed or (name != example and printed != {rule}):
            fail(f"the case {name} doesn't show {rule}")
    if not breaking:
        fail(f"no case of the table reports shows {rule}")
    return ", ".join(tests)


def told(places):
    """Items by their files: `item`, `item` in crate/file."""
    files = {}
    for path, item in places:
        files.setdefault(path, []).append(item)
    parts = []
    for path, items in files.items():
        _, crate, folder, *rest = path.split("/")
        name = "/".join(rest)
        place = f"{crate}/{os.path.splitext(name)[0]}" if folder in ("specs", "proofs") else f"{crate}/{name}"
        parts.append(f"{', '.join(f'`{item}`' for item in items)} in {link(place, path)}")
    return "; ".join(parts)


def link(text, path):
    """A link from the page to a file."""
    return f"[{text}](../{path})"


def edits_told(words, fail):
    links = []
    for word in words.split():
        crate, _, name = word.partition("/")
        path = f"crates/{crate}/must-fail/{name}.edit"
        if not os.path.isfile(path):
            fail(f"there is no edit {word}")
        links.append(link(word, path))
    return ", ".join(links)


def page(fail):
    heads = re.findall(r"(?m)^### ([A-Z]+[0-9]+): (.*)$", read("docs/RULES.md"))
    known = "|".join(sorted((rule for rule, _ in heads), key=len, reverse=True))
    definitions = {}
    for crate in DEFINED_IN:
        files = f"crates/{crate}/specs/**/*.antt"
        headed = headed_rules(files, [rule for rule, _ in heads])
        named = named_rules(files, definition_begun, "--", rf"(?<![\w.])({known})(?!\w)")
        for found in headed, named:
            for rule, places in found.items():
                row = definitions.setdefault(rule, [])
                row += [place for place in places if place not in row]
    files = "crates/*/src/**/*.rt"
    functions = named_rules(files, function_begun, "//", rf"Rule::({known})(?!\w)")
    for rule, places in documented_rules(files, [rule for rule, _ in heads]).items():
        row = functions.setdefault(rule, [])
        row += [place for place in places if place not in row]
    cases = report_cases()
    lines = [HEAD, "| Rule | Defined by | Noted by | Wrong bodies | Tests |", "|---|---|---|---|---|"]
    for rule, text in heads:
        for what, found in ("definition", definitions), ("function", functions), ("row of edits", EDITS):
            if not found.get(rule):
                fail(f"no {what} is found that names {rule}")
        cells = [
            f"[{rule}](RULES.md#{anchor(rule, text)}) {text}",
            told(definitions.get(rule, [])),
            told(functions.get(rule, [])),
            edits_told(EDITS.get(rule, ""), fail),
            tests_of(rule, cases, fail),
        ]
        lines.append(f"| {' | '.join(cells)} |")
    lines += ["", "Of all rules:", ""]
    lines += [f"- {what}: {edits_told(words, fail)}" for what, words in COMMON.items()]
    return "\n".join(lines) + "\n"


def anchor(rule, text):
    """The name that a heading `rule: text` has as the end of a link."""
    return re.sub(r"[^\w\- ]", "", f"{rule}: {text}".lower()).replace(" ", "-")


def main():
    os.chdir(os.path.join(os.path.dirname(os.path.abspath(__file__)), ".."))
    wrong = []
    made = page(wrong.append)
    if "--check" in sys.argv[1:]:
        if not os.path.isfile(PAGE) or read(PAGE) != made:
            wrong.append(f"{PAGE} isn't what the crates say: python3 .ci/rule_index.py makes it anew")
    else:
        with open(PAGE, "w", encoding="utf-8") as file:
            file.write(made)
    for it in wrong:
        print(f"rule_index: {it}", file=sys.stderr)
    return 1 if wrong else 0


if __name__ == "__main__":
    sys.exit(main())
