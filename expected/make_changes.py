"""Makes changes of the programs changed.java and guarded.java beside this file, and the report of each by slow_rules.py.

    python3 make_changes.py      writes them as the last two cases of the reports of crates/scj_tables

Each change is one that the grammar allows: a name in the place of another one, an annotation or a word more or less,
another literal, type or operator, arguments, a `return`, a super call or a superclass less. In guarded.java, which has
scopes that are unknown, they are also a guard's condition in another form, and assignments in its first part.
"""

import os
import random
import sys

sys.dont_write_bytecode = True
import slow_rules
import table_files
import trees

PROGRAMS = {"== changes of a program": "changed.java", "== changes of a guarded program": "guarded.java"}
NAME = "E.java"
MARKS = {"Scope", "RunsIn", "DefineScope", "name", "parent"}
SCOPES = ["M", "A", "S", "P", "Q", "IMMORTAL", "THIS", "CALLER", "UNKNOWN"]
OTHER = {"int": ["boolean", "Object", "int[]"], "boolean": ["int", "Note"], "void": ["int", "Note"], "long": ["int"], "null": ["this", "0", "new Object()"], "this": ["null", "true"], "true": ["1"], "false": ["0", "null"],
         "+": ["&&", "==", "-"], "-": ["||"], "*": ["+", "<"], "/": ["!="], "&&": ["+", "||"], "||": ["&&"], ">": ["==", "&"], "<": ["!="], "==": ["<", "!="], "!=": ["==", "+"], "++": ["--"], "+=": ["-="], "!": ["~"]}
ADDED = {"scope": ['@Scope("M") ', "@Scope(THIS) ", "@Scope(CALLER) ", "@Scope(IMMORTAL) ", '@Scope("S") ', "@Scope(Q) ", "@Scope(UNKNOWN) "],
         "runs": ['@RunsIn("M") ', "@RunsIn(THIS) ", "@RunsIn(CALLER) ", "@RunsIn(IMMORTAL) ", '@RunsIn("P") ', "@RunsIn(Q) "],
         "define": ['@DefineScope(name="Q", parent="M") ', '@DefineScope(name="M", parent="IMMORTAL") ', '@DefineScope(name="Q", parent="Q") ', '@DefineScope(name="Q", parent="IMMORTAL") '],
         "static": ["static "], "abstract": ["abstract "], "sync": ["synchronized "]}


class Source:
    def __init__(self, text):
        self.text = text
        self.starts = [0] + [at + 1 for at, c in enumerate(text) if c == "\n"]
        self.tokens = trees.lex(0, text)
        self.parser = trees.Parser(self.tokens)
        self.flags = []
        read = self.parser.flags

        def flags():
            begin = self.parser.i
            found = read()
            self.flags.append((begin, found))
            return found

        self.parser.flags = flags
        self.parser.file()

    def at(self, number):
        _, line, column = self.tokens[number][2]
        return self.starts[line - 1] + column - 1

    def end(self, number):
        kind, text, _ = self.tokens[number]
        return self.at(number) + len(text) + (2 if kind == "text" else 0)

    def word(self, number):
        kind, text, _ = self.tokens[number]
        return text if kind in ("word", "sign") else None

    def closing(self, number):
        """The `)` of the `(` at a place."""
        depth = 0
        for k in range(number, len(self.tokens)):
            depth += {"(": 1, ")": -1}.get(self.word(k), 0)
            if depth == 0:
                return k


def names(source, some):
    """Other names, types, literals and operators."""
    found = sorted({t[1] for t in source.tokens if t[0] == "name"} - MARKS)
    for number, (kind, text, _) in enumerate(source.tokens[:-1]):
        marked = source.word(number - 1) == "@" or text in MARKS and source.word(number - 1) in ("(", ",", "@")
        if kind == "text" or kind == "name" and text in SCOPES[5:]:
            for scope in SCOPES:
                if scope != text and text != "alarm":
                    yield source.at(number), source.end(number), scope
        elif kind == "name" and not marked:
            like = [n for n in found if n != text and n[0].isupper() == text[0].isupper()]
            others = [n for n in found if n != text and n[0].isupper() != text[0].isupper()]
            for name in some.sample(like, min(len(like), 6)) + some.sample(others, 2):
                yield source.at(number), source.end(number), name
        elif kind == "num":
            yield source.at(number), source.end(number), "2147483647" if source.word(number - 1) == "-" else "true"
        elif text in OTHER and not (source.word(number - 1) == "[" or source.word(number - 1) == "=" and text == "-"):
            for other in OTHER[text]:
                yield source.at(number), source.end(number), other


def flags(source):
    """A word or an annotation more or less."""
    for begin, found in source.flags:
        in_head = source.word(begin - 1) == "(" and source.word(begin - 2) == "for"
        follows = found.kind == "flags" and source.word(begin)
        if in_head:
            continue
        is_local = local_at(source, begin)
        for field, texts in ADDED.items():
            if getattr(found, field) or is_local and field in ("static", "abstract", "sync"):
                continue
            for text in texts:
                yield source.at(begin), source.at(begin), text
        for k in range(begin, len(source.tokens)):
            if source.word(k) == "@":
                last = source.closing(k + 2)
                yield source.at(k), source.end(last), ""
            elif source.word(k) in ("class", "{", ";", ")", "=") and not (source.word(k) == ")" or source.word(k) == "="):
                break
            elif source.word(k) in ("static", "abstract", "synchronized"):
                yield source.at(k), source.end(k), ""


def local_at(source, begin):
    """Whether flags at a place stand before a local: inside a body."""
    depth = 0
    for k in range(begin):
        depth += {"{": 1, "}": -1}.get(source.word(k), 0)
    inside = source.word(begin - 1) in (",", "(")
    return depth >= 2 and not inside


def parts(source):
    """Arguments, returns, super calls and superclasses less."""
    for number, (kind, text, _) in enumerate(source.tokens[:-1]):
        if kind == "name" and source.word(number + 1) == "(" and text not in MARKS:
            yield source.at(number + 1), source.end(source.closing(number + 1)), "()"
        if text == "return" and kind == "word":
            end = next(k for k in range(number, len(source.tokens)) if source.word(k) == ";")
            yield source.at(number), source.end(end), ";"
        if text == "super" and kind == "word":
            yield source.at(number), source.end(source.closing(number + 1) + 1), ""
        if text in ("extends", "implements") and kind == "word":
            end = number + 1
            if source.word(end + 1) == "<":
                end += 3
            yield source.at(number), source.end(end), ""
            yield source.at(number + 1), source.end(end), "Object" if text == "extends" else "Safelet"


def guards(source):
    """Other conditions in a guard's place, and assignments in its first part."""
    for number in range(len(source.tokens) - 4):
        if source.tokens[number][1] != "allocInSame":
            continue
        begin, last = number - 2, source.closing(number + 1)
        call = source.text[source.at(begin) : source.end(last)]
        for form in (f"({call})", f"!{call}", f"{call} && true", f"{call} == true", "true"):
            yield source.at(begin), source.end(last), form
        first, second = call[call.index("(") + 1 : -1].split(", ")
        yield source.at(number + 1), source.end(last), f"({second}, {first})"
        for one in f"({first})", "null", f"{first}.next":
            yield source.at(number + 1), source.end(last), f"({one}, {second})"
        if source.word(last + 2) == "{":
            behind = source.end(last + 2)
            for name in {first, second, "old", "c", "any"} - {"this"}:
                yield behind, behind, f" {name} = null;"
                yield behind, behind, f" if (false) {{ {name} = null; }}"
            yield behind, behind, f" {first}.next = null; {second}.next = {first}; {first}.mark = {second};"
            yield behind, behind, f" }} {{ {first}.next = {second};"


def changes_of(text):
    source = Source(text)
    some = random.Random(20)
    return sorted(set(names(source, some)) | set(flags(source)) | set(parts(source)) | set(guards(source)))


def reports_of(head, text):
    """The lines of a case, and what they have to print."""
    asked, told = [head, "-- " + NAME] + text.rstrip("\n").split("\n"), [head]
    changes = changes_of(text)
    kept = 0
    for begin, end, new in changes:
        changed = text[:begin] + new + text[end:]
        try:
            report = slow_rules.lines([NAME], [changed])
        except SyntaxError:
            continue
        kept += 1
        asked.append(f"~ {begin} {end} {new}")
        told += [asked[-1]] + report + ["status %d" % (0 if report == ["accepted"] else 1)]
    print(kept, "changes of", len(changes))
    return asked, told


def main():
    folder = os.path.dirname(os.path.abspath(__file__))
    asked, told = [], []
    for head, name in PROGRAMS.items():
        with open(os.path.join(folder, name)) as file:
            of_one = reports_of(head, file.read())
        asked += of_one[0]
        told += of_one[1]
    for name, lines in ("stdin", asked), ("stdout", told):
        before = table_files.read(name, "reports").split(next(iter(PROGRAMS)) + "\n")[0]
        table_files.write(name, "reports", before + "".join(line + "\n" for line in lines))


if __name__ == "__main__":
    main()
