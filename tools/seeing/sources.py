"""Java sources beside a trace: the lines on which something stands, where classes and prints are, and which handlers
are periodic. It looks for words alone and isn't a reader of the language: what it reads was accepted before."""
import os
import re

from seeing.trace_lines import BadInput

LONGEST = 1 << 20
# Comments, texts and characters; what stands in them is no word of the program.
SKIPPED = re.compile(r'//[^\n]*|/\*.*?\*/|"[^"\n]*"', re.DOTALL)
CLASS = re.compile(r"\bclass\s+([A-Za-z_$][\w$]*)(?:\s+extends\s+([A-Za-z_$][\w$]*))?")
PRINT = re.compile(r'\bTrace\s*\.\s*print\s*\(\s*"([^"\n]*)"')
KINDS = {"PeriodicEventHandler": "periodic", "AperiodicEventHandler": "aperiodic"}


class Source:
    """One file: its name as it was given, and its lines."""

    def __init__(self, name, text):
        self.name, self.lines = name, text.split("\n")
        blanked = SKIPPED.sub(lambda match: re.sub(r"[^\n]", " ", match[0]), text)
        self.classes = [(m[1], m[2], self.line_at(text, m.start(1))) for m in CLASS.finditer(blanked)]
        open_text = SKIPPED.sub(lambda m: m[0] if m[0][0] == '"' else re.sub(r"[^\n]", " ", m[0]), text)
        self.prints = [(m[1], self.line_at(text, m.start())) for m in PRINT.finditer(open_text)]

    def line_at(self, text, place):
        return text.count("\n", 0, place) + 1


class Sources:
    def __init__(self, files):
        self.files = files
        self.above = {name: above for file in files for name, above, _ in file.classes}

    def kinds(self):
        """Which classes are handlers, and of which kind."""
        found = {}
        for name in self.above:
            at, steps = name, 0
            while at in self.above and at not in KINDS and steps < len(self.above) + 1:
                at, steps = self.above[at], steps + 1
            if at in KINDS:
                found[name] = KINDS[at]
        return found

    def class_place(self, name):
        for file in self.files:
            for other, _, line in file.classes:
                if other == name:
                    return file, line
        return None

    def print_places(self, label):
        return [(file, line) for file in self.files for other, line in file.prints if other == label]

    def file(self, name):
        """The file that a trace names so: by its whole name, or else by its last part where one file alone has it."""
        exact = [file for file in self.files if file.name == name]
        if exact:
            return exact[0]
        short = [file for file in self.files if os.path.basename(file.name) == os.path.basename(name)]
        return short[0] if len(short) == 1 else None

    def line(self, name, number):
        """A line of a source as it may be printed, or None."""
        file = self.file(name)
        if file is None or not 1 <= number <= len(file.lines):
            return None
        return printable(file.lines[number - 1])

    def check(self, run, path):
        """Whether the classes of the trace are those of the sources."""
        for handler in run.handlers():
            if handler.name not in self.above:
                raise BadInput("no source has the class %s of this handler: the trace is that of other sources" %
                               handler.name, handler.line, path)


def printable(line):
    return "".join(c if c.isprintable() else " " if c == "\t" else "?" for c in line.rstrip("\r"))


def read_sources(names):
    """The sources in files; None where there is none."""
    files = []
    for name in names:
        with open(name, "rb") as file:
            text = file.read(LONGEST + 1)
        if len(text) > LONGEST:
            raise BadInput("a source has at most %d bytes" % LONGEST, source=name)
        files.append(Source(name, text.decode("utf-8", "replace")))
    return Sources(files) if files else None
