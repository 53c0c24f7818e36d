"""The lexemes of a Java source, right or wrong, with the class and the member in which each stands.

A source is read byte by byte as Latin-1, so that a column counts bytes as the checker's does.
"""
import bisect
import re

SIGNS = r"\.\.\.|->|::|>>>=|<<=|>>=|>>>|\+\+|--|&&|\|\||<<|>>|[-+*/%&|^=!<>]=|."
LEXEME = re.compile(
    r"(?P<blank>[ \t\r\n\f]+|//[^\n]*|/\*.*?\*/)"
    r'|(?P<text>"(?:\\.|[^"\\\n])*"|\'(?:\\.|[^\'\\\n])\')'
    r"|(?P<name>[A-Za-z_$\x80-\xff][\w$\x80-\xff]*)|(?P<number>[0-9][\w$]*)|(?P<sign>" + SIGNS + ")",
    re.S | re.A,
)
FRAMEWORK = "Mission MissionSequencer PeriodicEventHandler AperiodicEventHandler Runnable Safelet".split()
PRIMITIVE = ("int", "boolean", "void", "long")
# What stands before the name of a variable that says where it lies, and in how many lexemes.
SCOPED = re.compile(r'@ Scope \( (?:Scope \. )?"?(\w+)"? \)(?: final)? [\w$]+(?: \[ \]| < [\w$]+ >)?$')
MARK = 16
RESERVED = """abstract assert boolean break byte case catch char class const continue default do double else enum extends
false final finally float for goto if implements import instanceof int interface long native new null package private
protected public return short static strictfp super switch synchronized this throw throws transient true try void
volatile while""".split()


class Lexeme:
    __slots__ = ("text", "at", "kind", "line", "column", "owner", "member")

    def __init__(self, text, at, kind):
        self.text, self.at, self.kind, self.owner, self.member = text, at, kind, None, None


class Class:
    """A class: its name, what it extends and implements, and what its annotations say."""

    def __init__(self, head, at):
        words = [it.text for it in head]
        begin = words.index("class")
        self.name, self.at = words[begin + 1] if begin + 1 < len(words) else "", at
        self.above = words[words.index("extends") + 1] if "extends" in words[:-1] else ""
        self.interfaces = [it for it in words[words.index("implements") + 1 :] if it.isidentifier()] if "implements" in words else []
        marks = annotations(words)
        self.scope, self.defines, self.parent = marks.get("Scope", ""), marks.get("name", ""), marks.get("parent", "")
        self.fields, self.members = {}, {}


class Member:
    """A method or constructor: its name and result, its parameters with types, the locals of its body, and the scopes
    that are written on these."""

    def __init__(self, head, owner):
        words = bare(head)
        at = [it.text for it in words].index("(")
        self.name = words[at - 1].text if at else ""
        self.first = words[at - 1] if at else words[0]
        self.result = words[at - 2].text if at > 1 else ""
        if self.result == "]" and at > 4:
            self.result = words[at - 4].text + "[]"
        self.is_constructor = self.name == owner.name
        self.is_static = any(it.text == "static" for it in words[:at])
        self.marks = annotations([it.text for it in head[: head.index(self.first)]])
        self.parameters, self.locals, self.scopes = {}, {}, {}
        rest = words[at + 1 :]
        for before, it, after in zip(rest, rest[1:], rest[2:]):
            if it.kind == "name" and after.text in (",", ")") and (before.kind == "name" or before.text == "]"):
                self.parameters[it.text] = type_before(rest, rest.index(it))
                self.note_scope(head, head.index(it))

    def note_scope(self, lexemes, at):
        """Notes where a variable lies whose name stands there, if that is written."""
        found = SCOPED.search(" ".join(it.text for it in lexemes[max(0, at - MARK) : at]))
        if found:
            self.scopes.setdefault(lexemes[at].text, found[1])


def type_before(words, at):
    """The type that stands before a name."""
    if at and words[at - 1].text == "]" and at > 2:
        return words[at - 3].text + "[]"
    if at and words[at - 1].text == ">":
        begin = at - 1
        while begin and words[begin].text != "<":
            begin -= 1
        return words[begin - 1].text
    return words[at - 1].text if at else ""


def bare(head):
    """A head without its annotations."""
    found, at = [], 0
    while at < len(head):
        if head[at].text == "@" and at + 1 < len(head):
            at += 2
            if at < len(head) and head[at].text == "(":
                while at < len(head) and head[at].text != ")":
                    at += 1
                at += 1
        else:
            found.append(head[at])
            at += 1
    return found


def annotations(words):
    """The values of the annotations of a head, before its parameters."""
    text, found = " ".join(words), {}
    for name, value in re.findall(r"@ (Scope|RunsIn) \( (?:Scope \. )?\"?(\w*)\"? \)", text):
        found.setdefault(name, value)
    for name, value in re.findall(r"\b(name|parent) = (?:Scope \. )?\"?(\w*)\"?", text):
        found.setdefault(name, value)
    return found


class Source:
    """A file: its lexemes, its classes, and which lexeme stands at a place."""

    def __init__(self, data):
        self.text = data.decode("latin-1")
        self.lexemes = [Lexeme(it[0], it.start(), it.lastgroup) for it in LEXEME.finditer(self.text) if it.lastgroup != "blank"]
        self.words = [it.text for it in self.lexemes]
        self.ends = [it.at + len(it.text) for it in self.lexemes]
        self.begins = [0] + [it.end() for it in re.finditer("\n", self.text)]
        line = 0
        for it in self.lexemes:
            while line + 1 < len(self.begins) and self.begins[line + 1] <= it.at:
                line += 1
            it.line, it.column = line + 1, it.at - self.begins[line] + 1
        self.classes = []
        self.note_owners()

    def note_owners(self):
        """Says of each lexeme in which class and member it stands."""
        owners, member, depth, head = [], None, 0, []
        for at, it in enumerate(self.lexemes):
            it.owner, it.member = owners[-1][0] if owners else None, member
            if it.text == "{":
                depth += 1
                if member is None and any(lexeme.text == "class" for lexeme in bare(head)[:-1]):
                    owners.append((Class(head, at), depth))
                    self.classes.append(owners[-1][0])
                    it.owner = owners[-1][0]
                    for lexeme in head:
                        lexeme.owner = lexeme.owner or it.owner
                elif member is None and owners and any(lexeme.text == "(" for lexeme in bare(head)):
                    member = Member(head, owners[-1][0])
                    owners[-1][0].members.setdefault(member.name, member)
                    for lexeme in head:
                        lexeme.member = member
                    open_at = depth
                head = []
            elif it.text == "}":
                if member is not None and depth == open_at:
                    member = None
                elif owners and owners[-1][1] == depth:
                    owners.pop()
                depth, head = depth - 1, []
            elif it.text == ";" and (not owners or depth == owners[-1][1]):
                if owners:
                    self.note_field(head, owners[-1][0])
                head = []
            else:
                head.append(it)
                if member is not None:
                    self.note_local(at, member)
            if it.text == ";" and member is not None:
                head = []
        self.depth = depth

    def note_field(self, head, owner):
        words = bare(head)
        if any(it.text == "(" for it in words):
            member = Member(head, owner)
            owner.members.setdefault(member.name, member)
            return
        names = [at for at, it in enumerate(words) if it.kind == "name" and at and (at + 1 == len(words) or words[at + 1].text in "=,[")]
        if names:
            is_static = any(it.text == "static" for it in words)
            owner.fields[words[names[0]].text] = (type_before(words, names[0]), is_static, annotations([it.text for it in head]).get("Scope", ""))

    def note_local(self, at, member):
        it, before, after = self.lexemes[at], self.lexemes[at - 1], self.lexemes[at + 1].text if at + 1 < len(self.lexemes) else ""
        is_type = before.kind == "name" and before.text not in RESERVED or before.text in ("int", "boolean", "]", "byte", "short", "long")
        if it.kind == "name" and is_type and after in ("=", ";", ",", ":", "[") and it.text not in RESERVED:
            member.locals.setdefault(it.text, type_before(self.lexemes[max(0, at - 8) : at + 1], min(at, 8)))
            member.note_scope(self.lexemes, at)

    def index(self, line, column):
        """The number of the lexeme at a place, or of the one behind it; or how many there are."""
        if line > len(self.begins):
            return len(self.lexemes)
        return bisect.bisect_right(self.ends, self.begins[line - 1] + column - 1)

    def rest(self, at, most):
        """The bytes of the line from a lexeme on, and no more than so many."""
        return self.text[at : at + most].partition("\n")[0]

    def line(self, line):
        """The bytes of a line, or None where there is none."""
        if line > len(self.begins):
            return None
        end = self.begins[line] if line < len(self.begins) else len(self.text)
        return self.text[self.begins[line - 1] : end].rstrip("\n").removesuffix("\r")


class Classes:
    """The classes of several sources by their names."""

    def __init__(self, sources):
        self.by_name = {}
        for source in sources:
            for it in source.classes:
                self.by_name.setdefault(it.name, it)

    def chain(self, name):
        """A class and those above it."""
        found = []
        while name in self.by_name and name not in [it.name for it in found]:
            found.append(self.by_name[name])
            name = found[-1].above
        return found

    def kind(self, name):
        """What a class is to the framework."""
        chain = self.chain(name)
        for it in [name, *(above for it in chain for above in (it.above, *it.interfaces))]:
            if it in FRAMEWORK:
                return it
        return ""

    def field(self, owner, name):
        return next((it.fields[name] for it in self.chain(owner) if name in it.fields), None)

    def member(self, owner, name):
        return next((it.members[name] for it in self.chain(owner) if name in it.members), None)

    def owner_of(self, name):
        """The classes that have a method of the name."""
        return [it for it in self.by_name.values() if name in it.members]
