"""Chooses the mend of a finding by the rows of tools/mending/mends.toml: the first one of its rule that fits the lexeme
at the place, those around it, and what is known of the class and the member there.

A row has a text `mend`, and any of these: `at`, a pattern of the lexeme; `near`, one of the lexemes around it, parted by
blanks, the one at the place between ⟨ and ⟩; `where`, one of the facts; and `form`, the row of docs/FROM_JAVA.md that it
is. In patterns `<N>` is a name and `<T>` a type. In the text `{x}` is a group of the patterns or a fact.
"""
import difflib
import functools
import os
import re
import tomllib

from mending.lexemes import RESERVED

HERE = os.path.dirname(os.path.realpath(__file__))
NAME = r"[A-Za-z_$][\w$]*"
# How many lexemes around a place are looked at, how many bytes behind it, and how many digits of a number.
AROUND, BEHIND, DIGITS = 60, 400, 100
STATIC = ("Trace", "Device", "Services", "ManagedMemory")
# The framework's static methods, with their classes.
CALLED = {"enterPrivateMemory": "ManagedMemory", "executeInAreaOf": "ManagedMemory", "allocInSame": "ManagedMemory", "setCeiling": "Services", "read": "Device", "print": "Trace"}
METHODS = [*CALLED, "register", "release", "requestTermination"]
KNOWN = """Object Runnable Safelet Mission MissionSequencer PeriodicEventHandler AperiodicEventHandler Trace Device Services
ManagedMemory int boolean void long PriorityParameters PeriodicParameters AperiodicParameters StorageParameters
RelativeTime""".split()


@functools.cache
def table():
    with open(f"{HERE}/mends.toml", "rb") as it:
        return tomllib.load(it)


@functools.cache
def pattern(text):
    return re.compile(text.replace("<N>", NAME).replace("<T>", rf"(?:{NAME})(?: \[ \]| < {NAME} >)?"), re.S)


def facts_of(finding, source, classes):
    """What is known at a finding: a mapping of texts."""
    at = source.index(finding.line, finding.column)
    here = source.lexemes[at] if at < len(source.lexemes) else None
    before = source.lexemes[at - 1] if 0 < at <= len(source.lexemes) else None
    owner = here.owner if here else None
    member = here.member if here else None
    facts = {
        "at": here.text if here else "",
        "rest": source.rest(here.at, BEHIND) if here else "",
        "class": owner.name if owner else "",
        "super": owner.above if owner else "",
        "kind": classes.kind(owner.name) if owner else "",
        "scope": owner.scope if owner else "",
        "defines": next((it.defines for it in classes.chain(owner.name) if it.defines), "") if owner else "",
        "parent": owner.parent if owner else "",
        "member": member.name if member else "",
        "result": member.result if member else "",
        "modifiers": " ".join(filter(None, ["static" if member and member.is_static else "", "constructor" if member and member.is_constructor else ""])),
        "runs": member.marks.get("RunsIn", "") if member else "",
        "above": str(before.line) if before else "",
        "before": before.text if before else "",
        "newline": "yes" if before and (here is None or here.line > before.line) else "",
        "beforekind": before.kind if before else "",
        "depth": str(source.depth),
        "parens": str(open_parentheses(source, at)),
        "head": "yes" if here and owner and at < owner.at else "",
        "headed": "yes" if before and before.text == ")" and is_head(source, at - 1) else "",
    }
    facts |= number_facts(facts["at"], facts["rest"])
    facts |= value_facts(source, at, owner, member, classes)
    facts |= unknown_facts(source, at, member, classes)
    facts |= name_facts(source, at, finding, owner, member, classes)
    return facts, around(source, at)


def is_head(source, at):
    """Whether a `)` ends the head of an if, a while or a for."""
    depth = 0
    while at >= 0:
        depth += {")": 1, "(": -1}.get(source.lexemes[at].text, 0)
        if depth == 0:
            return at > 0 and source.lexemes[at - 1].text in ("if", "while", "for")
        at -= 1
    return False


def open_parentheses(source, at):
    """How many `(` of the statement are open in front of a place; below 0 where more are closed."""
    count, at = 0, at - 1
    while at >= 0 and source.lexemes[at].text not in (";", "{", "}"):
        count += {"(": 1, ")": -1}.get(source.lexemes[at].text, 0)
        at -= 1
    return count


def number_facts(text, rest):
    """A number that is written in another way, in decimal; and a character as its number."""
    found = {}
    digits = re.sub(r"[_lLfFdD]+$", "", text) if not text.lower().startswith("0x") else text.rstrip("lL")
    digits = digits.replace("_", "")
    for base, form in ((16, r"0[xX][0-9a-fA-F]+"), (2, r"0[bB][01]+"), (8, r"0[0-7]+"), (10, r"[0-9]+")):
        if len(digits) <= DIGITS and re.fullmatch(form, digits):
            found["decimal"] = str(int(digits, base))
            break
    letter = re.match(r"'(\\?.)'", rest)
    escapes = {"\\n": 10, "\\t": 9, "\\r": 13, "\\0": 0, "\\\\": 92, "\\'": 39}
    if letter:
        found["decimal"] = str(escapes.get(letter[1], ord(letter[1][-1])))
    return found


def value_facts(source, at, owner, member, classes):
    """What stands behind a `=` or a `return`, or at the place of an argument: its kind and its name."""
    words = [it.text for it in source.lexemes[at : at + 12]]
    if words[:1] in (["="], ["return"]):
        words = words[1:]
    elif words[:1] == ["("] and words[2:3] == [")"]:
        words = words[3:]
    name = words[0] if words else ""
    if words[:2] == ["this", "."] and len(words) > 2:
        words, name = words[2:], words[2]
    found = {"value": "other", "named": name, "type": ""}
    if name == "new":
        is_array = words[2:3] == ["["]
        found |= {"value": "new", "named": (words[1] if len(words) > 1 else "") + ("[]" if is_array else "")}
    elif name in ("this", "null"):
        found["value"] = name
    elif re.fullmatch(NAME, name) and name not in RESERVED:
        found |= named_value(name, words[1:3], owner, member, classes)
    return found | target_facts(source, at, owner, classes)


def named_value(name, behind, owner, member, classes):
    """What a name stands for, with its type."""
    if behind[:1] == ["("]:
        called = classes.member(owner.name, name) if owner else None
        return {"value": "call", "type": called.result if called else ""}
    if behind[:1] == ["."] and len(behind) > 1:
        last = {"named": behind[1]}
        if name in classes.by_name:
            field = classes.field(name, behind[1])
            return last | {"value": "static", "type": field[0] if field else ""}
        return last | {"value": "access"}
    if member and name in member.parameters:
        return {"value": "parameter", "type": member.parameters[name]}
    if member and name in member.locals:
        return {"value": "local", "type": member.locals[name]}
    field = classes.field(owner.name, name) if owner else None
    if field:
        return {"value": "static" if field[1] else "field", "type": field[0]}
    return {"value": "other"}


def target_facts(source, at, owner, classes):
    """What stands before a `=`: the name, and whether it is a field, a static field or an element."""
    if at >= len(source.lexemes) or source.lexemes[at].text != "=" or at == 0:
        return {}
    name = source.lexemes[at - 1].text
    if name == "]":
        begin = at - 1
        while begin > 0 and source.lexemes[begin].text != "[":
            begin -= 1
        return {"target": source.lexemes[begin - 1].text, "target_kind": "element", "target_type": ""}
    field = classes.field(owner.name, name) if owner else None
    before = source.lexemes[at - 3].text if at > 2 and source.lexemes[at - 2].text == "." else ""
    if before in classes.by_name:
        field = classes.field(before, name) or field
    kind = "static" if field and field[1] else f"field {field[2]}".strip() if field else "other"
    return {"target": name, "target_kind": kind, "target_type": field[0] if field else ""}


def unknown_facts(source, at, member, classes):
    """What is known of the area of a value, of the object in which it is stored, and of the object of the call whose
    argument it is: `lies`, `holder_lies` and `receiver_lies` are `unknown` of a variable that may lie anywhere, and `lost`
    of what lies where such an object does."""
    words = source.words
    begin = at + 1 if words[at : at + 1] in (["="], ["return"]) else at
    whole = names_at(words, begin)
    target = names_at(words, target_at(words, at)) if words[at : at + 1] == ["="] else []
    holder = target if at and words[at - 1] == "]" else target[:-1]
    called = names_at(words, call_at(words, at) - 1)
    return {
        "whole": ".".join(whole),
        "object": ".".join(whole[:-1]),
        "lies": lies(whole, member, classes),
        "lies_in": member.scopes.get("".join(whole[:1]), "") if member and len(whole) == 1 else "",
        "holder": ".".join(holder),
        "holder_lies": lies(holder, member, classes),
        "receiver": ".".join(called[:-1]),
        "called": "".join(called[-1:]),
        "receiver_lies": lies(called[:-1], member, classes),
        "framework_class": CALLED.get("".join(words[at : at + 1]), ""),
    }


def names_at(words, at):
    """The names parted by dots around a place, from the first of them on."""
    found = []
    if not (0 <= at < len(words) and (re.fullmatch(NAME, words[at]))):
        return found
    while at > 1 and words[at - 1] == "." and re.fullmatch(NAME, words[at - 2]):
        at -= 2
    while at < len(words) and re.fullmatch(NAME, words[at]):
        found.append(words[at])
        at += 2 if words[at + 1 : at + 2] == ["."] else len(words)
    return found


def target_at(words, at):
    """The place of the name before a `=`, or of that of the array whose element stands there."""
    at -= 1
    if 0 <= at < len(words) and words[at] == "]":
        while at > 0 and words[at] != "[":
            at -= 1
        at -= 1
    return at


def call_at(words, at):
    """The place of the `(` of the call in whose arguments something stands, or of none."""
    depth = 0
    for place in range(min(at, len(words)) - 1, -1, -1):
        depth += {")": 1, "(": -1}.get(words[place], 0)
        if depth < 0 or words[place] in (";", "{", "}"):
            return place if depth < 0 else -1
    return -1


def lies(names, member, classes):
    """Whether what names parted by dots say may lie anywhere, or where such an object lies."""
    if not member or not names or member.scopes.get(names[0]) != "UNKNOWN":
        return ""
    if len(names) == 1:
        return "unknown"
    field = classes.field((member.parameters | member.locals).get(names[0], ""), names[1])
    return "" if len(names) == 2 and field and (field[1] or field[2] not in ("", "THIS")) else "lost"


def name_facts(source, at, finding, owner, member, classes):
    """What a name could have been, and where it is declared."""
    name = source.lexemes[at].text if at < len(source.lexemes) else ""
    known = set(KNOWN) | set(classes.by_name)
    variables = set()
    if member:
        variables |= set(member.parameters) | set(member.locals)
    for it in classes.chain(owner.name) if owner else []:
        variables |= set(it.fields)
    every = {it for a_class in classes.by_name.values() for it in a_class.members}
    fields = {it for a_class in classes.by_name.values() for it in a_class.fields}
    scopes = {it.defines for it in classes.by_name.values() if it.defines}
    pools = {"C2": known, "C9": known, "T1": variables | known, "T4": fields, "T5": every | set(METHODS), "S2": scopes, "A1": scopes, "A7": scopes}
    pool = pools.get(finding.rule, set()) - {name}
    near = difflib.get_close_matches(name.strip('"'), sorted(pool), 1, 0.75)
    found = {"guess": near[0] if near else "", "is_local": "yes" if member and name in member.locals else ""}
    of = classes.owner_of(name)
    found["declared_in"] = of[0].name if of else ""
    declared = of[0].members[name] if of else None
    found["declared_as"] = "static" if declared and declared.is_static else "instance" if declared else ""
    field_of = [it.name for it in classes.by_name.values() if name in it.fields and it.fields[name][1]]
    found["static_field_of"] = field_of[0] if field_of else ""
    found["scopes"] = ", ".join(f'"{it}"' for it in sorted(scopes))
    found["user_class"] = "yes" if name in classes.by_name else ""
    found["own"] = " ".join(sorted(owner.fields)) if owner else ""
    inherited = classes.field(owner.above, name) if owner and owner.above else None
    found["inherited"] = "yes" if inherited else ""
    return found


def around(source, at):
    words = [it.text for it in source.lexemes[max(0, at - AROUND) : at + AROUND]]
    middle = min(at, AROUND)
    mark = words[middle] if middle < len(words) else ""
    return " ".join([*words[:middle], f"⟨{mark}⟩", *words[middle + 1 :]])


def tidy(text):
    """Lexemes parted by blanks, as a person writes them."""
    text = re.sub(r" (?=[.,;)\]])|(?<=[.(\[]) ", "", text)
    return re.sub(r"(?<=\w) (?=[\[(])", "", text)


def choose(finding, source, classes):
    """The row that fits a finding, and its mend; or nothing and an empty text."""
    facts, near = facts_of(finding, source, classes)
    said = "; ".join(f"{name}={value}" for name, value in facts.items()) + ";"
    for row in table().get(finding.rule, []):
        groups = dict(facts)
        for name, text, how in (("at", facts["at"], "fullmatch"), ("near", near, "search"), ("where", said, "search")):
            if name in row:
                match = getattr(pattern(row[name]), how)(text)
                if not match:
                    break
                groups |= {key: tidy(value) for key, value in match.groupdict().items() if value is not None}
        else:
            return row, re.sub(r"\{(\w+)\}", lambda it: str(groups.get(it[1], it[0])), row["mend"])
    return None, ""
