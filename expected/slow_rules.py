"""The rules of docs/RULES.md from C1 on, asked slowly, and written apart from the checker.

    python3 slow_rules.py FILE..    prints the report of files that are in the grammar
"""

import sys

import trees

TEXTS = """
L1 bad byte
L2 bad number
L3 open comment or string
L4 long name
P1 not in the grammar
P2 too deep
C1 class twice
C2 unknown super
C3 class cycle
C4 field twice
C5 method twice
C6 override types
C7 abstract left open
C8 not exactly one safelet
C9 unknown type
C10 forbidden super
C11 misplaced word
K1 too many classes
K2 too many locals
K3 too many parameters
K4 too many fields
T1 unknown variable
T2 name twice
T3 operand
T4 no field
T5 no method
T6 arguments
T7 assignment
T8 condition
T9 return
T10 end without return
T11 abstract new
T12 cast
T13 this in static
T14 misplaced framework form
S1 scope defined twice or reserved
S2 unknown parent
S3 scope cycle
S4 wrong class
S5 wrong parent
S6 scope missing
A1 unknown scope
A2 class scope
A3 field scope
A4 field of unannotated class
A5 static field scope
A6 override scopes
A7 unknown runs-in
A8 framework runs-in
A9 contradicting scope
E1 new
E2 call
E3 argument
E4 assign
E5 store
E6 return
E7 enter
E8 execute in area
E9 cast scope
E10 array
""".strip().split("\n")
RULES = [t.split(" ")[0] for t in TEXTS]
TEXT = dict((t.split(" ", 1)[0], t) for t in TEXTS)

INTERFACES = ("Runnable", "Safelet")
ABSTRACT = ("Mission", "MissionSequencer", "PeriodicEventHandler", "AperiodicEventHandler")
STATIC = ("ManagedMemory", "Services", "Trace", "Device")
FORMS = ("PriorityParameters", "PeriodicParameters", "AperiodicParameters", "StorageParameters", "RelativeTime")
KINDS = ("Mission", "MissionSequencer", "PeriodicEventHandler", "AperiodicEventHandler", "Runnable", "Safelet")
FRAMEWORK = ("Object",) + INTERFACES + ABSTRACT + STATIC + FORMS
FIRST_SEVEN = ("Object", "Runnable", "Safelet", "Mission", "MissionSequencer", "PeriodicEventHandler", "AperiodicEventHandler")
HAVE_FORM = ("PeriodicEventHandler", "AperiodicEventHandler", "MissionSequencer")


UNKNOWN, LOST = "(unknown)", "(lost)"


class Row:
    """A method of the framework."""
    builtin = True

    def __init__(self, on, name, result, params=(), abstract=False, callable=True, over=True, static=False):
        self.on, self.name, self.result, self.params = on, name, result, list(params)
        self.abstract, self.callable, self.over, self.static = abstract, callable, over, static


def rows(*rs):
    return dict((r.name, r) for r in rs)


def handler(on, *more):
    return rows(Row(on, "handleAsyncEvent", "void", abstract=True, callable=False), Row(on, "register", "void", over=False), *more)


BUILTIN = {
    "Object": {},
    "Runnable": rows(Row("Runnable", "run", "void", abstract=True, callable=False)),
    "Safelet": rows(Row("Safelet", "getSequencer", "MissionSequencer", abstract=True, callable=False), Row("Safelet", "immortalMemorySize", "long", abstract=True, callable=False), Row("Safelet", "initializeApplication", "void", abstract=True, callable=False)),
    "Mission": rows(Row("Mission", "initialize", "void", abstract=True, callable=False), Row("Mission", "missionMemorySize", "long", abstract=True, callable=False), Row("Mission", "cleanUp", "void", callable=False), Row("Mission", "requestTermination", "void", over=False)),
    "MissionSequencer": rows(Row("MissionSequencer", "getNextMission", "Mission", abstract=True, callable=False)),
    "PeriodicEventHandler": handler("PeriodicEventHandler"),
    "AperiodicEventHandler": handler("AperiodicEventHandler", Row("AperiodicEventHandler", "release", "void", over=False)),
    "ManagedMemory": rows(Row("ManagedMemory", "enterPrivateMemory", "void", ["int", "Runnable"], static=True), Row("ManagedMemory", "executeInAreaOf", "void", ["Object", "Runnable"], static=True), Row("ManagedMemory", "allocInSame", "boolean", ["Object", "Object"], static=True)),
    "Services": rows(Row("Services", "setCeiling", "void", ["Object", "int"], static=True)),
    "Trace": rows(Row("Trace", "print", "void", ["label", "int"], static=True)),
    "Device": rows(Row("Device", "read", "int", ["int"], static=True)),
}
for form in FORMS:
    BUILTIN[form] = {}


class Method:
    builtin = False
    callable = True
    over = True

    def __init__(self, on, node):
        self.on, self.node, self.name = on, node, node.name
        self.static, self.abstract = node.flags.static, node.flags.abstract
        self.result = spell(node.type)
        self.params = [spell(p.type) for p in node.params]


def spell(t):
    return t.name + "[]" if t.array else t.name


class Checker:
    def __init__(self, texts):
        self.files = trees.read(texts)
        self.users = [c for f in self.files for c in f]
        self.found = set()
        self.byname = {}
        for c in self.users:
            if c.name not in FRAMEWORK:
                self.byname.setdefault(c.name, c)

    def say(self, rule, pos):
        self.found.add((pos, RULES.index(rule)))

    def report(self):
        for phase in (self.classes, self.types, self.scopes, self.uses):
            phase()
            if self.found:
                return sorted(self.found)
        return []

    # ---- classes as written

    def known(self, name):
        return name in FRAMEWORK or name in self.byname

    def written_chain(self, c):
        """The class and the classes above it by the names as written; user classes as nodes, others by name."""
        out, at = [], c
        while at is not None and at not in out:
            out.append(at)
            if isinstance(at, str) or at.above is None:
                break
            n = at.above.name
            at = n if n in FRAMEWORK else self.byname.get(n)
        return out

    def written_kinds(self, name):
        if name in FRAMEWORK:
            return {name} & set(KINDS)
        out = set()
        c = self.byname.get(name)
        if c is None:
            return out
        for d in self.written_chain(c):
            if isinstance(d, str):
                out |= {d} & set(KINDS)
            else:
                out |= {f.name for f in d.faces} & set(KINDS)
        return out

    def classes(self):
        say = self.say
        seen = set()
        self.broken = set()
        for n, c in enumerate(self.users):
            if c.name in FRAMEWORK or c.name in seen:
                say("C1", c.pos)
            seen.add(c.name)
            if n >= 256:
                say("K1", c.pos)
            supers = ([(c.above, True)] if c.above else []) + [(f, False) for f in c.faces]
            kinds = set()
            for s, extends in supers:
                if not self.known(s.name):
                    say("C2", s.pos)
                    self.broken.add(c)
                    continue
                bad = s.name in INTERFACES + STATIC + FORMS if extends else s.name not in INTERFACES
                brought = self.written_kinds(s.name)
                new = brought - kinds
                kinds |= brought
                if bad or (new and len(kinds) > 1):
                    say("C10", s.pos)
                    self.broken.add(c)
            at, steps = c, 0
            while at is not None and not isinstance(at, str) and steps <= len(self.users):
                nxt = at.above.name if at.above else None
                at = self.byname.get(nxt) if nxt and nxt not in FRAMEWORK else None
                steps += 1
                if at is c:
                    say("C3", c.pos)
                    self.broken.add(c)
                    break
        self.members()
        for c in self.users:
            self.class_rules(c)
        safelets = [c for c in self.users if not c.flags.abstract and any(not isinstance(d, str) and any(f.name == "Safelet" for f in d.faces) for d in self.written_chain(c))]
        if not safelets:
            say("C8", (0, 1, 1))
        for c in safelets[1:]:
            say("C8", c.pos)

    # ---- members, where a broken class stands under Object alone

    def members(self):
        self.fields, self.methods = {}, {}
        for c in self.users:
            fs, ms = {}, {}
            for m in c.members:
                if m.kind == "field":
                    m.on = c
                    fs.setdefault(m.name, m)
                elif m.kind == "method":
                    m.on = c
                    ms.setdefault(m.name, Method(c, m))
                else:
                    m.on = c
            self.fields[c], self.methods[c] = fs, ms

    def above(self, c):
        """The superclass: a node, a name of the framework, or None."""
        if isinstance(c, str):
            return None if c == "Object" else "Object"
        if c in self.broken or c.above is None:
            return "Object"
        n = c.above.name
        return n if n in FRAMEWORK else self.byname[n]

    def chain(self, c):
        out = []
        while c is not None:
            out.append(c)
            c = self.above(c)
        return out

    def faces(self, c):
        return [] if isinstance(c, str) or c in self.broken else [f.name for f in c.faces]

    def all_faces(self, c):
        return [f for d in self.chain(c) for f in self.faces(d)] + [d for d in self.chain(c) if d in INTERFACES]

    def is_sub(self, c, d):
        return d in self.chain(c) or d in self.all_faces(c)

    def field_of(self, c, name):
        for d in self.chain(c):
            if not isinstance(d, str) and name in self.fields[d]:
                return self.fields[d][name]
        return None

    def method_from(self, classes, faces, name):
        for d in classes:
            table = BUILTIN[d] if isinstance(d, str) else self.methods[d]
            if name in table:
                return table[name]
        for f in faces:
            if name in BUILTIN[f]:
                return BUILTIN[f][name]
        return None

    def method_of(self, c, name):
        return self.method_from(self.chain(c), self.all_faces(c), name)

    def method_above(self, c, name):
        return self.method_from(self.chain(c)[1:], self.all_faces(c), name)

    def row_of(self, c, name):
        """The framework's row of the name for a class."""
        return self.method_from([d for d in self.chain(c) if isinstance(d, str)], self.all_faces(c), name)

    def cls(self, name):
        return name if name in FRAMEWORK else self.byname.get(name)

    def narrower(self, c, m, over):
        row = self.row_of(c, m.name)
        if row is None or m.name not in ("getSequencer", "getNextMission"):
            return False
        kind = "MissionSequencer" if m.name == "getSequencer" else "Mission"
        r = self.cls(m.result)
        return r is not None and not isinstance(r, str) and kind in self.chain(r) and self.known(over) and self.is_sub(r, self.cls(over))

    def fits_row(self, c, m, row):
        """The types of a method are those of the one above."""
        if m.params != row.params:
            return False
        return m.result == row.result or (not m.builtin and self.narrower(c, m, row.result))

    def inherited_as(self, m):
        """Some class inherits the method as one of Safelet's or Runnable's: those interfaces."""
        out = set()
        for c in self.users:
            for f in self.all_faces(c):
                if m.name in BUILTIN[f] and self.method_of(c, m.name) is m:
                    out.add(f)
        return out

    def class_rules(self, c):
        say, fl = self.say, c.flags
        if fl.runs or fl.static or fl.sync:
            say("C11", c.pos)
        fields, methods, instance = set(), set(), 0
        for s in ([c.above] if c.above else []) + c.faces:
            if s.arg:
                self.arg(s.arg)
        for m in c.members:
            mf = m.flags
            if m.kind == "field":
                if m.name in fields or any(not isinstance(d, str) and m.name in self.fields[d] for d in self.chain(c)[1:]):
                    say("C4", m.pos)
                fields.add(m.name)
                if mf.define or mf.runs or mf.abstract or mf.sync:
                    say("C11", m.pos)
                self.declared(m.type)
                continue
            if m.name in methods:
                say("C5", m.pos)
            methods.add(m.name)
            if len(m.params) > 8:
                for p in m.params[8:]:
                    say("K3", p.pos)
            for p in m.params:
                self.declared(p.type)
                if p.flags.define or p.flags.runs or p.flags.static or p.flags.abstract or p.flags.sync:
                    say("C11", p.pos)
            locals_ = list(m.params)
            if m.body:
                self.body_names(m.body, locals_)
            if m.kind == "ctor" and m.sup:
                for a in m.sup.args:
                    self.body_names(a, locals_)
            for p in locals_[32:]:
                say("K2", p.pos)
            if m.kind == "ctor":
                if m.name != c.name or mf.define or mf.runs or mf.scope or mf.static or mf.abstract or mf.sync:
                    say("C11", m.pos)
                continue
            self.declared(m.type)
            if mf.define or (mf.abstract and mf.static):
                say("C11", m.pos)
            own = Method(c, m) if self.methods[c].get(m.name) is None or self.methods[c][m.name].node is not m else self.methods[c][m.name]
            if mf.sync and (mf.static or mf.abstract or self.row_of(c, m.name) is not None or self.inherited_as(own)):
                say("C11", m.pos)
            over = self.method_above(c, m.name)
            if over is not None and (own.static != over.static or not over.over or not self.fits_row(c, own, over)):
                say("C6", m.pos)
            if mf.abstract != (m.body is None):
                say("C7", m.pos)
        for d in self.chain(c):
            if not isinstance(d, str):
                instance += sum(1 for m in d.members if m.kind == "field" and not m.flags.static)
        if instance > 64:
            say("K4", c.pos)
        if not fl.abstract:
            self.left_open(c)

    def left_open(self, c):
        names = {}
        for d in self.chain(c):
            for n, m in (BUILTIN[d] if isinstance(d, str) else self.methods[d]).items():
                if m.abstract:
                    names.setdefault(n, []).append(m)
        for f in self.all_faces(c):
            for n, m in BUILTIN[f].items():
                names.setdefault(n, []).append(m)
        for n, ms in names.items():
            got = self.method_of(c, n)
            if got.abstract:
                self.say("C7", c.pos)
            for m in ms:
                if m.builtin and (got.static or not self.fits_row(c, got, m)):
                    self.say("C7", c.pos)

    def arg(self, a):
        c = self.cls(a.name)
        if c is None or not any(d == "Mission" for d in ([c] if isinstance(c, str) else self.written_chain(c))):
            self.say("C9", a.pos)

    def declared(self, t):
        if t.name in ("int", "boolean", "void", "long"):
            return
        if t.name not in FIRST_SEVEN and t.name not in self.byname:
            self.say("C9", t.pos)
        if t.arg:
            self.arg(t.arg)

    def body_names(self, n, locals_):
        if n.kind == "local":
            locals_.append(n)
            self.declared(n.type)
            if n.flags.define or n.flags.runs:
                self.say("C11", n.pos)
        if n.kind in ("new", "cast", "newarray") and n.name not in ("int", "boolean") and not self.known(n.name):
            self.say("C9", n.npos)
        for k in parts(n):
            self.body_names(k, locals_)

    # ---- types

    def types(self):
        for c in self.users:
            ctors = [m for m in c.members if m.kind == "ctor"]
            ctor = ctors[0] if ctors else None
            self.construct(c, ctor)
            for m in c.members:
                if m.kind == "field":
                    if m.value is not None and not self.assignable(self.literal(m.value), spell(m.type)):
                        self.say("T7", m.eq)
                else:
                    Body(self, c, m).types()

    def literal(self, v):
        return {"num": "int", "bool": "boolean", "null": "null"}[v.kind]

    def ctor_params(self, c):
        if isinstance(c, str):
            return []
        for m in c.members:
            if m.kind == "ctor":
                return m.params
        return []

    def construct(self, c, ctor):
        above = self.above(c)
        if above in HAVE_FORM:
            if ctor is None or ctor.sup is None or not self.is_form(above, ctor.sup.args):
                self.say("T14", c.pos)
        elif (ctor is None or ctor.sup is None) and self.ctor_params(above):
            self.say("T6", c.pos)
        if not c.flags.abstract and "Safelet" in self.all_faces(c) and ctor is not None and ctor.params:
            self.say("T6", c.pos)

    def is_form(self, above, args):
        def new(n, name, count):
            return n.kind == "new" and n.name == name and len(n.args) == count
        want = {"PeriodicEventHandler": 3, "AperiodicEventHandler": 3, "MissionSequencer": 2}[above]
        if len(args) != want or not new(args[0], "PriorityParameters", 1) or not new(args[-1], "StorageParameters", 1):
            return False
        if above == "AperiodicEventHandler":
            ok = new(args[1], "AperiodicParameters", 0)
        elif above == "PeriodicEventHandler":
            ok = new(args[1], "PeriodicParameters", 2) and all(new(a, "RelativeTime", 2) for a in args[1].args)
        else:
            ok = True
        return ok

    def assignable(self, s, t):
        if s is None or t is None:
            return False
        if s == t:
            return s not in ("void",)
        if s in ("int", "boolean", "void", "label", "long") or t in ("int", "boolean", "void", "label", "long"):
            return False
        if s == "null":
            return True
        if s.endswith("[]") or t.endswith("[]"):
            return False
        return t == "Object" or self.is_sub(self.cls(s), self.cls(t))

    # ---- scopes of the tree

    def scopes(self):
        say = self.say
        reserved = ("IMMORTAL", "CALLER", "THIS", "UNKNOWN")
        defs = [(c, c.flags.define[0], c.flags.define[1]) for c in self.users if c.flags.define]
        self.defines = {}
        for c, name, parent in defs:
            if name.name in reserved or name.name in self.defines:
                say("S1", name.pos)
            else:
                self.defines[name.name] = (c, parent.name)
        for c, name, parent in defs:
            if parent.name != "IMMORTAL" and parent.name not in self.defines:
                say("S2", parent.pos)
            if name.name in self.defines and self.defines[name.name][0] is c:
                at, k = parent.name, 0
                while at in self.defines and at != name.name and k <= len(defs):
                    at, k = self.defines[at][1], k + 1
                if at == name.name:
                    say("S3", parent.pos)
        for c, name, parent in defs:
            ch = self.chain(c)
            mission, hand = "Mission" in ch, "PeriodicEventHandler" in ch or "AperiodicEventHandler" in ch
            runnable = self.is_sub(c, "Runnable")
            if not (mission or hand or runnable) or any(not isinstance(d, str) and d.flags.define for d in ch[1:]):
                say("S4", name.pos)
            if parent.name == "IMMORTAL" or parent.name in self.defines:
                bad = False
                if mission:
                    bad = parent.name != "IMMORTAL"
                elif hand:
                    own = next((d.flags.scope.name for d in ch if not isinstance(d, str) and d.flags.scope), None)
                    up = self.defines.get(parent.name)
                    bad = up is None or "Mission" not in self.chain(up[0]) or own != parent.name
                elif runnable:
                    bad = parent.name == "IMMORTAL"
                if bad:
                    say("S5", parent.pos)
        for c in self.users:
            ch = self.chain(c)
            if not c.flags.abstract and ("Mission" in ch or "PeriodicEventHandler" in ch or "AperiodicEventHandler" in ch):
                if not any(not isinstance(d, str) and d.flags.define for d in ch):
                    say("S6", c.pos)

    # ---- annotations. A scope is a name, "THIS", "CALLER", "any", UNKNOWN or LOST, which no name is; None is a missing
    # one

    def named(self, n):
        return n if n == "IMMORTAL" or n in self.defines else None

    def outer(self, a, b):
        if a == "IMMORTAL":
            return True
        while b in self.defines:
            if a == b:
                return True
            b = self.defines[b][1]
        return False

    def chain_scope(self, c):
        for d in self.chain(c):
            if not isinstance(d, str) and d.flags.define:
                return d.flags.define[0].name
        return None

    def class_scope(self, c):
        """Whether the class is right, and its scope: None for an unannotated one."""
        if isinstance(c, str):
            return True, None
        if c in self.class_scopes:
            return self.class_scopes[c]
        fine, above = self.class_scope(self.above(c))
        implied = "Mission" in self.chain(c) or "MissionSequencer" in self.chain(c) or "Safelet" in self.all_faces(c)
        w = c.flags.scope
        answer = None
        if w is not None and self.named(w.name) is None:
            self.say("A1", w.pos)
            answer = (False, None)
        if w is not None:
            if (fine and above is not None and w.name != above) or (implied and w.name != "IMMORTAL"):
                self.say("A2", w.pos)
                answer = (False, None)
        elif implied and fine and above is not None and above != "IMMORTAL":
            self.say("A2", c.pos)
            answer = (False, None)
        if answer is None:
            if w is not None:
                answer = (True, w.name)
            elif not fine:
                answer = (False, None)
            elif above is not None:
                answer = (True, above)
            else:
                answer = (True, "IMMORTAL" if implied else None)
        self.class_scopes[c] = answer
        return answer

    def this(self, c):
        fine, s = self.class_scope(c)
        return None if not fine else (s or "THIS")

    def written(self, c, current, name):
        if name == "THIS":
            return self.this(c)
        if name == "CALLER":
            return current
        return self.named(name)

    def meant(self, c, current, name):
        return UNKNOWN if name == "UNKNOWN" else self.written(c, current, name)

    def fixed(self, c, name):
        row = self.row_of(c, name)
        if row is None:
            return None
        if row.on == "Safelet" or name in ("getNextMission", "missionMemorySize"):
            return "IMMORTAL"
        if name in ("initialize", "cleanUp", "handleAsyncEvent"):
            return self.chain_scope(c) or "CALLER"
        if name == "run":
            return self.chain_scope(c)
        return "CALLER"

    def runs_in(self, m):
        """The RunsIn of a user's method, in normal form; says A7 and A8."""
        if m in self.runs:
            return self.runs[m]
        c, w = m.on, m.node.flags.runs
        fixed = self.fixed(c, m.name)
        bad = False
        if w is not None:
            known = w.name == "CALLER" if m.static else (w.name in ("THIS", "CALLER") or self.named(w.name) is not None)
            if not known:
                self.say("A7", w.pos)
                bad = True
            really = w.name in ("THIS", "CALLER") or self.named(w.name) is not None
            if fixed is not None:
                mean = self.written(c, "CALLER", w.name)
                if not really or (mean is not None and mean != fixed):
                    self.say("A8", w.pos)
                    bad = True
            if self.named(w.name) not in (None, "IMMORTAL") and "Safelet" in self.inherited_as(m):
                self.say("A8", w.pos)
                bad = True
        if bad:
            got = None
        elif m.static:
            got = "CALLER"
        elif fixed is not None:
            got = fixed
        elif w is not None:
            got = self.written(c, "CALLER", w.name)
        else:
            fine, s = self.class_scope(c)
            got = None if not fine else (s or "CALLER")
        self.runs[m] = got
        return got

    def method(self, node):
        m = self.methods[node.on].get(node.name)
        return m

    def current(self, member):
        return self.this(member.on) if member.kind == "ctor" else self.runs_in(self.method(member))

    def thing(self, c, node, type_, current, default, kind, is_static):
        """The scope of a declared thing; says A1, A9 and for fields A3 to A5."""
        if node in self.things:
            return self.things[node]
        w = node.flags.scope
        name = spell(type_)
        bad = False
        fine, s = (True, None)
        prim = name in ("int", "boolean", "void", "long")
        if not prim and not name.endswith("[]"):
            fine, s = self.class_scope(self.cls(name))
        if w is not None:
            unknown = False
            if w.name == "THIS":
                unknown = is_static and self.class_scope(c) == (True, None)
            elif w.name == "CALLER":
                unknown = kind == "field"
            elif w.name == "UNKNOWN":
                unknown = kind != "variable"
            else:
                unknown = self.named(w.name) is None
            if unknown:
                self.say("A1", w.pos)
                bad = True
            if prim:
                self.say("A9", w.pos)
                bad = True
            elif fine and s is not None:
                mean = self.meant(c, current, w.name)
                if unknown or (mean is not None and mean != s):
                    self.say("A9", w.pos)
                    bad = True
        if bad or not fine or prim:
            got = None
        elif s is not None:
            got = s
        elif w is not None:
            got = self.meant(c, current, w.name)
        else:
            got = default
        if kind == "field" and not bad and not prim and got is not None:
            cf, cs = self.class_scope(c)
            if is_static:
                if got != "IMMORTAL":
                    self.say("A5", node.pos)
                    got = None
            elif cf and cs is not None:
                if not self.outer(got, cs):
                    self.say("A3", node.pos)
                    got = None
            elif cf and got not in ("THIS", "IMMORTAL"):
                self.say("A4", node.pos)
                got = None
        self.things[node] = got
        return got

    def field_scope(self, f):
        st = f.flags.static
        return self.thing(f.on, f, f.type, None, "IMMORTAL" if st else self.this(f.on), "field", st)

    def param_scope(self, member, p):
        cur = self.current(member)
        return self.thing(member.on, p, p.type, cur, cur, "variable", member.flags.static)

    def result_scope(self, m):
        cur = self.runs_in(m)
        return self.thing(m.on, m.node, m.node.type, cur, cur, "result", m.static)

    def uses(self):
        self.class_scopes, self.runs, self.things = {}, {}, {}
        for c in self.users:
            self.class_scope(c)
        for c in self.users:
            for m in c.members:
                if m.kind == "field":
                    self.field_scope(m)
                else:
                    if m.kind == "method":
                        self.runs_in(self.method(m))
                        self.result_scope(self.method(m))
                        self.override(c, self.method(m))
                    for p in m.params:
                        self.param_scope(m, p)
                    Body(self, c, m).scopes()

    def override(self, c, m):
        over = self.method_above(c, m.name)
        if m.static or over is None or over.builtin:
            return
        here = self.this(c)

        def differ(a, b):
            b = here if b == "THIS" else b
            return a is not None and b is not None and a != b
        bad = differ(self.runs_in(m), self.runs_in(over)) or differ(self.result_scope(m), self.result_scope(over))
        for p, q in zip(m.node.params, over.node.params):
            bad = bad or differ(self.param_scope(m.node, p), self.param_scope(over.node, q))
        if bad:
            self.say("A6", m.node.pos)


def parts(n):
    k = n.kind
    if k == "block":
        return n.items
    if k == "local":
        return [n.value] if n.value else []
    if k == "assign":
        return [n.target, n.value]
    if k == "if":
        return [n.c, n.a] + ([n.b] if n.b else [])
    if k == "while":
        return [n.c, n.a]
    if k == "for":
        return [n.f, n.c, n.u, n.a]
    if k == "return":
        return [n.value] if n.value else []
    if k in ("exprstmt", "paren", "unary", "cast"):
        return [n.e]
    if k == "binary":
        return [n.l, n.r]
    if k == "access":
        return [n.obj]
    if k == "call":
        return ([n.obj] if n.obj else []) + n.args
    if k in ("new", "supercall"):
        return n.args
    if k == "newarray":
        return [n.size]
    if k == "element":
        return [n.arr, n.ix]
    return []


def below(n):
    """A node and all under it."""
    return [n] + [y for x in parts(n) for y in below(x)]


def returns(s):
    if s.kind == "return":
        return True
    if s.kind == "block":
        return any(returns(i) for i in s.items)
    if s.kind == "if":
        return s.b is not None and returns(s.a) and returns(s.b)
    return s.kind == "while" and s.c.kind == "bool" and s.c.truth


class Body:
    """The types, then the scopes, of one method or constructor."""

    def __init__(self, checker, c, member):
        self.p, self.c, self.m = checker, c, member
        self.known, self.in_super = [], False
        self.scoped = False
        self.meanings = {}

    def say(self, rule, pos):
        if not self.scoped:
            self.p.say(rule, pos)

    def types(self):
        m = self.m
        for v in m.params:
            self.declare(v)
        if m.kind == "ctor" and m.sup:
            self.in_super = True
            self.super_types(m.sup)
            self.in_super = False
        if m.body:
            self.stmt(m.body)
        if m.kind == "method":
            r = spell(m.type)
            if m.body and r != "void" and not returns(m.body):
                self.say("T10", m.pos)
            if r == "long":
                row = self.p.row_of(self.c, m.name)
                b = m.body
                fine = b is None or (len(b.items) == 1 and b.items[0].kind == "return" and b.items[0].value is not None and b.items[0].value.kind == "num" and not b.items[0].value.neg and b.items[0].value.value < 2 ** 31)
                if row is None or row.result != "long" or not fine:
                    self.say("T14", m.pos)

    def super_types(self, sup):
        above = self.p.above(self.c)
        if above in HAVE_FORM:
            if self.p.is_form(above, sup.args):
                self.form(sup.args)
            else:
                for a in sup.args:
                    self.t(a)
            return
        ts = [self.t(a) for a in sup.args]
        self.arguments([spell(q.type) for q in self.p.ctor_params(above)], ts, sup.pos)

    def form(self, args):
        for a in args:
            if a.kind == "new" and a.name in FORMS:
                if a.args and a.args[0].kind == "new" and a.args[0].name in FORMS:
                    self.form(a.args)
                else:
                    ts = [self.t(x) for x in a.args]
                    if None not in ts and any(t != "int" for t in ts):
                        self.say("T6", a.pos)

    def arguments(self, params, ts, pos):
        if any(t is None for t in ts):
            return False
        if len(ts) != len(params) or not all(self.p.assignable(t, q) for t, q in zip(ts, params)):
            self.say("T6", pos)
            return False
        return True

    def declare(self, v):
        if any(w.name == v.name for w in self.known):
            self.say("T2", v.pos)
        self.known.append(v)

    def lookup(self, name):
        for v in reversed(self.known):
            if v.name == name:
                return v
        return None

    def has_object(self):
        return not self.in_super and not self.m.flags.static

    def sub(self, s):
        mark = len(self.known)
        self.stmt(s)
        del self.known[mark:]

    def condition(self, c):
        t = self.t(c)
        if t is not None and t != "boolean":
            self.say("T8", c.pos)

    def stmt(self, s):
        k = s.kind
        if k == "block":
            mark = len(self.known)
            for i in s.items:
                self.stmt(i)
            del self.known[mark:]
        elif k == "local":
            want = spell(s.type)
            if s.value is not None:
                t = self.t(s.value)
                if t is not None and not self.p.assignable(t, want):
                    self.say("T7", s.eq)
            self.declare(s)
        elif k == "assign":
            a, b = self.t(s.target), self.t(s.value)
            if a is not None and b is not None:
                is_length = s.target.kind == "access" and s.target.name == "length" and self.meanings.get(s.target) == "length"
                if is_length or not self.p.assignable(b, a):
                    self.say("T7", s.pos)
        elif k == "if":
            self.condition(s.c)
            self.sub(s.a)
            if s.b:
                self.sub(s.b)
        elif k == "while":
            self.condition(s.c)
            self.sub(s.a)
        elif k == "for":
            mark = len(self.known)
            self.stmt(s.f)
            self.condition(s.c)
            self.stmt(s.u)
            self.sub(s.a)
            del self.known[mark:]
        elif k == "return":
            r = spell(self.m.type) if self.m.kind == "method" else "void"
            if s.value is None:
                if r != "void":
                    self.say("T9", s.pos)
            else:
                t = self.t(s.value)
                if t is not None and not (t == "int" if r == "long" else (r != "void" and self.p.assignable(t, r))):
                    self.say("T9", s.pos)
        elif k == "exprstmt":
            self.t(s.e)

    def t(self, n):
        t = self.type_of(n)
        n.type_ = t
        return t

    def receiver(self, o):
        """What stands before a dot: ('class', C), ('value', type), or None where it is ill-typed."""
        if o.kind == "name" and self.lookup(o.name) is None and self.p.field_of(self.c, o.name) is None and self.p.known(o.name):
            return ("class", self.p.cls(o.name))
        t = self.t(o)
        return None if t is None else ("value", t)

    def type_of(self, n):
        p, k = self.p, n.kind
        if k == "num":
            return "int"
        if k == "bool":
            return "boolean"
        if k == "null":
            return "null"
        if k == "text":
            return "label"
        if k == "this":
            if not self.has_object():
                self.say("T13", n.pos)
                return None
            return self.c.name
        if k == "paren":
            return self.t(n.e)
        if k == "name":
            v = self.lookup(n.name)
            if v is not None:
                self.meanings[n] = v
                return spell(v.type)
            f = p.field_of(self.c, n.name)
            if f is None:
                self.say("T1", n.pos)
                return None
            self.meanings[n] = f
            if not f.flags.static and not self.has_object():
                self.say("T13", n.pos)
                return None
            return spell(f.type)
        if k == "binary":
            a, b = self.t(n.l), self.t(n.r)
            if a is None or b is None:
                return None
            got = self.binary(n.op, a, b)
            if got is None:
                self.say("T3", n.pos)
            return got
        if k == "unary":
            a = self.t(n.e)
            if a is None:
                return None
            want = "boolean" if n.op == "!" else "int"
            if a != want:
                self.say("T3", n.pos)
                return None
            return want
        if k == "cast":
            a = self.t(n.e)
            if a is None:
                return None
            if a in ("int", "boolean", "void", "label") or not (p.assignable(a, n.name) or p.assignable(n.name, a)):
                self.say("T12", n.pos)
                return None
            return n.name
        if k == "element":
            a, i = self.t(n.arr), self.t(n.ix)
            if a is None or i is None:
                return None
            if not a.endswith("[]") or i != "int":
                self.say("T3", n.pos)
                return None
            return a[:-2]
        if k == "newarray":
            fine = True
            if n.name in FORMS:
                self.say("T14", n.pos)
                fine = False
            s = self.t(n.size)
            if s is None:
                return None
            if s != "int":
                self.say("T3", n.pos)
                fine = False
            return n.name + "[]" if fine else None
        if k == "new":
            return self.new(n)
        if k == "access":
            return self.access(n)
        return self.call(n)

    def binary(self, op, a, b):
        if op in ("+", "-", "*", "/", "%", "&", "|", "^", "<<", ">>", ">>>"):
            return "int" if a == b == "int" else None
        if op in ("<", ">", "<=", ">="):
            return "boolean" if a == b == "int" else None
        if op in ("&&", "||"):
            return "boolean" if a == b == "boolean" else None
        if a == b and a in ("int", "boolean"):
            return "boolean"
        bad = ("int", "boolean", "void", "label")
        if a in bad or b in bad:
            return None
        return "boolean" if self.p.assignable(a, b) or self.p.assignable(b, a) else None

    def new(self, n):
        p, fine = self.p, True
        if n.name in FORMS:
            self.say("T14", n.pos)
            fine = False
        ts = [self.t(a) for a in n.args]
        if any(t is None for t in ts):
            return None
        if n.name in INTERFACES + ABSTRACT + STATIC:
            self.say("T11", n.pos)
            return None
        if n.name in FORMS:
            return None
        c = p.cls(n.name)
        if not self.arguments([spell(q.type) for q in p.ctor_params(c)], ts, n.pos):
            fine = False
        if not isinstance(c, str) and c.flags.abstract:
            self.say("T11", n.pos)
            fine = False
        return n.name if fine else None

    def access(self, n):
        p = self.p
        r = self.receiver(n.obj)
        n.recv = r
        if r is None:
            return None
        if r[0] == "value":
            t = r[1]
            if t in ("int", "boolean", "void", "label"):
                self.say("T3", n.pos)
                return None
            if t.endswith("[]") and n.name == "length":
                self.meanings[n] = "length"
                return "int"
            f = None if t == "null" or t.endswith("[]") else p.field_of(p.cls(t), n.name)
            if f is None or f.flags.static:
                self.say("T4", n.pos)
                return None
        else:
            f = p.field_of(r[1], n.name)
            if f is None:
                self.say("T4", n.pos)
                return None
            if not f.flags.static:
                self.say("T13", n.pos)
                return None
        self.meanings[n] = f
        return spell(f.type)

    def size_method(self, m):
        return not m.builtin and m.result == "long" and self.p.row_of(m.on, m.name) is not None and self.p.row_of(m.on, m.name).result == "long"

    def call(self, n):
        p = self.p
        r = ("own", self.c.name) if n.obj is None else self.receiver(n.obj)
        n.recv = r
        ts = [self.t(a) for a in n.args]
        if r is None or any(t is None for t in ts):
            return None
        if r[0] == "value":
            t = r[1]
            if t in ("int", "boolean", "void", "label"):
                self.say("T3", n.pos)
                return None
            m = None if t == "null" or t.endswith("[]") else p.method_of(p.cls(t), n.name)
        elif r[0] == "own":
            m = p.method_of(self.c, n.name)
        else:
            m = p.method_of(r[1], n.name)
        if m is None or not m.callable or self.size_method(m) or (r[0] == "value" and m.static):
            self.say("T5", n.pos)
            return None
        fine = self.arguments(m.params, ts, n.pos)
        if not m.static and (r[0] == "class" or (r[0] == "own" and not self.has_object())):
            self.say("T13", n.pos)
            fine = False
        self.meanings[n] = m
        if not fine or m.result == "long":
            return None
        return m.result

    # ---- scopes of expressions, and E1 to E10

    def scopes(self):
        self.scoped = True
        self.guards = []
        self.types()
        m = self.m
        self.cur = self.p.current(m)
        self.here = self.p.this(self.c)
        self.locals(m.body)
        if m.kind == "ctor" and m.sup:
            above = self.p.above(self.c)
            if above not in HAVE_FORM:
                ss = [self.s(a) for a in m.sup.args]
                self.ctor_arguments(above, self.here, m.sup.args, ss)
            else:
                for a in m.sup.args:
                    for x in parts(a):
                        for y in (parts(x) if x.kind == "new" and x.name in FORMS else [x]):
                            self.s(y)
        if m.body:
            self.walk(m.body)

    def locals(self, n):
        if n is None:
            return
        if n.kind == "local":
            self.local(n)
        for k in parts(n):
            self.locals(k)

    def local(self, n):
        return self.p.thing(self.c, n, n.type, self.cur, self.cur, "variable", self.m.flags.static)

    def walk(self, s):
        k = s.kind
        if k == "if":
            self.s(s.c)
            guard = self.guard(s)
            self.guards.append(guard)
            self.walk(s.a)
            self.guards.pop()
            if s.b:
                self.walk(s.b)
        elif k in ("block", "while", "for"):
            for i in parts(s):
                if i.kind in ("block", "if", "while", "for", "return", "local", "assign", "exprstmt", "empty"):
                    self.walk(i)
                else:
                    self.s(i)
        elif k == "local":
            if s.value is not None:
                self.fit(self.s(s.value), self.local(s), "E4", s.eq)
        elif k == "assign":
            a, b = self.s(s.target), self.s(s.value)
            is_local = s.target.kind == "name" and self.meanings[s.target].kind in ("local", "param")
            if is_local or not self.guarded(s.target, s.value):
                self.fit(b, a, "E4" if is_local else "E5", s.pos)
        elif k == "return":
            if s.value is not None:
                v = self.s(s.value)
                if self.m.kind == "method":
                    self.fit(v, self.p.result_scope(self.p.method(self.m)), "E6", s.pos)
        elif k == "exprstmt":
            self.s(s.e)

    # ---- guards

    def operand(self, n):
        """The local, the parameter or `this` that an expression is; None where it is another one."""
        if n.kind == "this":
            return "this"
        v = self.meanings[n] if n.kind == "name" else None
        return v if v is not None and not isinstance(v, str) and v.kind in ("local", "param") else None

    def asks(self, s):
        """The two operands of which an `if` asks whether they lie in one area; None where it doesn't."""
        if s.c.kind != "call" or self.meanings.get(s.c) is not BUILTIN["ManagedMemory"]["allocInSame"]:
            return None
        a, b = [self.operand(x) for x in s.c.args]
        return None if a is None or b is None else (a, b)

    def guard(self, s):
        """The two operands of a guard; None where the `if` is none."""
        asked = self.asks(s)
        assigned = [self.operand(x.target) for x in below(s.a) if x.kind == "assign"]
        return None if asked is None or any(operand in assigned for operand in asked) else asked

    def guarded(self, target, value):
        if target.kind == "name":
            f, x = self.meanings[target], "this"
        elif target.kind == "access":
            f, x = self.meanings[target], self.operand(target.obj) if target.recv[0] == "value" else None
        else:
            return False
        if f == "length" or f.flags.static or (f.flags.scope is not None and f.flags.scope.name != "THIS"):
            return False
        y = self.operand(value)
        return x is not None and y is not None and ((x, y) in self.guards or (y, x) in self.guards)

    def fit(self, s, t, rule, pos):
        fits = s == "any" or t in ("any", UNKNOWN) or (s == t and t != LOST)
        if s is not None and t is not None and not fits:
            self.p.say(rule, pos)

    def beside(self, s):
        return LOST if s == UNKNOWN else s

    def subst(self, s, object_, current):
        object_ = self.beside(object_)
        return object_ if s == "THIS" else current if s == "CALLER" else s

    def ctor_arguments(self, c, object_, args, ss):
        if isinstance(c, str):
            return
        ctor = next((m for m in c.members if m.kind == "ctor"), None)
        if ctor is None:
            return
        for q, a, s in zip(ctor.params, args, ss):
            self.fit(s, self.subst(self.p.param_scope(ctor, q), object_, object_), "E3", a.pos)

    def s(self, n):
        p, k = self.p, n.kind
        if k == "this":
            return self.here
        if k == "null":
            return "any"
        if k == "paren":
            return self.s(n.e)
        if k == "name":
            v = self.meanings[n]
            if v.kind == "field":
                return self.subst(p.field_scope(v), self.here, None)
            if v.kind == "param":
                return p.param_scope(self.m, v)
            return self.local(v)
        if k in ("binary", "unary"):
            for x in parts(n):
                self.s(x)
            return None
        if k == "element":
            a = self.s(n.arr)
            self.s(n.ix)
            e = n.arr.type_[:-2]
            if e in ("int", "boolean"):
                return None
            fine, s = p.class_scope(p.cls(e))
            return None if not fine else (s or self.beside(a))
        if k == "newarray":
            self.s(n.size)
            if n.name not in ("int", "boolean"):
                fine, s = p.class_scope(p.cls(n.name))
                if fine and s is not None and self.cur is not None:
                    if self.cur in ("THIS", "CALLER") or not p.outer(s, self.cur):
                        p.say("E10", n.pos)
            return self.cur
        if k == "cast":
            v = self.s(n.e)
            fine, s = p.class_scope(p.cls(n.name))
            if not fine:
                return None
            if s is not None:
                self.fit(v, s, "E9", n.pos)
                return s
            return v
        if k == "new":
            ss = [self.s(a) for a in n.args]
            c = p.cls(n.name)
            fine, s = p.class_scope(c)
            if fine and s is not None and self.cur is not None and self.cur != s:
                p.say("E1", n.pos)
            own = None if not fine else (s or self.cur)
            self.ctor_arguments(c, own, n.args, ss)
            return own
        if k == "access":
            o = self.s(n.obj) if n.recv[0] == "value" else None
            f = self.meanings[n]
            if f == "length":
                return None
            return self.subst(p.field_scope(f), o, None)
        if k == "call":
            return self.s_call(n)
        return None

    def s_call(self, n):
        p = self.p
        o = self.here if n.recv[0] == "own" else self.s(n.obj) if n.recv[0] == "value" else None
        ss = [self.s(a) for a in n.args]
        m = self.meanings[n]
        if m.builtin:
            if m.name == "enterPrivateMemory":
                self.enter(n, n.args[1].type_)
            elif m.name == "executeInAreaOf":
                self.execute(n, ss[0], n.args[1].type_)
            return self.cur if m.result not in ("int", "boolean", "void") else None
        r = p.runs_in(m)
        if r is not None and r != "CALLER":
            if r == "THIS":
                if o is not None and self.cur is not None and o != self.cur and "any" not in (o, self.cur):
                    p.say("E2", n.pos)
            elif self.cur is not None and self.cur != r:
                p.say("E2", n.pos)
        for q, a, s in zip(m.node.params, n.args, ss):
            self.fit(s, self.subst(p.param_scope(m.node, q), o, self.cur), "E3", a.pos)
        return self.subst(p.result_scope(m), o, self.cur)

    def run_of(self, t):
        c = None if t == "null" else self.p.cls(t)
        m = None if c is None else self.p.method_of(c, "run")
        return None if m is None or m.builtin else m

    def enter(self, n, t):
        p = self.p
        c = None if t == "null" else p.cls(t)
        scope = None if c is None or isinstance(c, str) else p.chain_scope(c)
        bad = scope is None
        if not bad:
            bad = self.cur is not None and self.cur != p.defines[scope][1]
            m = self.run_of(t)
            if m is not None:
                r = p.runs_in(m)
                bad = bad or (r is not None and r != "CALLER" and r != scope)
        if bad:
            p.say("E7", n.pos)

    def execute(self, n, area, t):
        m = self.run_of(t)
        bad = m is None
        if not bad and area is not None:
            r = self.p.runs_in(m)
            bad = area in ("any", "THIS", "CALLER", UNKNOWN, LOST) or (r is not None and r != area)
        if bad:
            self.p.say("E8", n.pos)


def lines(names, texts):
    """The report's lines, or `accepted`."""
    found = Checker(texts).report()
    if not found:
        return ["accepted"]
    return ["%s:%d:%d: %s" % (names[pos[0]], pos[1], pos[2], TEXT[RULES[rule]]) for pos, rule in found] + ["refused %d" % len(found)]


def main():
    texts = [open(name).read() for name in sys.argv[1:]]
    print("\n".join(lines(sys.argv[1:], texts)))


if __name__ == "__main__":
    main()
