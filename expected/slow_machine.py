#!/usr/bin/env python3
"""The trace of an accepted program on a plan, by a machine that goes from unit to unit and looks at everything anew.

    slow_machine.py PLAN FILE..    prints the trace; status 3 where the run halts, and 1 where the files aren't accepted

It was written from docs/MACHINE.md, docs/PLAN.md and docs/LANGUAGE.md, and apart from the definitions of
crates/scj_model and from every crate that runs programs. It rests on two of the files beside it: on `trees.py`, which
reads sources that are in the grammar, and on `slow_rules.py`, which tells whether they are accepted and which
variable, field or method a name means. A plan is read by Python's own tomllib, and only plans that docs/PLAN.md lets
pass are meant.

Where the pages don't say it, these readings are taken. An operator on two operands, an access, a call, an element and
an assignment stand at their operator, name, `[` and `=`, all other nodes at their first lexeme. Dropped releases are
told in the order in which they arrived. The constructor of `Object` is one LEAVE. Start and period are no ints, and
don't lose bits. While `getNextMission` runs no mission is the current one, so requestTermination does nothing.
"""
import collections
import pathlib
import sys
import tomllib

import slow_rules
import trees

FRAMES = 64
HANDLERS = 64
WAITING = 64
PRIORITIES = range(1, 29)
FORM_CLASSES = slow_rules.FORMS

Operation = collections.namedtuple("Operation", "word place about", defaults=(None,))


class Fault(Exception):
    """A fault of a run. Its place is that of the operation, unless another one is named."""

    def __init__(self, name):
        self.name = name


class Refused(Exception):
    """The sources aren't accepted."""


class Area:
    """A memory area: its scope, its bytes, and how many of them are in use."""

    def __init__(self, scope, size):
        self.scope, self.size, self.used, self.is_open = scope, size, 0, True

    def reserved(self):
        return (self.size + 7) // 8 * 8


class Thing:
    """An object or an array. `slots` maps the declaration of a field, or an index, to its value."""

    def __init__(self, kind, area, slots, length=0):
        self.kind, self.area, self.slots, self.length = kind, area, slots, length
        self.ceiling = 28
        self.priority, self.storage, self.start, self.period = 1, 0, 0, 1


class Frame:
    """A call under way. `saved` is a priority that leaving gives back, `opened` an area that leaving closes."""

    def __init__(self, rest, this, area, local_values=None, opened=None):
        self.rest, self.this, self.area, self.opened = list(rest), this, area, opened
        self.locals = dict(local_values or {})
        self.operands, self.saved = [], None


class Job:
    """The sequencer or a release: its frames, its areas and its active priority."""

    def __init__(self, priority):
        self.frames, self.areas, self.priority = [], [], priority


class Release(Job):
    def __init__(self, handler, number):
        super().__init__(handler.priority)
        self.handler, self.number, self.is_started = handler, number, False


class Handler:
    """A registered handler, with what its form said when it was registered."""

    def __init__(self, thing, number):
        self.thing, self.number, self.releases = thing, number, 0
        self.priority = thing.priority


# ---- numbers


def wrapped(number):
    """The value of Java's int that has the number's lowest 32 bits."""
    return (number + 2**31) % 2**32 - 2**31


def divided(left, right):
    """The quotient without its fraction, before it is wrapped."""
    quotient = abs(left) // abs(right)
    return quotient if (left < 0) == (right < 0) else -quotient


def same(left, right):
    if isinstance(left, Thing) or isinstance(right, Thing):
        return left is right
    return left == right


BINARY = {
    "+": lambda l, r: wrapped(l + r),
    "-": lambda l, r: wrapped(l - r),
    "*": lambda l, r: wrapped(l * r),
    "/": lambda l, r: wrapped(divided(l, r)),
    "%": lambda l, r: wrapped(l - r * divided(l, r)),
    "&": lambda l, r: wrapped(l & r),
    "|": lambda l, r: wrapped(l | r),
    "^": lambda l, r: wrapped(l ^ r),
    "<<": lambda l, r: wrapped(l << (r & 31)),
    ">>": lambda l, r: wrapped(l >> (r & 31)),
    ">>>": lambda l, r: wrapped((l & 0xFFFFFFFF) >> (r & 31)),
    "<": lambda l, r: l < r,
    ">": lambda l, r: l > r,
    "<=": lambda l, r: l <= r,
    ">=": lambda l, r: l >= r,
    "==": same,
    "!=": lambda l, r: not same(l, r),
}
UNARY = {"-": lambda e: wrapped(-e), "~": lambda e: wrapped(~e), "!": lambda e: not e}


def literal(node):
    if node.kind == "num":
        return wrapped(-node.value if node.neg else node.value)
    return node.truth if node.kind == "bool" else None


def blank(spelled):
    """What a variable of the type holds at first."""
    return {"int": 0, "boolean": False}.get(spelled)


# ---- programs


class Program:
    """An accepted program: what its names mean, and the operations of its bodies."""

    def __init__(self, texts):
        self.rules = slow_rules.Checker(texts)
        if self.rules.report():
            raise Refused()
        self.meanings = {}
        for c in self.rules.users:
            for m in c.members:
                if m.kind != "field":
                    body = slow_rules.Body(self.rules, c, m)
                    body.types()
                    self.meanings.update(body.meanings)
        self.safelet = next(c for c in self.rules.users
                            if not c.flags.abstract and "Safelet" in self.rules.all_faces(c))

    # ---- classes

    def fields(self, c):
        """The instance fields of a class, those of the classes above it first."""
        user_classes = [d for d in reversed(self.rules.chain(c)) if not isinstance(d, str)]
        return [m for d in user_classes for m in d.members if m.kind == "field" and not m.flags.static]

    def statics(self):
        return [m for c in self.rules.users for m in c.members if m.kind == "field" and m.flags.static]

    def size(self, c):
        chain = self.rules.chain(c)
        hidden = 4 if "PeriodicEventHandler" in chain else 2 if "AperiodicEventHandler" in chain else 0
        return 8 * (2 + hidden + len(self.fields(c)))

    def size_constant(self, c, method):
        return literal(self.rules.method_of(c, method).node.body.items[0].value)

    def constructor(self, c):
        return next((m for m in c.members if m.kind == "ctor"), None)

    # ---- operations of bodies

    def of_method(self, node):
        operations = self.of_statement(node.body)
        return operations + ([Operation("LEAVE", node.pos)] if slow_rules.spell(node.type) == "void" else [])

    def of_constructor(self, c):
        """The operations of a class's constructor, also of an unwritten one; `Object` has a constructor too."""
        if isinstance(c, str):
            return [Operation("LEAVE", None)]
        written = self.constructor(c)
        operations = self.of_super_part(c, written)
        for m in c.members:
            if m.kind == "field" and not m.flags.static and m.value is not None:
                operations.append(Operation("INIT", m.pos, m))
        if written is not None:
            operations += self.of_statement(written.body)
        return operations + [Operation("LEAVE", c.pos)]

    def of_super_part(self, c, written):
        above = self.rules.above(c)
        call = written.sup if written is not None else None
        if above in slow_rules.HAVE_FORM:
            return self.all_of(form_numbers(call.args)) + [Operation("PARAMS", call.pos, above)]
        if isinstance(above, str):
            return []
        place = call.pos if call is not None else c.pos
        arguments = call.args if call is not None else []
        return [Operation("THIS", place)] + self.all_of(arguments) + [Operation("SUPER", place, above)]

    # ---- operations of statements

    def of_statement(self, s):
        kind = s.kind
        if kind == "block":
            return [operation for item in s.items for operation in self.of_statement(item)]
        if kind == "empty":
            return []
        if kind == "local":
            if s.value is None:
                return [Operation("ZERO", s.pos, s)]
            return self.of(s.value) + [Operation("STORE", s.eq, s)]
        if kind == "assign":
            return self.of_assignment(s)
        if kind == "if":
            return self.of(s.c) + [Operation("IF", s.pos, s)]
        if kind == "while":
            return self.of(s.c) + [Operation("LOOP", s.pos, s)]
        if kind == "for":
            again = trees.Node("block", s.pos, items=[s.a, s.u])
            loop = trees.Node("while", s.pos, c=s.c, a=again)
            return self.of_statement(s.f) + self.of_statement(loop)
        if kind == "return":
            if s.value is None:
                return [Operation("LEAVE", s.pos)]
            return self.of(s.value) + [Operation("LEAVEWITH", s.pos)]
        drop = [Operation("DROP", s.pos)] if self.leaves_value(s.e) else []
        return self.of(s.e) + drop

    def leaves_value(self, e):
        return e.kind == "new" or self.meanings[e].result != "void"

    def of_assignment(self, s):
        target = s.target
        if target.kind == "element":
            return self.all_of([target.arr, target.ix, s.value]) + [Operation("PUTELEM", s.pos)]
        meaning = self.meanings[target]
        if meaning.kind in ("local", "param"):
            return self.of(s.value) + [Operation("STORE", s.pos, meaning)]
        if meaning.flags.static:
            return self.of(s.value) + [Operation("PUTSTATIC", s.pos, meaning)]
        holder = [Operation("THIS", target.pos)] if target.kind == "name" else self.of(target.obj)
        return holder + self.of(s.value) + [Operation("PUT", s.pos, meaning)]

    # ---- operations of expressions

    def all_of(self, nodes):
        return [operation for node in nodes for operation in self.of(node)]

    def of(self, e):
        kind, place = e.kind, e.pos
        if kind in ("num", "bool", "null"):
            return [Operation("PUSH", place, literal(e))]
        if kind == "this":
            return [Operation("THIS", place)]
        if kind == "paren":
            return self.of(e.e)
        if kind == "name":
            meaning = self.meanings[e]
            if meaning.kind in ("local", "param"):
                return [Operation("LOAD", place, meaning)]
            if meaning.flags.static:
                return [Operation("GETSTATIC", place, meaning)]
            return [Operation("THIS", place), Operation("GET", place, meaning)]
        if kind == "access":
            meaning = self.meanings[e]
            if meaning == "length":
                return self.of(e.obj) + [Operation("LENGTH", place)]
            if meaning.flags.static:
                return [Operation("GETSTATIC", place, meaning)]
            return self.of(e.obj) + [Operation("GET", place, meaning)]
        if kind == "element":
            return self.of(e.arr) + self.of(e.ix) + [Operation("ELEM", place)]
        if kind == "unary":
            return self.of(e.e) + [Operation("UNARY", place, e.op)]
        if kind == "binary":
            if e.op == "&&":
                return self.of(e.l) + [Operation("AND", place, e.r)]
            if e.op == "||":
                return self.of(e.l) + [Operation("OR", place, e.r)]
            return self.of(e.l) + self.of(e.r) + [Operation("BIN", place, e.op)]
        if kind == "cast":
            return self.of(e.e) + [Operation("CAST", place, e.name)]
        if kind == "newarray":
            return self.of(e.size) + [Operation("ALLOCARRAY", place, e.name)]
        if kind == "new":
            c = self.rules.cls(e.name)
            return [Operation("ALLOC", place, c)] + self.all_of(e.args) + [Operation("CONSTRUCT", place, c)]
        return self.of_call(e)

    def of_call(self, e):
        method, place = self.meanings[e], e.pos
        if method.builtin and method.static:
            arguments = e.args[1:] if method.name == "print" else e.args
            words = {"enterPrivateMemory": "ENTER", "executeInAreaOf": "EXECUTEIN", "allocInSame": "SAME",
                     "setCeiling": "SETCEILING", "print": "PRINT", "read": "READ"}
            label = e.args[0].text if method.name == "print" else None
            return self.all_of(arguments) + [Operation(words[method.name], place, label)]
        if method.static:
            return self.all_of(e.args) + [Operation("CALLSTATIC", place, method)]
        receiver = [Operation("THIS", place)] if e.obj is None else self.of(e.obj)
        if method.builtin:
            words = {"register": "REGISTER", "release": "RELEASE", "requestTermination": "TERMINATE"}
            return receiver + [Operation(words[method.name], place)]
        return receiver + self.all_of(e.args) + [Operation("CALL", place, method)]


def form_numbers(arguments):
    """The numbers of a form in the order in which they stand."""
    out = []
    for a in arguments:
        out += form_numbers(a.args) if a.kind == "new" and a.name in FORM_CLASSES else [a]
    return out


# ---- the machine


class Machine:
    def __init__(self, names, texts, plan):
        self.names, self.plan, self.program = names, plan, Program(texts)
        self.rules = self.program.rules
        self.unit, self.lines, self.end = 0, [], None
        self.areas, self.releases, self.registry = [], [], []
        self.statics = {f: literal(f.value) if f.value is not None else blank(slow_rules.spell(f.type))
                        for f in self.program.statics()}
        self.sequencer = Job(0)
        self.phase, self.following, self.gave = "boot", "OPENIMMORTAL", None
        self.safelet = self.sequencer_object = self.mission = self.mission_area = None
        self.end_asked, self.origin, self.last_choice = False, None, None
        self.counts, self.most_reserved = collections.Counter(), 0

    def tell(self, line):
        self.lines.append("%d %s" % (self.unit, line))
        self.note("line " + line.split(" ")[0])

    def note(self, what):
        """Counts what has happened; no line of the trace rests on these counts."""
        self.counts[what] += 1

    def run(self):
        """The lines of the whole run."""
        while self.end is None and self.unit < self.plan["units"]:
            self.one_unit()
            if self.end is None:
                self.unit += 1
        self.tell(self.end or "stopped")
        return self.lines

    def one_unit(self):
        self.note("unit in %s" % self.phase)
        self.arrivals()
        job = self.choice() if self.phase == "execution" else self.sequencer
        if job is not None:
            self.operate(job)
        if self.end is None:
            self.what_follows()

    # ---- arrivals

    def takes_in(self):
        return self.phase == "execution" and not self.end_asked

    def arrivals(self):
        if self.takes_in():
            for handler in self.registry:
                if self.is_periodic(handler.thing) and self.is_released(handler.thing):
                    self.note("one-shot" if handler.thing.period == 0 else "by the period")
                    self.arrive(handler)
        for fire in self.plan.get("fire", []):
            if self.is_due(fire):
                self.note("fire from the %s in %s%s" % (
                    fire.get("from", "start"), self.phase, ", an end asked" if self.end_asked else ""))
                handler = next((h for h in self.registry if h.thing.kind.name == fire["handler"]
                                and not self.is_periodic(h.thing)), None)
                if self.takes_in() and handler is not None:
                    self.arrive(handler)
                else:
                    self.tell("miss " + fire["handler"])

    def is_released(self, thing):
        """Whether a periodic handler is due: one without a period, which is one-shot, at its start alone."""
        since = self.unit - self.origin - thing.start
        if thing.period == 0:
            return since == 0
        return since >= 0 and since % thing.period == 0

    def is_due(self, fire):
        """A fire of a plan of version 1 has no `from`, and counts from the start of the run."""
        if fire.get("from", "start") == "mission":
            return self.phase == "execution" and self.unit == self.origin + fire["at"]
        return self.unit == fire["at"]

    def is_periodic(self, thing):
        return "PeriodicEventHandler" in self.rules.chain(thing.kind)

    def arrive(self, handler):
        waiting = [r for r in self.releases if r.handler is handler and not r.is_started]
        if len(waiting) == WAITING:
            self.tell("lost %d" % handler.number)
            return
        if len(waiting) == WAITING - 1:
            self.note("edge: 64 waiting releases")
        handler.releases += 1
        self.releases.append(Release(handler, handler.releases))
        self.tell("arrive %d %d" % (handler.number, handler.releases))

    # ---- the choice

    def choice(self):
        """The most urgent release, or None; tells it where it isn't the last choice."""
        chosen = None
        for release in self.releases:
            if chosen is None or (release.priority, release.is_started) > (chosen.priority, chosen.is_started):
                chosen = release
        if chosen is None and self.last_choice != "idle":
            self.tell("idle")
        if chosen is not None and chosen is not self.last_choice:
            self.tell("run %d %d" % (chosen.handler.number, chosen.number))
        self.last_choice = chosen or "idle"
        return chosen

    # ---- one operation

    def operate(self, job):
        """One operation of the job, with what its fault does."""
        word = place = None
        try:
            if job.frames:
                frame = job.frames[-1]
                word, place, about = frame.rest.pop(0)
                getattr(self, "do_" + word.lower())(job, frame, about)
            elif job is self.sequencer:
                word, place = "sequencer " + self.following, self.sequencer_place()
                self.sequencer_operation()
            else:
                word, place = "START", job.handler.thing.kind.pos
                self.start(job)
        except Fault as fault:
            self.note("fault %s" % fault.name)
            self.note("fault %s at %s" % (fault.name, word))
            self.tell("fault %s %s:%d" % (fault.name, self.names[place[0]], place[1]))
            if job is self.sequencer:
                self.end = "halted"
            else:
                for frame in reversed(job.frames):
                    self.close(job, frame.opened)
                job.frames = []
                self.finish(job)
        self.note("operation %s" % word)

    def finish(self, release):
        self.releases.remove(release)
        self.tell("end %d %d" % (release.handler.number, release.number))

    def start(self, release):
        kind = release.handler.thing.kind
        release.is_started = True
        release.areas = list(self.sequencer.areas)
        area = self.open(release, self.rules.chain_scope(kind), release.handler.thing.storage)
        body = self.rules.method_of(kind, "handleAsyncEvent").node
        release.frames.append(Frame(self.program.of_method(body), release.handler.thing, area, opened=area))

    # ---- memory

    def open(self, job, scope, size):
        """A new area for the job, or StoreFull."""
        area = Area(scope, size)
        reserved = sum(a.reserved() for a in self.areas if a.is_open) + area.reserved()
        if reserved > self.plan["store"]:
            raise Fault("StoreFull")
        self.areas.append(area)
        self.most_reserved = max(self.most_reserved, reserved)
        job.areas.append(area)
        return area

    def close(self, job, area):
        if area is not None:
            area.is_open = False
            job.areas.remove(area)

    def take_bytes(self, area, size):
        if area.used + size > area.size:
            raise Fault("MemoryFull")
        area.used += size

    def new_object(self, c, area):
        self.take_bytes(area, self.program.size(c))
        return Thing(c, area, {f: blank(slow_rules.spell(f.type)) for f in self.program.fields(c)})

    # ---- frames

    def push_frame(self, job, frame):
        if len(job.frames) == FRAMES:
            raise Fault("DepthFull")
        job.frames.append(frame)
        if len(job.frames) == FRAMES:
            self.note("edge: 64 frames")

    def leave(self, job, value=None, has_value=False):
        frame = job.frames.pop()
        if frame.saved is not None:
            self.set_priority(job, frame.saved)
        self.close(job, frame.opened)
        if job.frames:
            if has_value:
                job.frames[-1].operands.append(value)
        elif job is self.sequencer:
            self.gave = (value,)
        else:
            self.finish(job)

    def set_priority(self, job, priority):
        if priority != job.priority and job is not self.sequencer:
            self.tell("prio %d %d" % (job.handler.number, priority))
        job.priority = priority

    def pop_arguments(self, frame, parameters):
        """The values of the arguments, the first one first."""
        return [frame.operands.pop() for _ in parameters][::-1]

    def construct(self, job, c, frame, values, this):
        """A frame of the constructor of a class, in the area of the frame that calls it."""
        area = frame.area if frame is not None else job.areas[-1]
        parameters = self.rules.ctor_params(c)
        self.push_frame(job, Frame(self.program.of_constructor(c), this, area, dict(zip(parameters, values))))

    # ---- the operations of bodies

    def do_push(self, job, frame, value):
        frame.operands.append(value)

    def do_this(self, job, frame, about):
        frame.operands.append(frame.this)

    def do_load(self, job, frame, local):
        frame.operands.append(frame.locals.get(local))

    def do_store(self, job, frame, local):
        frame.locals[local] = frame.operands.pop()

    def do_zero(self, job, frame, local):
        frame.locals[local] = blank(slow_rules.spell(local.type))

    def do_drop(self, job, frame, about):
        frame.operands.pop()

    def reference(self, value):
        """The object that is named, or the fault NullPointer."""
        if value is None:
            raise Fault("NullPointer")
        return value

    def do_get(self, job, frame, field):
        frame.operands.append(self.reference(frame.operands.pop()).slots[field])

    def do_put(self, job, frame, field):
        value = frame.operands.pop()
        self.reference(frame.operands.pop()).slots[field] = value

    def do_init(self, job, frame, field):
        frame.this.slots[field] = literal(field.value)

    def do_getstatic(self, job, frame, field):
        frame.operands.append(self.statics[field])

    def do_putstatic(self, job, frame, field):
        self.statics[field] = frame.operands.pop()

    def do_length(self, job, frame, about):
        frame.operands.append(self.reference(frame.operands.pop()).length)

    def element(self, array, index):
        """The index of an element, after the two faults."""
        self.reference(array)
        if not 0 <= index < array.length:
            raise Fault("ArrayIndex")
        return index

    def do_elem(self, job, frame, about):
        index, array = frame.operands.pop(), frame.operands.pop()
        frame.operands.append(self.reference(array).slots[self.element(array, index)])

    def do_putelem(self, job, frame, about):
        value, index, array = frame.operands.pop(), frame.operands.pop(), frame.operands.pop()
        self.reference(array).slots[self.element(array, index)] = value

    def do_unary(self, job, frame, operator):
        frame.operands.append(UNARY[operator](frame.operands.pop()))

    def do_bin(self, job, frame, operator):
        right, left = frame.operands.pop(), frame.operands.pop()
        if operator in ("/", "%") and right == 0:
            raise Fault("DivideByZero")
        frame.operands.append(BINARY[operator](left, right))

    def do_and(self, job, frame, right):
        if frame.operands.pop():
            frame.rest = self.program.of(right) + frame.rest
        else:
            frame.operands.append(False)

    def do_or(self, job, frame, right):
        if frame.operands.pop():
            frame.operands.append(True)
        else:
            frame.rest = self.program.of(right) + frame.rest

    def do_if(self, job, frame, statement):
        taken = statement.a if frame.operands.pop() else statement.b
        if taken is not None:
            frame.rest = self.program.of_statement(taken) + frame.rest

    def do_loop(self, job, frame, statement):
        if frame.operands.pop():
            again = self.program.of_statement(statement)
            frame.rest = self.program.of_statement(statement.a) + again + frame.rest

    def do_cast(self, job, frame, name):
        value = frame.operands[-1]
        if value is not None and not self.rules.is_sub(value.kind, self.rules.cls(name)):
            raise Fault("ClassCast")

    def do_alloc(self, job, frame, c):
        frame.operands.append(self.new_object(c, frame.area))

    def do_construct(self, job, frame, c):
        values = self.pop_arguments(frame, self.rules.ctor_params(c))
        self.construct(job, c, frame, values, frame.operands[-1])

    def do_super(self, job, frame, c):
        values = self.pop_arguments(frame, self.rules.ctor_params(c))
        self.construct(job, c, frame, values, frame.operands.pop())

    def do_allocarray(self, job, frame, element):
        length = frame.operands.pop()
        if length < 0:
            raise Fault("NegativeSize")
        self.take_bytes(frame.area, 8 * (2 + length))
        slots = {index: blank(element) for index in range(length)}
        frame.operands.append(Thing(element + "[]", frame.area, slots, length))

    def do_call(self, job, frame, method):
        values = self.pop_arguments(frame, method.params)
        this = self.reference(frame.operands.pop())
        node = self.rules.method_of(this.kind, method.name).node
        callee = Frame(self.program.of_method(node), this, frame.area, dict(zip(node.params, values)))
        self.push_frame(job, callee)
        if node.flags.sync:
            if job.priority > this.ceiling:
                job.frames.pop()
                raise Fault("CeilingViolation")
            callee.saved = job.priority
            self.set_priority(job, this.ceiling)

    def do_callstatic(self, job, frame, method):
        values = self.pop_arguments(frame, method.params)
        local_values = dict(zip(method.node.params, values))
        self.push_frame(job, Frame(self.program.of_method(method.node), None, frame.area, local_values))

    def do_leave(self, job, frame, about):
        self.leave(job)

    def do_leavewith(self, job, frame, about):
        self.leave(job, frame.operands.pop(), True)

    def do_params(self, job, frame, above):
        numbers = frame.operands
        frame.operands = []
        priority, storage, times = numbers[0], numbers[-1], numbers[1:-1]
        if priority not in PRIORITIES:
            raise Fault("BadPriority")
        start = period = None
        if times:
            start, period = self.units_of(*times[:2]), self.units_of(*times[2:])
        if storage < 0:
            raise Fault("NegativeSize")
        if above != "MissionSequencer":
            frame.this.priority, frame.this.storage = priority, storage
            frame.this.start, frame.this.period = start, period

    def units_of(self, milliseconds, nanoseconds):
        if milliseconds < 0 or nanoseconds not in range(0, 1000000, 1000):
            raise Fault("BadPeriod")
        return 1000 * milliseconds + nanoseconds // 1000

    def do_enter(self, job, frame, about):
        runnable, size = frame.operands.pop(), frame.operands.pop()
        self.reference(runnable)
        if size < 0:
            raise Fault("NegativeSize")
        scope = self.rules.chain_scope(runnable.kind)
        if any(area.scope == scope for area in job.areas):
            raise Fault("ScopedCycle")
        if len(job.frames) == FRAMES:
            raise Fault("DepthFull")
        area = self.open(job, scope, size)
        self.push_frame(job, Frame(self.of_run(runnable), runnable, area, opened=area))

    def of_run(self, runnable):
        return self.program.of_method(self.rules.method_of(runnable.kind, "run").node)

    def do_executein(self, job, frame, about):
        runnable, thing = frame.operands.pop(), frame.operands.pop()
        self.reference(thing)
        self.reference(runnable)
        self.push_frame(job, Frame(self.of_run(runnable), runnable, thing.area))

    def do_same(self, job, frame, about):
        second, first = frame.operands.pop(), frame.operands.pop()
        frame.operands.append(first is not None and second is not None and first.area is second.area)

    def do_setceiling(self, job, frame, about):
        priority, thing = frame.operands.pop(), frame.operands.pop()
        self.reference(thing)
        if priority not in PRIORITIES:
            raise Fault("BadPriority")
        if job is not self.sequencer:
            raise Fault("NotInitializing")
        thing.ceiling = priority

    def do_print(self, job, frame, label):
        self.tell("print %s %d" % (label, frame.operands.pop()))

    def do_read(self, job, frame, about):
        port = frame.operands.pop()
        if not 0 <= port <= 255:
            raise Fault("BadPort")
        frame.operands.append(self.reading(port))

    def reading(self, port):
        """The value of the port's row with the greatest unit up to now, the later row of equal ones."""
        value, at = 0, -1
        for row in self.plan.get("reading", []):
            if row["port"] == port and at <= row["at"] <= self.unit:
                value, at = row["value"], row["at"]
        return value

    def do_register(self, job, frame, about):
        thing = self.reference(frame.operands.pop())
        if self.phase != "initialisation" or job is not self.sequencer:
            raise Fault("NotInitializing")
        if any(handler.thing is thing for handler in self.registry):
            return
        if len(self.registry) == HANDLERS:
            raise Fault("TooManyHandlers")
        handler = Handler(thing, len(self.registry) + 1)
        self.registry.append(handler)
        if len(self.registry) == HANDLERS:
            self.note("edge: 64 handlers")
        self.tell("register %d %s %d" % (handler.number, thing.kind.name, handler.priority))

    def do_release(self, job, frame, about):
        thing = self.reference(frame.operands.pop())
        self.note("release() in %s%s" % (self.phase, ", an end asked" if self.end_asked else ""))
        if self.takes_in():
            for handler in self.registry:
                if handler.thing is thing:
                    self.arrive(handler)

    def do_terminate(self, job, frame, about):
        mission = self.reference(frame.operands.pop())
        which = "again" if self.end_asked else "of the mission" if mission is self.mission else "of another one"
        self.note("requestTermination in %s, %s" % (self.phase, which))
        if mission is not self.mission or self.end_asked:
            return
        if self.phase == "initialisation":
            self.end_asked = True
        elif self.phase == "execution":
            self.end_asked = True
            self.tell("terminate")
            for release in [r for r in self.releases if not r.is_started]:
                self.releases.remove(release)
                self.tell("drop %d %d" % (release.handler.number, release.number))

    # ---- the sequencer

    def sequencer_place(self):
        """Where its own operations stand: at the safelet's class, and from OPENMISSION on at the mission's."""
        if self.following in ("OPENMISSION", "initialize", "cleanUp"):
            return self.mission.kind.pos
        return self.program.safelet.pos

    def sequencer_operation(self):
        job, word = self.sequencer, self.following
        if word == "OPENIMMORTAL":
            self.open(job, "IMMORTAL", self.program.size_constant(self.program.safelet, "immortalMemorySize"))
            self.gave = (None,)
        elif word == "ALLOC":
            self.safelet = self.new_object(self.program.safelet, job.areas[-1])
            self.gave = (None,)
        elif word == "CONSTRUCT":
            self.construct(job, self.program.safelet, None, [], self.safelet)
        elif word == "OPENMISSION":
            kind = self.mission.kind
            size = self.program.size_constant(kind, "missionMemorySize")
            self.mission_area = self.open(job, self.rules.chain_scope(kind), size)
            self.tell("mission " + kind.name)
            self.gave = (None,)
        else:
            this = {"initializeApplication": self.safelet, "getSequencer": self.safelet,
                    "getNextMission": self.sequencer_object}.get(word, self.mission)
            method = self.rules.method_of(this.kind, word)
            body = [Operation("LEAVE", None)] if method.builtin else self.program.of_method(method.node)
            self.push_frame(job, Frame(body, this, job.areas[-1]))

    def what_follows(self):
        """What follows in the sequencer where its body has left or execution is over."""
        if self.phase == "execution":
            if self.end_asked and not any(r.is_started for r in self.releases):
                self.clean_up()
            return
        if self.gave is None:
            return
        (value,), self.gave, done = self.gave, None, self.following
        if done == "getSequencer":
            if value is None:
                self.note("fault NullPointer")
                self.note("fault NullPointer where getSequencer has left")
                place = self.program.safelet.pos
                self.tell("fault NullPointer %s:%d" % (self.names[place[0]], place[1]))
                self.end = "halted"
                return
            self.sequencer_object = value
            self.phase = "next"
        elif done == "getNextMission":
            if value is None:
                self.end = "done"
                return
            self.mission, self.phase, self.end_asked = value, "initialisation", False
        elif done == "initialize":
            self.tell("exec")
            if not self.registry or self.end_asked:
                self.clean_up()
            else:
                self.phase, self.origin, self.last_choice = "execution", self.unit + 1, None
            return
        elif done == "cleanUp":
            self.close(self.sequencer, self.mission_area)
            self.mission = self.mission_area = None
            self.registry, self.phase, self.end_asked = [], "next", False
        follows = {"OPENIMMORTAL": "ALLOC", "ALLOC": "CONSTRUCT", "CONSTRUCT": "initializeApplication",
                   "initializeApplication": "getSequencer", "getSequencer": "getNextMission",
                   "getNextMission": "OPENMISSION", "OPENMISSION": "initialize", "cleanUp": "getNextMission"}
        self.following = follows[done]

    def clean_up(self):
        self.tell("cleanup")
        self.phase, self.following = "cleanup", "cleanUp"


def trace(names, texts, plan):
    """The lines of the run of the files on the plan."""
    return Machine(names, texts, plan).run()


def main():
    plan = tomllib.loads(pathlib.Path(sys.argv[1]).read_text())
    names = sys.argv[2:]
    try:
        lines = trace(names, [pathlib.Path(name).read_text() for name in names], plan)
    except Refused:
        print("slow_machine.py: the files aren't accepted", file=sys.stderr)
        sys.exit(1)
    print("\n".join(lines))
    sys.exit(3 if lines[-1].endswith("halted") else 0)


if __name__ == "__main__":
    main()
