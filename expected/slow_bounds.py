#!/usr/bin/env python3
"""What each handler class puts into the private memory of a release, slowly: by sets of bodies, and sums over nodes.

    slow_bounds.py SOURCE ..     prints what `scj bounds` prints for an accepted program

It was written from the definitions in words, apart from `scj`.
"""
import sys

import slow_machine
import slow_rules

MOST_STARTED = 28


def rounded(size):
    return (size + 7) // 8 * 8


def is_literal(node):
    """A number as it is written: parentheses and a sign make another expression of it."""
    return node.kind == "num" and not node.neg


class Bounds:
    """The bodies of an accepted program, what they may run, and what they need. A body is a method, a constructor, or
    a class whose constructor isn't written."""

    def __init__(self, program):
        self.program, self.rules = program, program.rules

    # ---- bodies

    def concrete_under(self, name):
        on = self.rules.cls(name)
        return [c for c in self.rules.users if not c.flags.abstract and self.rules.is_sub(c, on)]

    def methods_under(self, name, method):
        bodies = [self.rules.method_of(c, method) for c in self.concrete_under(name)]
        return [m.node for m in bodies if m is not None and not m.builtin]

    def constructor(self, c):
        """Nothing of the framework's, `Object` among it: what these run puts nothing anywhere and calls nothing."""
        if isinstance(c, str):
            return []
        return [self.program.constructor(c) or c]

    def class_of(self, body):
        return next(c for c in self.rules.users if body is c or body in c.members)

    def roots(self, body):
        """The nodes that stand directly in a body."""
        if body.kind == "ctor":
            return ([body.sup] if body.sup else []) + [body.body]
        return [body.body] if body.kind == "method" else []

    def nodes(self, body):
        waiting, found = self.roots(body), []
        while waiting:
            node = waiting.pop()
            found.append(node)
            waiting += slow_rules.parts(node)
        return found

    def unwritten_super(self, body):
        """The constructor that a body runs by a super part that isn't written."""
        if body.kind == "method" or (body.kind == "ctor" and body.sup):
            return []
        return self.constructor(self.rules.above(self.class_of(body)))

    # ---- targets

    def is_form(self, node):
        return node.kind == "new" and node.name in slow_machine.FORM_CLASSES

    def targets_here(self, body, node):
        """What a node of the body may run in its own area."""
        if node.kind == "new":
            return [] if self.is_form(node) else self.constructor(self.rules.cls(node.name))
        if node.kind == "supercall":
            return self.constructor(self.rules.above(self.class_of(body)))
        if node.kind != "call":
            return []
        method = self.program.meanings[node]
        if method.builtin:
            return []
        if method.static:
            return [method.node]
        return self.methods_under(node.recv[1] if isinstance(node.recv[1], str) else node.recv[1].name, node.name)

    def memory_call(self, node):
        """`enterPrivateMemory` or `executeInAreaOf`, where the node is a call of it."""
        if node.kind != "call":
            return None
        method = self.program.meanings[node]
        return method.name if method.name in ("enterPrivateMemory", "executeInAreaOf") and method.builtin else None

    def targets_entered(self, node):
        if self.memory_call(node) is None or node.args[1].type_ == "null":
            return []
        return self.methods_under(node.args[1].type_, "run")

    def targets(self, body):
        """What the body may run, by any of its nodes."""
        found = list(self.unwritten_super(body))
        for node in self.nodes(body):
            found += self.targets_here(body, node) + self.targets_entered(node)
        return found

    def reached(self, first):
        """What is reached from these, themselves included."""
        found, waiting = [], list(first)
        while waiting:
            body = waiting.pop()
            if body not in found:
                found.append(body)
                waiting += self.targets(body)
        return found

    # ---- Need and Room, where nothing recurs

    def need_of_body(self, body):
        if body not in self.needs:
            own = self.greatest(self.unwritten_super(body))
            self.needs[body] = own + sum(self.need(body, node) for node in self.roots(body))
        return self.needs[body]

    def greatest(self, bodies):
        return max((self.need_of_body(body) for body in bodies), default=0)

    def need(self, body, node):
        if node.kind == "if":
            return self.need(body, node.c) + max(self.need(body, s) for s in [node.a] + ([node.b] if node.b else []))
        own = 0
        if node.kind == "new" and not self.is_form(node):
            c = self.rules.cls(node.name)
            own = 16 if isinstance(c, str) else self.program.size(c)
        if node.kind == "newarray":
            own = 8 * (2 + node.size.value) if is_literal(node.size) else 16
        own += self.greatest(self.targets_here(body, node))
        return own + sum(self.need(body, part) for part in slow_rules.parts(node))

    def room_of_body(self, body):
        if body not in self.rooms:
            rooms = [self.room_of_body(target) for target in self.unwritten_super(body)]
            for node in self.nodes(body):
                size = rounded(node.args[0].value) if self.memory_call(node) == "enterPrivateMemory" else 0
                targets = self.targets_here(body, node) + self.targets_entered(node)
                rooms += [self.room_of_body(target) + size for target in targets]
            self.rooms[body] = max(rooms, default=0)
        return self.rooms[body]

    # ---- answers

    def storage(self, c):
        """The argument of the storage in the form of the class's chain."""
        on = next(d for d in self.rules.chain(c) if self.rules.above(d) in slow_rules.HAVE_FORM)
        return self.program.constructor(on).sup.args[-1].args[0]

    def handler_body(self, c):
        return self.rules.method_of(c, "handleAsyncEvent").node

    def shown(self, c):
        """The places that show each cause, cause after cause; one that is shown leaves the later ones unasked."""
        bodies = self.reached([self.handler_body(c)])
        yield "Recursion", [body.pos for body in bodies if body in self.reached(self.targets(body))]
        self.needs = {}
        nodes = [(body, node) for body in bodies for node in self.nodes(body)]
        numbers = [self.storage(c)] + [node.size for body, node in nodes if node.kind == "newarray"]
        entering = [node for body, node in nodes if self.memory_call(node) == "enterPrivateMemory"]
        numbers += [node.args[0] for node in entering]
        yield "NotLiteral", [number.pos for number in numbers if not is_literal(number)]
        outer = [node for body, node in nodes if self.memory_call(node) == "executeInAreaOf"]
        yield "OuterArea", [node.pos for node in outer if self.greatest(self.targets_entered(node)) > 0]
        loops = [(body, node) for body, node in nodes if node.kind in ("while", "for")]
        yield "NewInLoop", [node.pos for body, node in loops if self.need(body, node) > 0]
        small = [node.pos for node in entering if node.args[0].value < self.greatest(self.targets_entered(node))]
        if self.storage(c).value < self.need_of_body(self.handler_body(c)):
            small.append(c.pos)
        yield "TooSmall", small

    def answer(self, c):
        for cause, places in self.shown(c):
            if places:
                return cause, min(places)
        return None, self.need_of_body(self.handler_body(c))

    def handlers(self):
        kinds = ("PeriodicEventHandler", "AperiodicEventHandler")
        concrete = [c for c in self.rules.users if not c.flags.abstract]
        return [c for c in concrete if any(kind in self.rules.chain(c) for kind in kinds)]

    def store(self):
        """The store that no release lacks, where each handler class has its bound."""
        self.rooms = {}
        missions = [c for c in self.rules.users if not c.flags.abstract and "Mission" in self.rules.chain(c)]
        mission = max((rounded(self.program.size_constant(c, "missionMemorySize")) for c in missions), default=0)
        releases = [rounded(self.storage(c).value) + self.room_of_body(self.handler_body(c)) for c in self.handlers()]
        immortal = rounded(self.program.size_constant(self.program.safelet, "immortalMemorySize"))
        return immortal + mission + MOST_STARTED * max(releases, default=0)


def lines(names, texts):
    bounds = Bounds(slow_machine.Program(texts))
    out, all_suffice = [], True
    for c in bounds.handlers():
        cause, told = bounds.answer(c)
        if cause is None:
            out.append(f"{c.name} yes {told}")
        else:
            file, line, column = told
            out.append(f"{c.name} no {cause} {names[file]}:{line}:{column}")
            all_suffice = False
    return out + [f"need {bounds.store()}" if all_suffice else "need none"]


def main():
    names = sys.argv[1:]
    texts = []
    for name in names:
        with open(name, encoding="utf-8") as file:
            texts.append(file.read())
    print("\n".join(lines(names, texts)))


if __name__ == "__main__":
    main()
