"""Further machines for wrong_machines.py that are wrong in one way each: in who acts, in what a mission, an area or a
ceiling does, and in how operations follow one another."""
import slow_machine
from slow_machine import Fault, Frame, Machine, Operation, Program


def on(program):
    """The machine on another reading of the program."""
    class Wrong(Machine):
        def __init__(self, names, texts, plan):
            Machine.__init__(self, names, texts, plan)
            self.program.__class__ = program
    return Wrong


# ---- who acts


class LostCounts(Machine):
    def arrive(self, handler):
        if sum(r.handler is handler and not r.is_started for r in self.releases) == slow_machine.WAITING:
            handler.releases += 1
        Machine.arrive(self, handler)


def choosing(key):
    """The choice by another key; of equal ones the earlier."""
    class Wrong(Machine):
        def choice(self):
            before = self.releases
            self.releases = sorted(before, key=key, reverse=True)[:1]
            chosen = Machine.choice(self)
            self.releases = before
            return chosen
    return Wrong


class LaterFirst(Machine):
    def choice(self):
        self.releases.reverse()
        chosen = Machine.choice(self)
        self.releases.reverse()
        return chosen


class FiresFirst(Machine):
    def arrivals(self):
        whole, plan = self.registry, self.plan
        self.registry = [handler for handler in whole if not self.is_periodic(handler.thing)]
        Machine.arrivals(self)
        self.registry, self.plan = whole, dict(plan, fire=[])
        Machine.arrivals(self)
        self.plan = plan


class OneShotAgain(Machine):
    def is_released(self, thing):
        since = self.unit - self.origin - thing.start
        return Machine.is_released(self, thing) or thing.period == 0 and since == thing.start


class OneShotAlways(Machine):
    def is_released(self, thing):
        return thing.period == 0 and self.unit - self.origin >= thing.start or Machine.is_released(self, thing)


class OneShotAtOnce(Machine):
    def is_released(self, thing):
        return self.unit == self.origin if thing.period == 0 else Machine.is_released(self, thing)


class OneShotNever(Machine):
    def is_released(self, thing):
        return thing.period != 0 and Machine.is_released(self, thing)


class OneShotOnceInARun(Machine):
    def is_released(self, thing):
        return Machine.is_released(self, thing) and (thing.period != 0 or self.counts["line cleanup"] == 0)


class OneShotsLast(Machine):
    def arrivals(self):
        whole = self.registry
        self.registry = sorted(whole, key=lambda it: self.is_periodic(it.thing) and it.thing.period == 0)
        Machine.arrivals(self)
        self.registry = whole


def coming(is_due):
    """Fires from a mission are due in other units."""
    class Wrong(Machine):
        def is_due(self, fire):
            if fire.get("from") != "mission":
                return Machine.is_due(self, fire)
            return self.origin is not None and is_due(self, fire)
    return Wrong


class FirstOrigin(Machine):
    def is_due(self, fire):
        if fire.get("from") == "mission" and self.phase == "execution":
            self.first = getattr(self, "first", self.origin)
            return self.unit == self.first + fire["at"]
        return Machine.is_due(self, fire)


def ordering(key):
    """The fires of a unit in another order."""
    class Wrong(Machine):
        def arrivals(self):
            before = self.plan
            self.plan = dict(before, fire=sorted(before.get("fire", []), key=key))
            Machine.arrivals(self)
            self.plan = before
    return Wrong


class FiresReversed(Machine):
    def arrivals(self):
        before = self.plan
        self.plan = dict(before, fire=before.get("fire", [])[::-1])
        Machine.arrivals(self)
        self.plan = before


class ReleasesAfterTheEnd(Machine):
    def takes_in(self):
        return self.phase == "execution"


class KeepsLastChoice(Machine):
    """A choice is told by its numbers, also across missions."""
    def choice(self):
        first = self.last_choice is None
        before, self.lines = self.lines, []
        chosen = Machine.choice(self)
        told, self.lines = self.lines, before
        numbers = None if chosen is None else (chosen.handler.number, chosen.number)
        if not first or numbers is None or numbers != getattr(self, "numbers", None):
            self.lines += told
        self.numbers = numbers
        return chosen


class SilentIdle(Machine):
    def what_follows(self):
        Machine.what_follows(self)
        if self.phase == "execution" and self.last_choice is None:
            self.last_choice = "idle"


class EarlyOrigin(Machine):
    def what_follows(self):
        before = self.phase
        Machine.what_follows(self)
        if before != self.phase == "execution":
            self.origin -= 1


# ---- missions


class FullAgain(Machine):
    def do_register(self, job, frame, about):
        if frame.operands[-1] is not None and len(self.registry) == slow_machine.HANDLERS:
            if self.phase == "initialisation" and job is self.sequencer:
                raise Fault("TooManyHandlers")
        Machine.do_register(self, job, frame, about)


class KeepsRegistry(Machine):
    def what_follows(self):
        before = self.registry
        Machine.what_follows(self)
        if not self.registry:
            self.registry = before


class KeepsEndAsked(Machine):
    def what_follows(self):
        before = self.end_asked
        Machine.what_follows(self)
        self.end_asked = self.end_asked or before


class ForgetsEarlyEnd(Machine):
    def do_terminate(self, job, frame, about):
        if self.phase == "initialisation" and frame.operands[-1] is not None:
            frame.operands.pop()
        else:
            Machine.do_terminate(self, job, frame, about)


class EndsAgain(Machine):
    def do_terminate(self, job, frame, about):
        if frame.operands[-1] is self.mission and self.phase == "execution":
            self.end_asked = False
        Machine.do_terminate(self, job, frame, about)


class KeepsDrops(Machine):
    def do_terminate(self, job, frame, about):
        before = list(self.releases)
        Machine.do_terminate(self, job, frame, about)
        self.releases = before


# ---- areas and ceilings


class Unrounded(Machine):
    def open(self, job, scope, size):
        area = Machine.open(self, job, scope, size)
        area.reserved = lambda: area.size
        return area


class Strict(Machine):
    def take_bytes(self, area, size):
        if area.used + size == area.size:
            raise Fault("MemoryFull")
        Machine.take_bytes(self, area, size)


class NoHiddenSlots(Program):
    def size(self, c):
        return 8 * (2 + len(self.fields(c)))


class KeepsAreas(Machine):
    def close(self, job, area):
        if area is not None:
            job.areas.remove(area)


class KeepsAreasOfFaults(Machine):
    def operate(self, job):
        self.faulty = False
        Machine.operate(self, job)

    def tell(self, line):
        self.faulty = line.startswith("fault ")
        Machine.tell(self, line)

    def close(self, job, area):
        if area is not None and not getattr(self, "faulty", False):
            Machine.close(self, job, area)


class NoCycle(Machine):
    def do_enter(self, job, frame, about):
        runnable, size = frame.operands[-1], frame.operands[-2]
        if runnable is None or size < 0:
            return Machine.do_enter(self, job, frame, about)
        del frame.operands[-2:]
        if len(job.frames) == slow_machine.FRAMES:
            raise Fault("DepthFull")
        area = self.open(job, self.rules.chain_scope(runnable.kind), size)
        return self.push_frame(job, Frame(self.of_run(runnable), runnable, area, opened=area))


class ExecutesHere(Machine):
    def do_executein(self, job, frame, about):
        Machine.do_executein(self, job, frame, about)
        job.frames[-1].area = frame.area


class RunsInObjectsArea(Machine):
    def do_call(self, job, frame, method):
        Machine.do_call(self, job, frame, method)
        job.frames[-1].area = job.frames[-1].this.area


class NeverGivesBack(Machine):
    def leave(self, job, value=None, has_value=False):
        job.frames[-1].saved = None
        Machine.leave(self, job, value, has_value)


class TellsSamePriority(Machine):
    def set_priority(self, job, priority):
        if priority == job.priority and job is not self.sequencer:
            self.tell("prio %d %d" % (job.handler.number, priority))
        Machine.set_priority(self, job, priority)


class SynchronizedAbove(Machine):
    """A method is synchronized where one that it overrides is."""
    def do_call(self, job, frame, method):
        node = method.node
        this = frame.operands[-1 - len(method.params)]
        if node is not None and this is not None:
            own = self.rules.method_of(this.kind, method.name).node
            before, own.flags.sync = own.flags.sync, own.flags.sync or node.flags.sync
            try:
                return Machine.do_call(self, job, frame, method)
            finally:
                own.flags.sync = before
        return Machine.do_call(self, job, frame, method)


class StaticDispatch(Machine):
    def do_call(self, job, frame, method):
        rules = self.rules
        node = method.node
        before = rules.method_of
        if node is not None and node.body is not None:
            rules.method_of = lambda kind, name: method
        try:
            Machine.do_call(self, job, frame, method)
        finally:
            rules.method_of = before


# ---- operations


class ArgumentsFirst(Program):
    def of(self, e):
        operations = Program.of(self, e)
        if e.kind == "new" and e.args:
            return operations[1:-1] + [operations[0], Operation("SWAP", e.pos, len(e.args)), operations[-1]]
        return operations


class AllocatesLate(on(ArgumentsFirst)):
    def do_swap(self, job, frame, count):
        frame.operands.insert(-1 - count, frame.operands.pop())


class LocalsStay(Machine):
    def do_zero(self, job, frame, local):
        if local not in frame.locals:
            Machine.do_zero(self, job, frame, local)


class InitFirst(Program):
    def of_constructor(self, c):
        operations = Program.of_constructor(self, c)
        return [o for o in operations if o.word == "INIT"] + [o for o in operations if o.word != "INIT"]


class NoDrop(Program):
    def leaves_value(self, e):
        return False


class CastsNull(Machine):
    def do_cast(self, job, frame, name):
        if frame.operands[-1] is None:
            raise Fault("ClassCast")
        Machine.do_cast(self, job, frame, name)


def counting(operator, value):
    """Another value of an operator."""
    class Wrong(Machine):
        def do_bin(self, job, frame, word):
            right, left = frame.operands[-1], frame.operands[-2]
            Machine.do_bin(self, job, frame, word)
            if word == operator:
                frame.operands[-1] = value(left, right)
    return Wrong


class ElsewhereSuper(Program):
    def of_super_part(self, c, written):
        operations = Program.of_super_part(self, c, written)
        if written is not None and written.sup is None:
            return [o._replace(place=written.pos) for o in operations]
        return operations


class MissionAtSafelet(Machine):
    def sequencer_place(self):
        return self.program.safelet.pos


class StartsAtMethod(Machine):
    def start(self, release):
        try:
            Machine.start(self, release)
        except Fault:
            place = self.rules.method_of(release.handler.thing.kind, "handleAsyncEvent").node.pos
            self.tell("fault StoreFull %s:%d" % (self.names[place[0]], place[1]))
            self.finish(release)


TURNS = {
    # who acts
    "a lost release is counted": LostCounts,
    "of equals the later one acts": LaterFirst,
    "a started one acts before a more urgent one": choosing(lambda r: (r.is_started, r.priority)),
    "fires before periodic releases": FiresFirst,
    "fires of a unit in the other order": FiresReversed,
    "releases are taken in after the end was asked": ReleasesAfterTheEnd,
    "the last choice of the mission before counts, by its numbers": KeepsLastChoice,
    "no idle at the beginning of execution": SilentIdle,
    "the origin is the unit in which initialize leaves": EarlyOrigin,
    # one-shot handlers
    "a one-shot handler comes again after its start": OneShotAgain,
    "a one-shot handler comes in each unit from its start on": OneShotAlways,
    "a one-shot handler comes at the origin": OneShotAtOnce,
    "a one-shot handler never comes": OneShotNever,
    "a one-shot handler comes in the first mission alone": OneShotOnceInARun,
    "one-shot handlers behind the periodic ones": OneShotsLast,
    # fires that count from a mission
    "a fire from the mission counts from the start": coming(lambda it, fire: it.unit == fire["at"]),
    "a fire from the mission counts from the unit before the origin": coming(
        lambda it, fire: it.phase == "execution" and it.unit == it.origin - 1 + fire["at"]),
    "a fire from the mission misses outside execution": coming(lambda it, fire: it.unit == it.origin + fire["at"]),
    "a fire from the mission doesn't miss where an end was asked": coming(
        lambda it, fire: it.takes_in() and it.unit == it.origin + fire["at"]),
    "a fire from the mission counts from the first one": FirstOrigin,
    "fires from the start before those from the mission": ordering(lambda fire: fire.get("from") == "mission"),
    "fires in the order of their units": ordering(lambda fire: fire["at"]),
    # missions
    "a handler that is registered again is one too many": FullAgain,
    "the handlers of the mission before stay": KeepsRegistry,
    "an end that was asked of the mission before counts": KeepsEndAsked,
    "an end that initialize asks is forgotten": ForgetsEarlyEnd,
    "an end is told again": EndsAgain,
    "what was dropped still runs": KeepsDrops,
    # areas and ceilings
    "areas reserve no whole words": Unrounded,
    "an area is full a byte too early": Strict,
    "handlers have no hidden slots": on(NoHiddenSlots),
    "closed areas stay reserved": KeepsAreas,
    "a fault closes no area": KeepsAreasOfFaults,
    "ENTER: no ScopedCycle": NoCycle,
    "EXECUTEIN stays in the area": ExecutesHere,
    "CALL runs in the area of the object": RunsInObjectsArea,
    "leaving gives no priority back": NeverGivesBack,
    "prio is told without a change": TellsSamePriority,
    "an override of a synchronized method is synchronized": SynchronizedAbove,
    "a call runs the method of the declared class": StaticDispatch,
    # operations
    "ALLOC behind the arguments": AllocatesLate,
    "ZERO leaves a local that has a value": LocalsStay,
    "INIT before the super part": on(InitFirst),
    "no DROP": on(NoDrop),
    "null can't be cast": CastsNull,
    "a shift by more than 31": counting("<<", lambda l, r: slow_machine.wrapped(l << r) if 0 <= r < 99 else 0),
    ">>> keeps the sign": counting(">>>", lambda l, r: l >> (r & 31)),
    ">> fills with 0": counting(">>", lambda l, r: slow_machine.wrapped((l & 0xFFFFFFFF) >> (r & 31))),
    "a quotient that is rounded down": counting("/", lambda l, r: slow_machine.wrapped(l // r)),
    "a remainder with the divisor's sign": counting("%", lambda l, r: l % r),
    "an unwritten super part at the constructor": on(ElsewhereSuper),
    "the sequencer's operations all stand at the safelet": MissionAtSafelet,
    "START stands at the method": StartsAtMethod,
}
