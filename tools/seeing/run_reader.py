"""Reads a trace beside its plan: lines in, a run out (run_history.py).

Each line has to be one that can stand behind those before it: the units don't fall, what follows what in one unit,
numbers of handlers and releases, who waits, who is under way, and who acts; and each fire of the plan has its line.
That the chosen release is the most urgent one isn't asked.
"""
from seeing import run_history
from seeing.arrival_causes import Causes
from seeing.line_order import CALM, FOLLOWS, MOST_KEPT, REPEATED
from seeing.trace_lines import WORDS, BadInput, shown, split_line, strange, whole_lines

WAITING = 64


class Reader:
    """Takes the lines one after the other. `unit` is the last line's, `last` its word."""

    def __init__(self, plan, kinds=None):
        self.run = run_history.Run(plan)
        self.plan, self.unit, self.last, self.number = plan, 0, None, 0
        self.mission = None
        self.queues, self.under_way, self.living = {}, {}, 0
        self.choice, self.choice_due, self.piece_began = None, None, None
        self.acted_in = None
        self.causes = Causes(plan, kinds or {})
        self.enter("outside")
        self.steps = {word: getattr(self, "take_" + word.decode()) for word in WORDS}

    def enter(self, phase):
        self.phase, self.follows = phase, FOLLOWS[phase]

    # ---- the frame of each line

    def read(self, file):
        """Reads a binary file to its end; the run."""
        cut, kept, lines, steps = [], {}, self.run.lines, self.steps
        causes, units, shown_unit = self.causes, self.plan.units, None
        for number, line in whole_lines(file, cut):
            self.number = number
            lines.append(line)
            space = line.find(b" ")
            digits = line[:space]
            if digits != shown_unit:
                shown_unit = digits
                unit = int(digits) if digits.isdigit() and len(digits) < 9 and digits[0] != 48 else 0
                # The short way of begin_unit, for nearly all lines.
                if (self.unit < unit < units and unit < causes.next_due and self.last in CALM
                        and (self.choice_due is None or unit <= self.choice_due)):
                    if causes.arrivals or causes.misses or causes.due:
                        causes.close_unit(self.unit, self.acted_in == self.unit, number)
                    causes.has_chosen = False
                    self.unit, self.last = unit, None
                else:
                    self.begin_unit(digits, line)
            rest = line[space + 1:]
            found = kept.get(rest)
            if found is None:
                found = split_line(number, line, rest)
                if found[0] in REPEATED and len(kept) < MOST_KEPT:
                    kept[rest] = found
            word, parts = found
            if word not in self.follows[self.last]:
                self.check_order(word)
            self.last = steps[word](*parts) or word
        return self.finish(cut)

    def begin_unit(self, digits, line):
        """A line of another unit than the one before."""
        units = self.plan.units
        if not (digits.isdigit() and len(digits) < 9 and (digits[0] != 48 or len(digits) == 1)) or b" " not in line:
            raise strange(self.number, line)
        unit = int(digits)
        if self.follows is FOLLOWS["over"]:
            raise self.wrong("stands behind the last line of a run: are these two traces?")
        if unit < self.unit:
            hint = ": a second trace begins" if self.unit - unit > 1 else ""
            raise BadInput("unit %d comes behind unit %d%s" % (unit, self.unit, hint), self.number)
        if unit >= units and (unit > units or not line.endswith(b" stopped")):
            raise BadInput("unit %d, and the run of the plan has the units up to %d: the plan is another one" % (
                unit, units - 1), self.number)
        self.leave_unit(unit)
        self.unit, self.last = unit, None

    def leave_unit(self, unit):
        """What is to be so where the lines of a unit are over and one of a later unit comes."""
        causes = self.causes
        if self.last == b"fault":
            raise self.missing("behind the fault an `end` or `halted`")
        if self.last == b"exec" and not self.mission.handlers:
            raise self.missing("`cleanup`, since the mission has no handler")
        if causes.is_open():
            causes.close_unit(self.unit, self.acted_in == self.unit, self.number)
        causes.has_chosen = False
        if unit >= causes.next_due:
            causes.pass_units(unit, self.number)
        if self.choice_due is not None and self.choice_due < unit:
            raise self.missing("in unit %d a `run` or an `idle`" % self.choice_due)

    def check_order(self, word):
        """A word that may not follow the one before it in the unit, in this phase; `stopped` may stand in each."""
        if word == b"stopped" and self.last is None and self.phase != "over":
            return
        if self.phase == "over":
            raise self.wrong("stands behind the last line of a run: are these two traces?")
        where = "behind the lines of its unit" if self.last else "while no mission is in execution"
        if self.phase == "execution" and not self.last:
            where = "in execution"
        raise self.wrong("can't stand here, " + where)

    def wrong(self, what):
        return BadInput("%s %s" % (shown(self.run.lines[-1]), what), self.number)

    def missing(self, what):
        return BadInput("a line is missing before this one: %s" % what, self.number)

    # ---- missions

    def take_mission(self, name):
        if self.mission is not None:
            self.mission.until = self.unit
        self.mission = run_history.Mission(name, self.unit, self.number)
        self.run.missions.append(self.mission)
        self.enter("initialisation")
        self.causes.new_mission()

    def take_register(self, number, name, priority):
        if number != len(self.mission.handlers) + 1:
            raise self.wrong("doesn't register handler %d" % (len(self.mission.handlers) + 1))
        handler = run_history.Handler(self.mission, number, name, priority, self.unit, self.number)
        self.mission.handlers.append(handler)
        self.causes.new_handler(handler)

    def take_exec(self):
        self.mission.exec = self.unit
        self.enter("execution")
        self.queues = {handler.number: [] for handler in self.mission.handlers}
        self.under_way, self.living, self.choice = {}, 0, None
        self.choice_due = self.unit + 1
        self.causes.begin(self.unit + 1)

    def take_cleanup(self):
        if self.living:
            raise self.wrong("comes while a release waits or is under way")
        self.mission.cleanup = self.unit
        self.enter("outside")
        self.choice_due, self.choice = None, None
        self.causes.over()

    # ---- releases

    def handler(self, number):
        handlers = self.mission.handlers
        if number > len(handlers):
            raise self.wrong("names a handler that isn't registered")
        return handlers[number - 1]

    def acting(self):
        """The release that acts in this unit."""
        if self.choice is None or self.choice_due is not None and self.choice_due <= self.unit:
            raise self.wrong("comes where no release acts")
        self.acted_in = self.unit
        return self.choice

    def check_taken_in(self):
        if self.mission.asked is not None:
            raise self.wrong("comes after the mission's end was asked")

    def take_arrive(self, number, count):
        handler = self.handler(number)
        self.check_taken_in()
        if count != len(handler.releases) + 1:
            raise self.wrong("isn't release %d" % (len(handler.releases) + 1))
        queue = self.queues[number]
        if len(queue) == WAITING:
            raise self.wrong("is taken in, though %d wait" % WAITING)
        release = run_history.Release(handler, count, self.unit, self.number)
        handler.releases.append(release)
        queue.append(release)
        self.living += 1
        return self.note_arrival(handler, release)

    def take_lost(self, number):
        handler = self.handler(number)
        self.check_taken_in()
        if len(self.queues[number]) != WAITING:
            raise self.wrong("comes where not %d wait" % WAITING)
        handler.lost.append((self.unit, self.number))
        return self.note_arrival(handler, None)

    def note_arrival(self, handler, release):
        is_behind = self.last == b"run"
        self.causes.arrived(handler, release, self.choice, is_behind, self.number)
        return b"released" if is_behind else None

    def take_miss(self, name):
        self.run.misses.append((self.unit, self.number, name, self.mission))
        takes_in = self.phase == "execution" and self.mission.asked is None
        self.causes.missed(name, takes_in, self.number)

    def take_run(self, number, count):
        handler = self.handler(number)
        release = handler.releases[count - 1] if count <= len(handler.releases) else None
        if release is None or release is self.choice or release.ended is not None or release.dropped is not None:
            raise self.wrong("names no release that waits or is under way and isn't the last choice")
        queue = self.queues[number]
        if release.started is None:
            if queue[0] is not release or number in self.under_way:
                raise self.wrong("comes before an earlier release of the handler has ended")
            del queue[0]
            release.started = self.unit
            self.under_way[number] = release
        self.close_piece(self.unit)
        self.choice, self.choice_due, self.piece_began = release, None, (self.unit, self.number)
        self.causes.chosen()

    def take_idle(self):
        if self.living or self.choice_due is None:
            raise self.wrong("comes while a release waits or is under way, or again")
        self.choice, self.choice_due = None, None

    def close_piece(self, behind):
        """The piece in which the last choice ran is over."""
        if self.choice is not None and self.piece_began is not None:
            self.choice.pieces.append((self.piece_began[0], behind, self.piece_began[1]))
        self.piece_began = None

    def take_prio(self, number, priority):
        release = self.acting()
        if release.handler.number != number or priority == release.priority or priority < release.handler.priority:
            raise self.wrong("tells no other priority of the release that acts")
        release.priority = priority
        release.raises = release.raises + ((self.unit, priority, self.number),)

    def take_end(self, number, count):
        release = self.acting()
        if release.handler.number != number or release.number != count:
            raise self.wrong("isn't the release that acts")
        release.ended, release.end_line = self.unit, self.number
        self.close_piece(self.unit + 1)
        del self.under_way[number]
        self.living -= 1
        self.choice, self.choice_due = None, self.unit + 1

    def take_terminate(self):
        self.acting()
        if self.mission.asked is not None:
            raise self.wrong("comes a second time")
        self.mission.asked, self.mission.asked_line = self.unit, self.number

    def take_drop(self, number, count):
        queue = self.queues[self.handler(number).number]
        if not queue or queue[0].number != count:
            raise self.wrong("isn't the release of its handler that waits longest")
        release = queue.pop(0)
        release.dropped = self.unit
        self.living -= 1

    # ---- what is printed, and faults

    def take_print(self, label, value):
        release = self.acting() if self.phase == "execution" else None
        self.run.prints.append((self.unit, self.number, label, value, release))

    def take_fault(self, name, file, line):
        release = self.acting() if self.phase == "execution" else None
        if release is not None:
            release.fault = self.number
        self.run.faults.append((self.unit, self.number, name, file, line, release))

    # ---- the end

    def take_done(self):
        self.run.end = "done"
        self.enter("over")

    def take_halted(self):
        self.run.end = "halted"
        self.enter("over")

    def take_stopped(self):
        if self.unit != self.plan.units:
            raise self.wrong("isn't the plan's %d units: the plan is another one" % self.plan.units)
        self.run.end = "stopped"
        self.enter("over")

    def finish(self, cut):
        """The run, where the lines are over."""
        run = self.run
        if not run.lines:
            raise BadInput("the file has no whole line of a trace", 1)
        if run.end is None:
            run.cut = "the trace is cut behind line %d, in unit %d" % (self.number if not cut else len(run.lines), self.unit)
        run.until = self.unit if run.end == "stopped" else self.unit + 1
        self.close_piece(run.until)
        if self.mission is not None and self.mission.until is None:
            self.mission.until = run.until
        if run.end is None:
            self.causes.close_cut(self.unit, self.acted_in == self.unit, self.number)
        elif run.end != "stopped":
            self.causes.close_unit(self.unit, self.acted_in == self.unit, self.number)
        self.causes.settle(run)
        return run
