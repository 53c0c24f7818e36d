"""Programs for make_runs.py whose missions follow one another, with plans of version 2.

The missions of a program are of one class or of two, and each takes another time until its execution begins. Their
handlers are aperiodic, periodic and one-shot, these with a start and without. The fires count from the start of the run
or from each mission: they come in the first unit of an execution, within it, in its last units, while an end is asked,
past it, and in the unit of another fire that counts otherwise.
"""
APERIODIC = "new AperiodicParameters()"
TIMED = "new PeriodicParameters(new RelativeTime(%s, %s), new RelativeTime(%s, %s))"
HANDLER = """@Scope("%(mission)s") @DefineScope(name="P%(name)s", parent="%(mission)s") class %(name)s extends %(form)s {
 %(mission)s m; int c;%(fields)s
 %(name)s(%(mission)s w%(parameters)s) { super(new PriorityParameters(%(priority)d), %(times)s, """ + \
    """new StorageParameters(%(storage)d)); m = w; %(sets)s}
 public void handleAsyncEvent() { c++; %(body)s }
}"""


class Missions:
    """One such program. `maker` chooses, and `run` is what the slow machine does with files and a plan."""

    def __init__(self, maker):
        self.maker = maker
        self.pick, self.maybe, self.few = maker.pick, maker.maybe, maker.few
        self.classes = maker.classes

    # ---- the program

    def program(self):
        self.turns, self.missions = self.few(1, 2, 2, 3, 3, 3, 4), self.few(1, 1, 1, 2)
        for number in range(1, self.missions + 1):
            self.mission("Main%d" % number, number)
        self.maker.immortal, self.maker.sizes[1] = 2000, 3000
        self.classes["App"] = """class App implements Safelet {
 public MissionSequencer getSequencer() { return new Seq(); }
 public long immortalMemorySize() { return 2000; }
 public void initializeApplication() { }
}"""
        give = "return new Main1(n);"
        if self.missions == 2:
            give = "if (n %s) return new Main2(n); return new Main1(n);" % self.pick(["> 1", "== 2", "== 1", "% 2 == 0"])
        fields = "int n;"
        if self.missions == 1 and self.maybe(0.3):
            fields, give = "int n; Main1 kept;", "if (kept == null) kept = new Main1(1); return kept;"
        self.classes["Seq"] = """class Seq extends MissionSequencer {
 %s
 Seq() { super(new PriorityParameters(5), new StorageParameters(0)); }
 public Mission getNextMission() {
  if (n >= %d) return null; n++;
  %s
 }
}""" % (fields, self.turns, give)

    def mission(self, name, number):
        made, text = self.handlers(name, number), []
        if self.maybe(0.7):
            text.append("for (int i = 0; i < k * %d; i++) G.m = G.m + i;" % self.few(1, 2, 3, 5))
        if self.maybe(0.12):
            text.append("if (k == %d) return;" % self.few(1, 2))
        if self.maybe(0.12):
            text.append("if (k == %d) requestTermination();" % self.few(1, 2, 3))
        for handler, given in made:
            local = handler.lower()
            times = "".join(", %d" % self.few(0, 1000, 7000, 30000, 120000) for _ in given if _ == "a")
            other = ", h%d" % number if "o" in given else ""
            text.append("%s %s = new %s(this%s%s);" % (handler, local, handler, times, other))
            if self.maybe(0.96):
                text.append("%s.register();" % local)
            if handler[0] == "H" and self.maybe(0.15):
                text.append("new %s(this).register();" % handler)
            if handler[0] == "H" and self.maybe(0.15):
                self.subclass(name, handler, text)
            if "a" in given and self.maybe(0.4):
                text.append("new %s(this, %d%s).register();" % (handler, self.few(0, 5000, 40000, 77000), other))
        clean = "\n public void cleanUp() { Trace.print(\"over\", k);%s }" % self.pick(
            ["", " requestTermination();"]) if self.maybe(0.4) else ""
        self.classes[name] = """@DefineScope(name="%s", parent="IMMORTAL") class %s extends Mission {
 int k; %s(int a) { k = a; }
 public long missionMemorySize() { return 3000; }
 public void initialize() {
  %s
 }%s
}""" % (name, name, name, "\n  ".join(text), clean)

    def subclass(self, mission, name, text):
        """A class under a fires' one, which its fires don't release; its object is registered first or last."""
        below = name + "x"
        self.classes[below] = """class %s extends %s { %s(%s w) { super(w); }
 public void handleAsyncEvent() { Trace.print("x", m.k); }
}""" % (below, name, below, mission)
        self.maker.handlers.append(below)
        text.insert(self.few(0, len(text)), "new %s(this).register();" % below)

    # ---- handlers

    def handlers(self, mission, number):
        """The handlers' classes of a mission, each with what its constructor is given; the fires' first one leads."""
        first = "H%d" % number
        made = [(first, "")]
        self.handler(mission, first, APERIODIC, self.work(0.3), aperiodic=True)
        self.maker.handlers.append(first)
        for kind in self.pick(["e", "e", "eo", "ee", "ep", "op", "o", "p", "eop", "ooe", "eea"]):
            name = "%s%d%s" % (kind.upper(), number, "abc"[len(made) - 1])
            given, body = "o" if self.maybe(0.5) else "", self.work(0.15)
            if "o" in given:
                body += " " + self.pick(["o.release();", "if (c > 1) o.release();", "o.release(); o.release();"])
            if kind == "a":
                self.handler(mission, name, APERIODIC, body, given, number, aperiodic=True)
                self.maker.handlers.append(name)
            elif kind == "p":
                period = self.few(20000, 30000, 50000, 120000)
                end = " if (c > %d) m.requestTermination();" % self.few(1, 2, 3, 4) if self.maybe(0.7) else ""
                self.handler(mission, name, TIMED % (0, self.start(), 0, period), body + end, given, number)
                self.maker.periodic.append(name)
                self.maker.handlers.append(name)
            else:
                start = self.start()
                if self.maybe(0.4):
                    given, start = "a" + given, "a"
                if kind == "e":
                    body += " m.requestTermination();" + self.pick(["", "", self.lasting(), ' Trace.print("e", c);'])
                zero = self.few((0, 0), (0, 0), ("0", "1 - 1"))
                self.handler(mission, name, TIMED % (0, start, *zero), body, given, number)
                self.maker.periodic.append(name)
                self.maker.handlers.append(name)
            made.append((name, given))
        return made

    def start(self):
        return self.few(0, 0, 1000, 7000, 30000, 57000, 90000, 150000, 250000)

    def handler(self, mission, name, times, body, given="", number=1, aperiodic=False):
        parameters, fields, sets = "", "", ""
        if "a" in given:
            parameters += ", int a"
        if "o" in given:
            parameters, fields, sets = parameters + ", H%d other" % number, " H%d o;" % number, "o = other; "
        self.classes[name] = HANDLER % {
            "mission": mission, "name": name, "form": "AperiodicEventHandler" if aperiodic else "PeriodicEventHandler",
            "parameters": parameters, "fields": fields, "sets": sets, "times": times, "body": body,
            "priority": self.few(5, 7, 9, 9, 12, 18, 25), "storage": self.few(100, 200, 400)}

    def lasting(self):
        """What a release does for some time."""
        return " for (int i = 0; i < %d; i++) c = c + i;" % self.few(1, 2, 4, 8, 14)

    def work(self, share):
        """What a release of a handler does; it ends its mission by itself with this chance."""
        text = self.maker.body(safe=self.maybe(0.8), ints=["c", "m.k"]).statements(self.few(0, 0, 1, 1, 2), 1)
        if self.maybe(0.4):
            text += self.lasting()
        if self.maybe(0.4):
            text += ' Trace.print("%s", m.k);' % self.pick("uvw")
        if self.maybe(share):
            text += " if (c > %d) m.requestTermination();" % self.few(0, 1, 2)
            if self.maybe(0.5):
                text += self.lasting()
        return text

    # ---- the plan

    def plan(self, files, run):
        """A plan. Its fires are chosen by a run without them."""
        units = self.few(300, 500, 700, 1000, 1500)
        front = ["version = 2", "units = %d" % units, "store = 100000"]
        spans = self.spans(run(files, "\n".join(front) + "\n").lines, units)
        if self.maybe(0.1):
            front[1] = "units = %d" % self.few(0, *(unit + self.few(-1, 0, 1, 2) for span in spans for unit in span))
        fires = []
        for _ in range(self.few(1, 2, 2, 3, 3, 4, 6, 9)):
            fires += [self.mission_fire(spans, units)] * self.few(*[1] * 20, 2, 3)
        for _ in range(self.few(0, 0, 1, 1, 2, 4)):
            fires.append(self.start_fire(spans, units, fires))
        if self.maybe(0.03):
            at, name = self.few(0, 5, 60), self.pick(self.named())
            fires += [(at, name, "mission")] * self.few(63, 64, 65)
        self.maker.chance.shuffle(fires)
        style = '{at = %d, handler = "%s", from = "%s"}'
        if self.maybe(0.2):
            return "\n".join(front + ['[[fire]]\nat = %d\nhandler = "%s"\nfrom = "%s"' % fire for fire in fires]) + "\n"
        return "\n".join(front + ["fire = [%s]" % ", ".join(style % fire for fire in fires)]) + "\n"

    def spans(self, lines, units):
        """The first unit of each execution, and the first behind it."""
        found, begin = [], None
        for line in lines:
            unit, word = line.split(" ")[:2]
            if word == "exec":
                begin = int(unit) + 1
            elif word == "cleanup" and begin is not None:
                found.append((begin, max(int(unit) + 1, begin)))
                begin = None
        return found + ([(begin, units)] if begin is not None else []) or [(44, units)]

    def named(self):
        return [name for name in self.maker.handlers if name not in self.maker.periodic] or ["H1"]

    def target(self):
        return self.pick(self.named() * 4 + self.maker.handlers + ["Nobody"])

    def mission_fire(self, spans, units):
        first, behind = self.pick(spans)
        at = self.few(0, 0, 1, 2, self.few(*range(3, 60)), self.few(*range(0, max(behind - first, 1))),
                      behind - first + self.few(-3, -2, -1, 0, 1, 2), self.few(units, 9999999, units - first))
        return max(at, 0), self.target(), "mission"

    def start_fire(self, spans, units, fires):
        """One from the start, often in the unit of a fire from a mission."""
        first, behind = self.pick(spans)
        at = self.few(first + self.pick(fires)[0], first + self.pick(fires)[0], first, first - 1, behind - 1, behind,
                      self.few(*range(0, 45)), self.few(*range(0, units)))
        return min(at, 9999999), self.target(), "start"
