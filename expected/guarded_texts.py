"""Programs whose parameters and locals may lie anywhere, made from a random source, with `if`s that ask whether two objects
lie in one area: guards, and conditions that nearly are guards.

`text` gives such a program. Most of them break rules; `with_wrong_head` breaks one more, in a header. `mended` leaves out
the lines that break rules, until nothing is broken: one statement stands on a line, so what is left is still a program.
"""
import re

import slow_rules

PLAN = "version = 1\nunits = 2600\nstore = 40000\n"
SCOPES = ["@Scope(UNKNOWN) "] * 6 + [""] * 2 + ["@Scope(THIS) ", "@Scope(IMMORTAL) ", "@Scope(M) ", "@Scope(CALLER) "]
FIELDS = ["next", "other", "next", "other", "mark"]

HEAD = """class App implements Safelet {
  static Item shared;
  public MissionSequencer getSequencer() { return new Seq(); }
  public long immortalMemorySize() { return 4000; }
  public void initializeApplication() { shared = new Item(1); shared.next = new Item(2); }
}
class Seq extends MissionSequencer {
  boolean over;
  Seq() { super(new PriorityParameters(5), new StorageParameters(0)); }
  public Mission getNextMission() { if (over) return null; over = true; return new Main(); }
}
@DefineScope(name="M", parent="IMMORTAL") class Main extends Mission {
  public long missionMemorySize() { return 8000; }
  public void initialize() { Item a = new Item(3); a.next = new Sub(4); new Hand(a, new Box()).register(); }
}
"""
HAND = """@Scope("M") @DefineScope(name="S", parent="M") class Hand extends PeriodicEventHandler {
  Item kept; Box box;
  Hand(Item k, Box b) {
    super(new PriorityParameters(7), new PeriodicParameters(new RelativeTime(0, 0), new RelativeTime(2, 0)), new StorageParameters(12000));
    kept = k; box = b;
  }
  public void handleAsyncEvent() {
    Item own = new Item(10);
    own.next = new Sub(11);
    Sub sub = new Sub(12);
    @Scope("M") Item far = kept;
    @Scope(IMMORTAL) Item first = App.shared;
    @Scope(UNKNOWN) Item any = own;
    @Scope(UNKNOWN) Object thing = box;
"""
# What a header may have that breaks a rule on annotations, and in the place of what.
WRONG_HEADS = [
    ("Item next; ", "@Scope(UNKNOWN) Item next; "),
    ("@Scope(THIS) Item other; ", "@Scope(UNKNOWN) Item other; "),
    ("@Scope(THIS) Item last", "@Scope(UNKNOWN) Item last"),
    ("@Scope(IMMORTAL) Item mark", '@Scope("LOST") Item mark'),
    ("static Item shared", "@Scope(UNKNOWN) static Item shared"),
    ("int value;", "@Scope(UNKNOWN) int value;"),
    ("@Scope(UNKNOWN) Object thing", "@Scope(UNKNOWN) Box thing"),
    ('@Scope("M") class Box', "@Scope(UNKNOWN) class Box"),
    ('name="Q"', 'name="UNKNOWN"'),
    ('name="Q"', 'name="LOST"'),
    ("@RunsIn(CALLER) ", "@RunsIn(UNKNOWN) "),
    ("static void t0(@Scope(UNKNOWN) ", "static void t0(@Scope(LOST) "),
]


class Body:
    """The lines of one body."""

    def __init__(self, chance, variables, calls, has_this):
        self.chance, self.calls, self.has_this = chance, calls, has_this
        self.known = list(variables)
        self.lines, self.named = [], 0

    def say(self, depth, text):
        self.lines.append("  " * (depth + 2) + text)

    def maybe(self, share):
        return self.chance.random() < share

    def fresh(self, letter):
        self.named += 1
        return f"{letter}{self.named}"

    def of(self, *types):
        """A variable of one of these types, or `this`; None where there is none."""
        names = [name for name, kind in self.known if kind in types]
        return self.chance.choice(names) if names else None

    def number(self):
        return str(self.chance.randrange(20, 100))

    # ---- statements

    def kind(self, name):
        return dict(self.known)[name]

    def value(self, kind="Item"):
        """An expression that may be kept in a variable of this class."""
        if kind == "Sub":
            return self.chance.choice(["null", f"new Sub({self.number()})", self.of("Sub") or "null"])
        x = self.of("Item", "Sub")
        kinds = ["null", "App.shared", f"new Item({self.number()})", f"new Sub({self.number()})"]
        if x:
            kinds += [x] * 6 + [f"{x}.{field}" for field in FIELDS] + [f"{x}.row[0]", f"{x}.last()"]
        o = self.of("Object")
        if o and (kind == "Object" or self.maybe(0.1)):
            kinds += [o if kind == "Object" else f"(Item) {o}"] * 3
        return self.chance.choice(kinds)

    def store(self, depth, about=()):
        """A store in a field, of the subjects of a guard more often than of others."""
        x, y = self.of("Item", "Sub"), self.of("Item", "Sub")
        subjects = [s for s in about if self.kind(s) in ("Item", "Sub")]
        if len(subjects) == 2 and self.maybe(0.75):
            x, y = self.chance.sample(subjects, 2)
        if x is None or y is None:
            return
        field = self.chance.choice(FIELDS + ["row[0]", "more" if self.kind(x) == "Sub" else "next"])
        value = self.chance.choice([y] * 8 + [f"({y})", "null", self.value()])
        # The safe value, so that the place isn't one of a null.
        before = "" if about or x == "this" or self.maybe(0.1) else f"if ({x} != null) "
        target = field if x == "this" and self.maybe(0.5) else f"{x}.{field}"
        if self.maybe(0.03):
            target = f"({x}).{field}"
        self.say(depth, f"{before}{target} = {value};")

    def assign(self, depth, names=()):
        x = self.chance.choice(names) if names and self.maybe(0.4) else self.of("Item", "Sub", "Object")
        if x is None or x == "this":
            return
        self.say(depth, f"{x} = {self.chance.choice([self.value(self.kind(x)), self.value(self.kind(x)), 'null'])};")

    def local(self, depth):
        name, kind = self.fresh("v"), self.chance.choice(["Item", "Item", "Item", "Sub", "Object"])
        self.say(depth, f"{self.chance.choice(SCOPES)}{kind} {name} = {self.value(kind)};")
        self.known.append((name, kind))

    def call(self, depth):
        name, parameters = self.chance.choice(self.calls)
        given = [self.of(*{"Item": ("Item", "Sub"), "Sub": ("Sub",), "Object": ("Item", "Sub", "Object")}[kind]) or "null"
                 for kind in parameters]
        if name.startswith("."):
            x = self.of("Item", "Sub")
            if x is None:
                return
            name = f"if ({x} != null) {x}{name}"
        self.say(depth, f"{name}({', '.join(given)});")

    def show(self, depth):
        x, y = self.of("Item", "Sub"), self.of("Item", "Sub", "Object")
        if x:
            kinds = [f'Trace.print("sum", Tools.sum({x}));', f'if ({x} != null) Trace.print("value", {x}.value);',
                     f'if ({x} == {y}) Trace.print("one", {self.number()});']
            self.say(depth, self.chance.choice(kinds))

    def block(self, depth, count, about=()):
        known = len(self.known)
        for _ in range(count):
            self.statement(depth, about)
        del self.known[known:]

    def statement(self, depth, about=()):
        kinds = ["store"] * (7 if about else 3) + ["local", "local", "assign", "call", "show", "ask", "ask", "ask", "loop"]
        kind = self.chance.choice(kinds)
        if kind == "ask" and depth < 5:
            self.ask(depth)
        elif kind == "loop" and depth < 3:
            i = self.fresh("i")
            self.say(depth, f"for (int {i} = 0; {i} < 2; {i}++) {{")
            self.block(depth + 1, 2, about)
            self.say(depth, "}")
        elif kind == "store":
            self.store(depth, about)
        elif kind == "assign":
            self.assign(depth, about if self.maybe(0.5) else ())
        elif kind in ("local", "call", "show") and (kind != "call" or self.calls):
            getattr(self, kind)(depth)

    # ---- what asks

    def condition(self, x, y):
        asks = f"ManagedMemory.allocInSame({x}, {y})"
        if self.maybe(0.8):
            return asks
        near = [f"({asks})", f"!{asks}", f"{asks} && true", f"true && {asks}", f"{asks} == true", f"{x} == {y}", "true",
                f"ManagedMemory.allocInSame(({x}), {y})", f"ManagedMemory.allocInSame({x}, ({y}))",
                f"ManagedMemory.allocInSame({x}, App.shared)", f"ManagedMemory.allocInSame(null, {y})"]
        return self.chance.choice(near)

    def ask(self, depth):
        x, y = (self.of("Item", "Sub", "Item", "Object") for _ in range(2))
        if x is None or y is None:
            return
        if self.maybe(0.15) and self.has_this:
            x = "this"
        about = (x, y)
        if self.maybe(0.15):
            one, other = about if self.maybe(0.5) else about[::-1]
            if all(self.kind(s) in ("Item", "Sub") for s in about):
                self.say(depth, f"if ({self.condition(x, y)}) {one}.next = {other}; else Trace.print(\"no\", {self.number()});")
            return
        self.say(depth, f"if ({self.condition(x, y)}) {{")
        self.say(depth + 1, f'Trace.print("yes", {self.number()});')
        if self.maybe(0.15):
            self.assign(depth + 1, about)
        self.block(depth + 1, self.chance.randint(1, 4), about)
        if self.maybe(0.1):
            self.assign(depth + 1, about)
        if self.maybe(0.5):
            self.say(depth, "} else {")
            self.say(depth + 1, f'Trace.print("no", {self.number()});')
            if self.maybe(0.4):
                self.store(depth + 1, about)
        self.say(depth, "}")


def method(chance, head, name, calls, this=None, before=""):
    """A method with parameters by chance; its text, and what calls it."""
    kinds = [chance.choice(["Item", "Item", "Item", "Sub", "Object"]) for _ in range(chance.randint(1, 3))]
    scopes = SCOPES if this else [scope for scope in SCOPES if "THIS" not in scope]
    parameters = [(f"p{n}", kind) for n, kind in enumerate(kinds)]
    written = ", ".join(f"{chance.choice(scopes)}{kind} {name_}" for name_, kind in parameters)
    known = parameters + ([("this", this)] if this else [])
    body = Body(chance, known, calls, this is not None)
    body.block(0, chance.randint(2, 4))
    lines = [f"  {before}{head} {name}({written}) {{"] + body.lines + ["  }"]
    return "\n".join(lines) + "\n", kinds


def text(chance):
    """A program that may break rules on scopes."""
    calls, items, subs, boxes, tools = [], "", "", "", ""
    for n in range(2):
        one, kinds = method(chance, "static void", f"t{n}", calls)
        tools += one
        calls.append((f"Tools.t{n}", kinds))
    one, kinds = method(chance, "void", "m0", calls, "Item")
    items += one
    calls.append((".m0", kinds))
    one, _ = method(chance, "void", "s0", calls, "Sub")
    subs += one
    one, kinds = method(chance, "void", "keep", calls, "Box", "@RunsIn(CALLER) ")
    boxes += one
    hand = Body(chance, [("own", "Item"), ("sub", "Sub"), ("far", "Item"), ("first", "Item"), ("any", "Item"),
                         ("thing", "Object"), ("kept", "field")], calls, False)
    for _ in range(3):
        hand.call(0)
    hand.block(0, 3)
    hand.say(0, "box.keep(%s);" % ", ".join({"Sub": "sub", "Item": "far", "Object": "thing"}[kind] for kind in kinds))
    for name in "own", "far", "first":
        hand.say(0, f'Trace.print("{name}", Tools.sum({name}));')
    whole = HEAD + (
        "class Item {\n  Item next; @Scope(THIS) Item other; @Scope(IMMORTAL) Item mark; Item[] row; int value;\n"
        "  Item(int v) { value = v; row = new Item[1]; }\n  @Scope(THIS) Item last() { if (next == null) return this; return next; }\n"
        + items + "}\nclass Sub extends Item {\n  Item more;\n  Sub(int v) { super(v); }\n" + subs + "}\n"
        '@Scope("M") class Box {\n  Item kept; @Scope(IMMORTAL) Item sign; Item next; Item other; Item mark;\n' + boxes + "}\nclass Tools {\n"
        "  static int sum(@Scope(UNKNOWN) Item from) {\n    int s = 0;\n    @Scope(UNKNOWN) Item i = from;\n"
        "    for (int n = 0; n < 4; n++) { if (i != null) { s += i.value; i = i.next; } }\n    return s;\n  }\n" + tools
        + '}\n@DefineScope(name="Q", parent="S") class Inner implements Runnable { public void run() { } }\n'
        + HAND + "\n".join(hand.lines) + "\n  }\n}\n"
    )
    return whole


def with_wrong_head(chance, whole):
    """The program with something in a header that breaks a rule."""
    right, wrong = chance.choice(WRONG_HEADS)
    return whole.replace(right, wrong, 1)


def mended(name, whole):
    """The report of a program, and the program without the lines that break rules; None where that comes to no end."""
    first = report = slow_rules.lines([name], [whole])
    for _ in range(20):
        if report == ["accepted"]:
            return first, whole
        lines = whole.split("\n")
        for line in report[:-1]:
            at = int(line.split(":")[1]) - 1
            lines[at] = re.sub(r"\S.*", "if (true) {" if lines[at].endswith("{") else "", lines[at])
        whole = "\n".join(lines)
        report = slow_rules.lines([name], [whole])
    return first, None
