"""Short forms of what stands in many texts: a `$` and a letter or digit in the place of a phrase."""

CODES = "abcdefghijklmnopqrstuvwxyzABCDEFGHIJKLMNOPQRSTUVWXYZ0123456789"
PHRASES = [
    """return n; }
 @RunsIn(CALLER) synchronized void low(int a) { n = a; }
 @RunsIn(CALLER) synchronized int both(Gate o) { return o.hit(1) + hit(2); }
 @RunsIn(CALLER) synchronized int bad(int a) { return 7 / a; }
}""",
    """class App implements Safelet {
 public MissionSequencer getSequencer() { return new Seq(); }
 public long immortalMemorySize() { return """,
    """ Seq() { super(new PriorityParameters(5), new StorageParameters(0)); }
 public Mission getNextMission() {
  if (n >= """,
    """class Sub extends Cell {
int w = -3;
Sub(int a, int c) { super(a + 1); w = w + c; }
int get() { return v + w; }
}""",
    """@Scope("M") class Gate {
 int n;
 @RunsIn(CALLER) synchronized int hit(int a) { n = n + a; """,
    '@DefineScope(name="M", parent="IMMORTAL") class Main extends Mission {',
    '@DefineScope(name="S1", parent="IMMORTAL") class M1 extends Mission {',
    """class Cell {
int v;
Cell(int a) { v = a; }
int get() { return v; }""",
    '@Scope("S1") @DefineScope(name="P1a", parent="S1") class H1a',
    "@RunsIn(CALLER) synchronized void set(int a) { n = a; seen[",
    'static int say(int a) { Trace.print("say", a); return a; }',
    '") void down1(int a) { if (a > 0) down1(a - 1); else ',
    "), new AperiodicParameters(), new StorageParameters(",
    "(Main a, Gate b) { super(new PriorityParameters(",
    "), new PeriodicParameters(new RelativeTime(0, ",
    """class Seq extends MissionSequencer {
 int n;""",
    """; }
 public void initializeApplication() { """,
    "public long missionMemorySize() { return ",
    """ extends AperiodicEventHandler {
 """,
    """; }
 public void initialize() {
  """,
    """ extends PeriodicEventHandler {
 """,
    "ManagedMemory.enterPrivateMemory(",
    "public void handleAsyncEvent() { ",
    " down1(int a) { if (a > 0) down1",
    " { super(new PriorityParameters(",
    '@Scope("M") @DefineScope(name="',
    "ManagedMemory.executeInAreaOf(",
    "@RunsIn(CALLER) synchronized ",
    "), new StorageParameters(",
    " implements Runnable {",
    "Cell(int a) { v = a; }",
    "Main m; Gate g; int c;",
    "requestTermination();",
    "), new RelativeTime(",
    "Services.setCeiling(",
    '@DefineScope(name="',
    "public void run() {",
    ")); m = a; g = b; ",
    ") return null; n",
    "{port = 1, at = ",
    "store = 100000",
    'Trace.print("',
    ".register();",
    '", parent="',
    'handler = "',
    "version = 1",
    '"}, {at = ',
    '", from = "mission"}',
    '", from = "start"}',
    "(int a) { ",
    ", value = ",
    '") class ',
    '@Scope("',
    "return ",
]


def shortened(text):
    """The text with the short forms. It holds no `$` itself."""
    for phrase, code in sorted(zip(PHRASES, CODES), key=lambda pair: -len(pair[0])):
        text = text.replace(phrase, "$" + code)
    return text


def whole(text):
    """The text for which a text with short forms stands."""
    for phrase, code in zip(PHRASES, CODES):
        text = text.replace("$" + code, phrase)
    return text
