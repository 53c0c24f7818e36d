"""The order of lines in a trace: which word may stand behind which one in a unit, by the phase of the run."""

# What may follow a line within its unit, by the phase; None stands for the unit's begin.
NOTHING = frozenset()
ACTS = frozenset((b"prio", b"print", b"fault", b"end", b"terminate", b"arrive", b"lost"))
FRONT = ACTS | {b"miss", b"run", b"idle"}
ENDS = {b"print": NOTHING, b"mission": NOTHING, b"register": NOTHING, b"cleanup": NOTHING, b"exec": frozenset((b"cleanup",)),
        b"fault": frozenset((b"halted",))}
OUTSIDE = frozenset((b"miss", b"print", b"fault", b"done", b"mission"))
OF_INITIALISATION = frozenset((b"miss", b"print", b"fault", b"register", b"exec"))
FOLLOWS = {
    "outside": {**ENDS, None: OUTSIDE, b"miss": OUTSIDE, b"end": NOTHING},
    "initialisation": {**ENDS, None: OF_INITIALISATION, b"miss": OF_INITIALISATION},
    "execution": {
        None: FRONT, b"arrive": FRONT, b"lost": FRONT, b"miss": FRONT, b"run": ACTS, b"idle": NOTHING,
        b"prio": frozenset((b"end",)), b"print": NOTHING, b"fault": frozenset((b"end",)), b"released": NOTHING,
        b"end": frozenset((b"cleanup",)), b"terminate": frozenset((b"drop",)), b"drop": frozenset((b"drop",)),
        b"exec": frozenset((b"cleanup",)),
    },
    "over": {word: NOTHING for word in (None, b"done", b"halted", b"stopped")},
}
# Lines that come again and again, which are taken apart once.
REPEATED = frozenset((b"prio", b"print", b"idle", b"lost", b"miss"))
MOST_KEPT = 1 << 16
# Words behind which a unit may be over, and nothing has to be asked of the next one.
CALM = frozenset((b"prio", b"print", b"end", b"run", b"idle", b"arrive", b"released"))
