"""The symbols and patterns of the page's picture, and its legend."""

SYMBOLS = """
<symbol id="m-period" overflow="visible"><path class="ink" d="M0 45V10"/><path class="inked" d="M0 1l4 10h-8z"/></symbol>
<symbol id="m-fire" overflow="visible"><path class="ink" d="M0 40V10"/><path class="inked" d="M0 1l4 10h-8z"/><circle class="open" cx="0" cy="42" r="3"/></symbol>
<symbol id="m-release" overflow="visible"><path class="ink" d="M0 45V11"/><path class="open" d="M0 1l4 10h-8z"/></symbol>
<symbol id="m-print" overflow="visible"><circle class="open" cx="0" cy="0" r="2.6"/></symbol>
<symbol id="m-fault" overflow="visible"><path class="halo" d="M-5-5L5 5M-5 5L5-5"/><path class="bad" d="M-5-5L5 5M-5 5L5-5"/></symbol>
<symbol id="m-lost" overflow="visible"><circle class="badly" cx="0" cy="0" r="5"/><path class="bad" d="M-3.5 3.5L3.5-3.5"/></symbol>
<symbol id="m-drop" overflow="visible"><path class="badly" d="M-5-4h10L0 5z"/></symbol>
<symbol id="m-miss" overflow="visible"><path class="badly" d="M0-6L5 0 0 6-5 0z"/></symbol>
<pattern id="stripes" width="6" height="6" patternUnits="userSpaceOnUse" patternTransform="rotate(45)"><rect width="6" height="6" style="fill:var(--paper)"/><rect width="2" height="6" style="fill:var(--stripe)"/></pattern>
<pattern id="dots" width="5" height="5" patternUnits="userSpaceOnUse"><rect width="5" height="5" style="fill:var(--paper)"/><circle cx="2" cy="2" r="1" style="fill:var(--dots)"/></pattern>
<pattern id="setup" width="5" height="5" patternUnits="userSpaceOnUse"><rect width="5" height="5" style="fill:var(--paper)"/><rect width="1.2" height="5" style="fill:var(--line)"/></pattern>
"""
LEGEND = (
    ("run", "runs"), ("raised", "with a raised priority"), ("preempted", "preempted: started, and another one runs"),
    ("waiting", "waits for its first unit"), ("own", "the sequencer acts"), ("m-period", "release by its period"),
    ("m-fire", "by a fire of the plan"), ("m-release", "by <code>release()</code>"), ("m-print", "prints"), ("m-fault", "fault"),
    ("m-lost", "lost: 64 wait"), ("m-drop", "dropped: the mission's end was asked"), ("m-miss", "a fire that missed"),
    ("asked", "the mission's end is asked"), ("folded", "idle time, folded"),
)


def legend():
    out = []
    for kind, words in LEGEND:
        if kind.startswith("m-"):
            arrow = kind in ("m-period", "m-fire", "m-release")
            sample = '<svg width="16" height="%d"><use href="#%s" x="8" y="%d"/></svg>' % (46 if arrow else 16, kind, 0 if arrow else 8)
            if arrow:
                sample = '<svg width="10" height="22" viewBox="-6 0 12 46"><use href="#%s"/></svg>' % kind
        elif kind == "asked":
            sample = '<svg width="10" height="18"><line class="asked" x1="5" x2="5" y1="0" y2="18"/></svg>'
        else:
            sample = '<svg width="26" height="14"><rect class="%s" x="1" y="1" width="24" height="12"/></svg>' % kind
        out.append("<li>%s%s</li>" % (sample, words))
    return '<ul class="legend">%s</ul>\n' % "".join(out)
