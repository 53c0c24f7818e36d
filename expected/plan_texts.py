"""Texts for compare_modes.py that are nearly plans, of both versions: right ones, and ones with a key or a value that is
another, missing, twice or out of place."""

VALUES = ["1", "2", "3", "0", "-1", "2.0", '"2"', "true", "0x2", "1_0", "+2", "[]", "[1]", "{ }", '"start"', '"mission"',
          "'mission'", '"Start"', '"sta\\u0072t"', '"H"', '"H\\u0041"', '"class"', '""', '"\\e"', "9999999", "10000000",
          "67108864", "67108865", "2147483648", "9223372036854775808", "1e999", "nan", "07:32", "2026-01-01"]
KEYS = ["version", "units", "store", "fire", "reading", "at", "handler", "from", "port", "value", '"from"', "'at'", "a",
        '"a\\nb"', '"\\u007f"', '"%s"' % ("k" * 257), "Version", '"version "', "a.b", "from.a", '"fr\\u006fm"']
SIGNS = ["", " ", '"', "\n", "=", "[", "}", "#", "1", "\\", "."]


def changed(chance, pairs):
    """The pairs with one that is another one, missing, or more."""
    at, kind = chance.randrange(len(pairs)), chance.randrange(4)
    if kind == 0:
        pairs[at] = pairs[at][0], chance.choice(VALUES)
    elif kind == 1:
        del pairs[at]
    elif kind == 2:
        pairs[at] = chance.choice(KEYS), pairs[at][1]
    else:
        pairs.append((chance.choice(KEYS), chance.choice(VALUES)))


def row(chance, key, is_second):
    if key == "reading":
        pairs = [("port", str(chance.choice([0, 1, 255]))), ("at", "2"), ("value", chance.choice(["-5", "2147483647"]))]
    else:
        pairs = [("at", chance.choice(["0", "1", "3", "9999999"])), ("handler", chance.choice(['"H"', '"K"', "'_$1'"]))]
        if chance.random() < (0.9 if is_second else 0.1):
            pairs.append(("from", chance.choice(['"start"', '"mission"'])))
    chance.shuffle(pairs)
    if chance.random() < 0.12:
        changed(chance, pairs)
    return pairs


def text(chance):
    """One such text."""
    is_second = chance.random() < 0.7
    pairs, behind = [("version", "2" if is_second else "1"), ("units", "5"), ("store", "64")], ""
    if chance.random() < 0.1:
        pairs[0] = "version", chance.choice(["2", "0b10", "2.0", "3", '"2"'])
    if chance.random() < 0.15:
        changed(chance, pairs)
    for key, share in ("fire", 0.8), ("reading", 0.3):
        if chance.random() < share:
            rows = [row(chance, key, is_second) for _ in range(chance.choice([0, 1, 1, 2, 3]))]
            if chance.random() < 0.5:
                inline = ", ".join("{%s}" % ", ".join("%s = %s" % pair for pair in it) for it in rows)
                pairs.append((key, "[%s]" % inline))
            else:
                behind += "".join("[[%s]]\n%s" % (key, "".join("%s = %s\n" % pair for pair in it)) for it in rows)
    chance.shuffle(pairs)
    made = "".join("%s = %s\n" % pair for pair in pairs) + behind
    if chance.random() < 0.08:
        at = chance.randrange(len(made))
        made = made[:at] + chance.choice(SIGNS) + made[at + 1:]
    return made
