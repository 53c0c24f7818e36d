"""Prints the bytes of sources as definitions."""

WIDTH = 96


def literal(text):
    return text.replace("\\", "\\\\").replace('"', '\\"').replace("\n", "\\n")


def pieces(text):
    """The text in pieces that fit on a line: whole lines as far as it goes, else cut behind a blank."""
    cut = []
    for line in text.splitlines(keepends=True):
        while len(literal(line)) > WIDTH:
            k = line.rfind(" ", 0, WIDTH - 4) + 1
            cut.append(line[:k])
            line = line[k:]
        cut.append(line)
    joined = []
    for piece in cut:
        if joined and len(literal(joined[-1] + piece)) <= WIDTH:
            joined[-1] += piece
        else:
            joined.append(piece)
    return joined


def joined(text, first=None):
    """The term that joins the pieces of a text, behind a name if there is one."""
    parts = ([first] if first else []) + ['codes "%s"' % literal(piece) for piece in pieces(text)]
    lines = ["    " + parts[0]]
    lines += ["    ++ (" + part for part in parts[1:-1]]
    lines += ["    ++ " + part for part in parts[1:][-1:]]
    return "\n".join(lines) + ")" * max(len(parts) - 2, 0) + "\n"


def definition(name, text, first=None, shown=True):
    return "\nabbrev %s%s : List ℕ\n%s =\n" % ("pub " if shown else "", name, name) + joined(text, first)
