"""What a text is as a plan: what scj says of it, the row that is wrong, and why.

scj reads TOML 1.1 by a reader of its own, and this by Python's, which reads TOML 1.0; what the two read differently is
asked here. docs/PLAN.md says what may stand in a plan.
"""
import difflib
import re
import tomllib

from mending.lexemes import RESERVED

DEEPEST, ROWS = 80, 10_000
LAST_UNIT = 9_999_999
INT = (-2_147_483_648, 2_147_483_647)
BOUNDS = {"version": (1, 2), "units": (0, 10_000_000), "store": (0, 67_108_864)}
ROW_KEYS = {
    "fire": {"at": (0, LAST_UNIT), "handler": None},
    "reading": {"port": (0, 255), "at": (0, LAST_UNIT), "value": INT},
}
# What a fire has besides in a plan of version 2, and the words that may stand there.
FROM = {"from": ("start", "mission")}
# So many bytes of a key are printed.
TOLD = 256
NAME = re.compile(r"[A-Za-z_$][A-Za-z0-9_$]{0,63}")


def shown(text):
    return "".join(c if c.isprintable() else "?" for c in str(text))


def told(key):
    """A key as scj tells it, on one line."""
    data = bytes(63 if byte < 32 or byte == 127 else byte for byte in key.encode()[:TOLD])
    return data.decode(errors="replace")


def listed(names):
    names = list(names)
    return ", ".join(names[:-1]) + " and " + names[-1] if len(names) > 1 else "".join(names)


def nearest(name, names):
    near = difflib.get_close_matches(name, list(names), 1)
    return f"; did you mean {near[0]}?" if near else ""


# ---- the text of a plan


def read_toml(data):
    """The table that a text is, and why it is none. What the two readers of TOML read differently is asked here."""
    try:
        text = data.decode()
    except UnicodeDecodeError as error:
        line = data[: error.start].count(b"\n") + 1
        return None, f"line {line} has a byte that isn't UTF-8"
    text = text.removeprefix("\ufeff")
    depth, parts = depths(text)
    if depth > DEEPEST or parts > DEEPEST:
        return None, f"arrays, tables or the parts of a key go more than {DEEPEST} deep"
    try:
        table = tomllib.loads(as_older(text), parse_float=finite)
    except (ValueError, RecursionError) as error:
        return None, with_line(text, str(error) or "it goes too deep")
    large = first_large(table)
    if large is not None:
        return None, f"the number {large} has more than 64 bits"
    return table, None


PIECES = re.compile(
    r'"""(?:\\.|[^\\])*?"""\"{0,2}|\'\'\'.*?\'\'\'\'{0,2}|"(?:\\.|[^"\\\n])*"|\'[^\'\n]*\'|#[^\n]*|[\[\]{},]'
    r'|[^"\'#\[\]{},]+|.',
    re.S,
)


# Stands for a line feed within braces. No text of TOML has it.
LINE_FEED = "\0"


def as_older(text):
    """A text of TOML 1.1, which scj reads, as one of 1.0, which Python reads: line feeds, comments and a last comma within
    braces, two escapes, times without seconds, the second 60 and the year 0."""
    if LINE_FEED in text:
        return text
    made, open_signs, whole, is_open_text = [], [], [-1, -1], False
    for piece in PIECES.findall(text):
        is_open_text = is_open_text or piece in ('"', "'")
        within = open_signs[-1:] == ["{"] and not is_open_text
        if piece[0] == '"':
            piece = re.sub(r"\\(x[0-9A-Fa-f]{2}|.)", older_escape, piece, flags=re.S)
        elif piece in ("[", "{"):
            open_signs.append(piece)
        elif piece in ("]", "}"):
            if piece == "}" and within and whole[1] >= 0 and made[whole[1]] == "," and made[whole[0]] not in ("{", ","):
                made[whole[1]] = ""
            del open_signs[-1:]
        elif piece[0] == "#":
            piece = "" if within else piece
        elif piece[0] != "'":
            piece = older_words(piece, within)
        made.append(piece)
        if piece.strip(" \t\r\n" + LINE_FEED):
            whole = [whole[1], len(made) - 1]
    # a line doesn't end around the `=` and the dots of a pair, also within braces
    within_pair = re.compile(rf"[=.][ \t{LINE_FEED}]*{LINE_FEED}|{LINE_FEED}[ \t{LINE_FEED}]*[=.]")
    text = within_pair.sub(lambda found: found[0].replace(LINE_FEED, "\n"), "".join(made))
    return text.replace(LINE_FEED, " ")


def older_words(piece, is_within):
    """Keys, numbers, dates and blanks."""
    piece = re.sub(r"\r?\n", LINE_FEED, piece) if is_within else piece
    piece = re.sub(r"(?<![:\d+-])(\d\d:\d\d)(?![:\d.])", r"\1:00", piece)
    piece = re.sub(r"(\d\d:\d\d):60", r"\1:59", piece)
    return re.sub(r"(^|=)(\s*)0000-(?=\d\d-\d\d)", r"\g<1>\g<2>2000-", piece)


def older_escape(found):
    return "\\u001b" if found[1] == "e" else f"\\u00{found[1][1:]}" if found[1][0] == "x" and len(found[1]) == 3 else found[0]


def finite(text):
    """A number with a point or an exponent; one that is too large is none."""
    value = float(text)
    if value in (float("inf"), float("-inf")) and text.lstrip("+-") != "inf":
        raise ValueError(f"the number {text} is too large")
    return value


def depths(text):
    """How deep brackets go, and how many parts the longest key has; texts and comments don't count."""
    bare = re.sub(r'"""[\s\S]*?"""|\'\'\'[\s\S]*?\'\'\'|"(?:\\.|[^"\\\n])*"|\'[^\'\n]*\'|#[^\n]*', "s", text)
    depth = deepest = 0
    for sign in re.findall(r"[][{}]", bare):
        depth += 1 if sign in "[{" else -1
        deepest = max(deepest, depth)
    keys = re.findall(r"[\w-]+(?:[ \t]*\.[ \t]*[\w-]+)+", bare)
    return deepest, max([it.count(".") + 1 for it in keys], default=0)


def first_large(value):
    """A number that has more than 64 bits."""
    if isinstance(value, int) and not -(1 << 63) <= value < 1 << 63:
        return value
    if isinstance(value, dict):
        value = list(value.values())
    if isinstance(value, list):
        return next((it for it in map(first_large, value) if it is not None), None)
    return None


def with_line(text, why):
    found = re.search(r" \(at line (\d+), column \d+\)$", why)
    if not found:
        return why
    lines = text.split("\n")
    line = lines[min(int(found[1]), len(lines)) - 1].strip()
    return f"{why[: found.start()]}, at line {found[1]}: {shown(line)}"


# ---- what a plan may say


def is_number(value):
    return isinstance(value, int) and not isinstance(value, bool)


def number_fault(value, bounds):
    """Why a value is no number within the bounds."""
    low, high = bounds
    if isinstance(value, float):
        return f"{value} is written with a point or an exponent, and no whole number"
    if not is_number(value):
        return f"{kind(value)} stands where a whole number is due"
    if low <= value <= high:
        return None
    return f"{value} isn't {low}" if low == high else f"{value:,} isn't within {low:,} to {high:,}"


def kind(value):
    kinds = {str: "a text", bool: "true or false", list: "an array", dict: "a table", int: "a number", float: "a number"}
    return kinds.get(type(value), "a date or a time")


def handler_fault(value):
    if not isinstance(value, str):
        return f"{kind(value)} stands where the name of a class is due"
    if value in RESERVED:
        return f"{value} is a word of the language and no class"
    if not NAME.fullmatch(value):
        return f'"{shown(value)}" is no name of a class'
    return None


def word_fault(value, words):
    """Why a value is none of these words."""
    quoted = " or ".join(f'"{it}"' for it in words)
    if not isinstance(value, str):
        return f"{kind(value)} stands where {quoted} is due"
    return None if value in words else f'"{shown(value)}" isn\'t {quoted}'


def keys_of(key, version):
    """The keys of a row. A fire has one more where the version is the number 2."""
    return ROW_KEYS[key] | (FROM if key == "fire" and is_number(version) and version == 2 else {})


def row_fault(row, keys):
    """Why a row isn't one of these keys."""
    if not isinstance(row, dict):
        return f"{kind(row)} stands where a table with {listed(keys)} is due"
    for it in row:
        if it not in keys and it in FROM and "handler" in keys:
            return f"it has a key {it}, which a fire has in a plan of version 2 alone"
        if it not in keys:
            return f"it has a key {shown(it)}, which isn't one of {listed(keys)}{nearest(it, keys)}"
    for it, wanted in keys.items():
        if it not in row:
            return f"it has no {it}" + (", which each fire has in a plan of version 2" if it in FROM else "")
        why = value_fault(row[it], wanted)
        if why:
            return f"its {it}: {why}"
    return None


def value_fault(value, wanted):
    """Why a value of a row isn't what is wanted: the name of a class, one of some words, or a number within bounds."""
    if wanted is None:
        return handler_fault(value)
    return word_fault(value, wanted) if isinstance(wanted[0], str) else number_fault(value, wanted)


def rows_fault(key, value, version):
    """The number of the first row that is wrong, or none, and why."""
    if isinstance(value, dict):
        return None, f"[{key}] is one table; write [[{key}]] before each row"
    if not isinstance(value, list):
        return None, f"{key} is no array of rows; write [[{key}]] before each row"
    for at, row in enumerate(value[: ROWS + 1]):
        if at == ROWS:
            return at, f"there are {len(value):,} rows, and {ROWS:,} may be"
        why = row_fault(row, keys_of(key, version))
        if why:
            return at, why
    return None, None


def verdict(data):
    """What scj says of a text, or None where it is a plan; the number of the row that is wrong, or None; and why."""
    table, why = read_toml(data)
    return ("not toml", None, why) if table is None else verdict_of(table)


def verdict_of(table):
    """The same of the table that a text is."""
    for key in sorted(table, key=str.encode):
        if key in BOUNDS:
            row, why = None, number_fault(table[key], BOUNDS[key])
        elif key in ROW_KEYS:
            row, why = rows_fault(key, table[key], table.get("version"))
        else:
            return f"bad key {told(key)}", None, f"no plan has this key{nearest(key, [*BOUNDS, *ROW_KEYS])}"
        if why:
            return f"bad value {key}", row, why
    for key in BOUNDS:
        if key not in table:
            return f"bad key {key}", None, f"{key} has to be there, and isn't"
    return None, None, None
