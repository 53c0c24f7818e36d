"""The tables of crates/scj_tables: each begins with a line `%% NAME` in the program's input, and in what it prints."""
import pathlib

HOME = pathlib.Path(__file__).resolve().parent.parent / "crates" / "scj_tables"
NAMES = ["reports", "changed", "runs", "nodes"]


def parted(part):
    """The tables of a file, `stdin` or `stdout`, by their names, as bytes."""
    found, name = {}, None
    for line in (HOME / part).read_bytes().splitlines(keepends=True):
        if line.startswith(b"%% "):
            name = line[3:].decode().strip()
            found[name] = []
        else:
            found[name].append(line)
    return {name: b"".join(lines) for name, lines in found.items()}


def read(part, name):
    """The text of one table."""
    return parted(part)[name].decode()


def write(part, name, text):
    """Puts a text in the place of one table."""
    found = parted(part)
    found[name] = text.encode()
    (HOME / part).write_bytes(b"".join(b"%% " + name.encode() + b"\n" + found[name] for name in NAMES))
