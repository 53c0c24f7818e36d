"""Changes traces in one line each, and reads them: a run comes of it, or a BadInput that names a line, and nothing
else; and of each run the four forms of tools/timeline are made. `mutate_traces.py COUNT`; the same ones each time."""
import io
import pathlib
import random
import re
import sys

sys.dont_write_bytecode = True
TOP = pathlib.Path(__file__).resolve().parent.parent
sys.path.insert(0, str(TOP / "tools"))
from seeing import events, handler_rows, observed, page, picture, run_plan, run_reader, text_picture, waves
from seeing.trace_lines import WORDS, BadInput


def changed(chance, lines):
    """The lines with one change."""
    lines, at = list(lines), chance.randrange(len(lines))
    kind = chance.randrange(6)
    if kind == 0:
        del lines[at]
    elif kind == 1:
        lines.insert(at, lines[at])
    elif kind == 2 and at:
        lines[at - 1], lines[at] = lines[at], lines[at - 1]
    elif kind == 3:
        numbers = list(re.finditer(rb"\d+", lines[at]))
        number = chance.choice(numbers)
        value = b"%d" % max(0, int(number[0]) + chance.choice([-1, 1, 1, 100]))
        lines[at] = lines[at][:number.start()] + value + lines[at][number.end():]
    elif kind == 4:
        words = lines[at].split(b" ")
        words[1:2] = [chance.choice(WORDS)]
        lines[at] = b" ".join(words)
    else:
        place = chance.randrange(len(lines[at]) + 1)
        lines[at] = lines[at][:place] + bytes([chance.randrange(256)]) + lines[at][place + chance.randrange(2):]
    return lines


def draw(run):
    """All that is made of a run."""
    first = run.until // 3
    for part in (picture.Picture(run, 0, run.until), picture.Picture(run, first, max(first + 1, run.until // 2))):
        page.page(part, "a trace", [])
        for make in (events.events, waves.waves, text_picture.text_picture):
            "".join(make(part))
    handler_rows.complaints(run, handler_rows.rows_of(run))
    try:
        observed.observed(run, run.missions)
    except BadInput:
        pass


def main():
    chance, read, refused = random.Random(48), 0, 0
    folders = sorted(path.parent for pattern in ("expected/runs/*/plan.toml", "examples/*/plan.toml") for path in TOP.glob(pattern))
    traces = []
    for folder in folders:
        plan, path = run_plan.read_plan(str(folder / "plan.toml")), next(folder.glob("trace*"))
        if path.stat().st_size < 20000:
            traces.append((plan, path.read_bytes().split(b"\n")[:-1]))
    for count in range(int(sys.argv[1])):
        plan, lines = chance.choice(traces)
        lines = changed(chance, lines)
        text = b"".join(line + b"\n" for line in lines)
        if chance.randrange(8) == 0:
            text = text[:chance.randrange(len(text) + 1)]
        try:
            run = run_reader.Reader(plan).read(io.BytesIO(text))
        except BadInput as problem:
            refused += 1
            assert problem.line or not text, problem.text()
            assert "\n" not in problem.text() and problem.text().isprintable(), problem.text()
            continue
        read += 1
        draw(run)
    print("mutations: %d traces changed, %d refused, %d read and drawn" % (read + refused, refused, read), file=sys.stderr)
    sys.exit(0 if read and refused else 1)


main()
