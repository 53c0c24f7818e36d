"""Runs the commands of a page that begin with `$ tools/`, and compares what stands below them in the same block with
what they print, on both outputs. A line `..` stands for lines that are left out. `shown_commands.py PAGE..`"""
import pathlib
import re
import subprocess
import sys

TOP = pathlib.Path(__file__).resolve().parent.parent


def shown(page):
    """The commands of a page, each with the lines below it."""
    for block in re.findall(r"^```\n(\$ tools/.*?)^```$", page, re.DOTALL | re.MULTILINE):
        for part in re.split(r"^\$ ", block, flags=re.MULTILINE)[1:]:
            command, _, text = part.partition("\n")
            yield command, text


def is_same(wanted, printed):
    pattern = "".join("(?:.*\n)*" if line == ".." else re.escape(line) + "\n" for line in wanted.splitlines())
    return re.fullmatch(pattern, printed) is not None


def main():
    wrong = count = 0
    for name in sys.argv[1:]:
        for command, wanted in shown((TOP / name).read_text()):
            count += 1
            done = subprocess.run(command.split(), cwd=TOP, stdin=subprocess.DEVNULL, capture_output=True, text=True)
            if not is_same(wanted, done.stdout + done.stderr):
                wrong += 1
                print("%s: `%s` prints something else:\n%s" % (name, command, done.stdout + done.stderr), file=sys.stderr)
    sys.exit(1 if wrong or not count else 0)


main()
