"""What the scripts have in common: their words, their inputs, and how they end.

The status is 0 where all is well, 1 where an input isn't what it has to be (one line on the error output says what and
where), and 2 where the words are wrong or a file can't be read.
"""
import argparse
import gc
import os
import signal
import sys
import traceback

from seeing.run_plan import read_plan
from seeing.run_reader import Reader
from seeing.sources import read_sources
from seeing.trace_lines import BadInput


class Help(argparse.RawDescriptionHelpFormatter):
    def __init__(self, prog):
        super().__init__(prog, max_help_position=26, width=100)


def words_of(name, text, sources="*"):
    """A parser of words with a plan, a trace and sources."""
    parser = argparse.ArgumentParser(prog=name, description=text, formatter_class=Help, allow_abbrev=False)
    parser.add_argument("plan", metavar="PLAN", help="the plan of the run, a file of docs/PLAN.md")
    parser.add_argument("trace", metavar="TRACE", help="what `./scj run` printed; - is the standard input")
    parser.add_argument("sources", metavar="SOURCE", nargs=sources, default=[], help="the program's sources, for places and lines")
    return parser


def read_run(plan, path, kinds=None):
    """The run whose trace is in a file."""
    try:
        if path == "-":
            return Reader(plan, kinds).read(sys.stdin.buffer)
        with open(path, "rb") as file:
            return Reader(plan, kinds).read(file)
    except BadInput as problem:
        problem.source = problem.source or path
        raise


def read_inputs(words):
    """The run and the sources that the words name."""
    plan, sources = read_plan(words.plan), read_sources(words.sources)
    run = read_run(plan, words.trace, sources.kinds() if sources else None)
    if sources:
        sources.check(run, words.trace)
    return run, sources


def notes_of(run):
    """What has to be said of a run beside its table."""
    notes = []
    if run.end is None:
        notes.append(run.cut + ": what comes behind isn't known")
    if run.guessed:
        notes.append("no line shows what released %s: taken for release(), so ready one unit later; the sources would "
                     "tell" % ", ".join(sorted(run.guessed)))
    return notes


def main(name, call):
    """Runs a script: `call` takes the words and gives the status."""
    program = os.path.basename(name)
    signal.signal(signal.SIGINT, signal.SIG_DFL)
    # A run is read once and kept whole: nothing is to be collected.
    gc.disable()
    if sys.stdout is None:
        ends(program, "the output is closed", 2)
    for stream in (sys.stdout, sys.stderr):
        if stream is not None:
            stream.reconfigure(encoding="utf-8", errors="replace")
    try:
        status = call(sys.argv[1:])
        sys.stdout.flush()
        sys.exit(status)
    except BadInput as problem:
        ends(program, problem.text(), 1)
    except BrokenPipeError:
        # Who reads has what it wants.
        os.dup2(os.open(os.devnull, os.O_WRONLY), sys.stdout.fileno())
        sys.exit(0)
    except OSError as problem:
        what = problem.strerror or str(problem)
        ends(program, "%s: %s" % (problem.filename, what) if problem.filename else what, 2)
    except MemoryError:
        ends(program, "there is not enough memory for this trace", 2)
    except Exception as problem:
        # A name that no file can have, as one with a NUL byte, is the words' fault; all else would be the script's.
        if "null byte" in str(problem):
            ends(program, "%s in the name of a file" % problem, 2)
        last = traceback.extract_tb(problem.__traceback__)[-1]
        ends(program, "a mistake of this script, at %s:%d: %s: %s" % (
            os.path.basename(last.filename), last.lineno, type(problem).__name__, " ".join(str(problem).split())), 2)


def ends(program, text, status):
    try:
        print("%s: %s" % (program, text), file=sys.stderr)
    except OSError:
        pass
    os._exit(status)
