"""Compares what tools/seeing reads off traces with the sums of unit_sums.py: `compare_sums.py EVERY` takes each
EVERYth run of the tables, with its sources and without, and what is drawn of a fifth of them. It says which run differs, and ends with status 1 then."""
import collections
import io
import pathlib
import sys
import tempfile

sys.dont_write_bytecode = True
TOP = pathlib.Path(__file__).resolve().parent.parent
sys.path[:0] = [str(TOP / ".ci"), str(TOP / "tools")]
import drawn_sums
import unit_sums
from seeing import handler_rows, picture, run_plan, run_reader, sources


def read(files, plan, lines, with_sources):
    with tempfile.NamedTemporaryFile("w", suffix=".toml") as file:
        file.write(plan)
        file.flush()
        plan = run_plan.read_plan(file.name)
    kinds = sources.Sources([sources.Source(name, text) for name, text in files]).kinds() if with_sources else None
    return run_reader.Reader(plan, kinds).read(io.BytesIO(("\n".join(lines) + "\n").encode()))


def differences(run, sums):
    """What the two have differently."""
    seen = set()
    for number, mission in enumerate(run.missions, 1):
        for handler in mission.handlers:
            waiting = handler_rows.most_waiting(handler.releases)
            if waiting != sums.waiting[number, handler.number]:
                yield handler.number, "waiting", waiting, sums.waiting[number, handler.number]
            for release in handler.releases:
                key = number, handler.number, release.number
                seen.add(key)
                yield from of_release(key, release, run.until, sums)
    for key in sums.releases:
        if key not in seen:
            yield key, "isn't read"
    pairs = left_for(run)
    if pairs != sums.left_for:
        yield "left for", pairs, sums.left_for
    phases = collections.Counter()
    for phase, _, first, behind, _ in picture.Picture(run, 0, run.until).bands():
        phases[phase] += behind - first
    for phase in ("initialisation", "execution"):
        if phases[phase] != sums.phases[phase]:
            yield phase, phases[phase], sums.phases[phase]
    pieces = list(run.sequencer_pieces())
    if sum(behind - first for first, behind in pieces) != sums.sequencer:
        yield "the sequencer", pieces, sums.sequencer


def of_release(key, release, end, sums):
    wanted = sums.releases[key]
    read = {
        "run": release.own(), "waiting": release.waited(end), "left": len(release.gaps(end)),
        "preempted": sum(behind - first for first, behind in release.gaps(end)),
        "section": max(release.sections(end), default=0), "faults": int(release.fault is not None),
        "raised": sum(release.sections(end)), "priorities": priorities(release, end),
    }
    for word, value in read.items():
        if value != wanted[word]:
            yield key, word, value, wanted[word]
    if release.ended != sums.ends.get(key):
        yield key, "ended", release.ended, sums.ends.get(key)
    if release.ended is not None and release.response() != wanted["run"] + wanted["preempted"] + wanted["waiting"]:
        yield key, "response", release.response(), wanted


def priorities(release, end):
    """The sum of the active priorities of the units in which a release ran."""
    total = release.own() * release.handler.priority
    for first, behind, priority, _ in release.raised(end):
        units = sum(max(0, min(behind, b) - max(first, a)) for a, b, _ in release.pieces)
        total += units * (priority - release.handler.priority)
    return total


def left_for(run):
    """Which release was left for which other one."""
    number = {id(mission): count for count, mission in enumerate(run.missions, 1)}
    name = lambda release: (number[id(release.handler.mission)], release.handler.number, release.number)
    return collections.Counter((name(left), name(other)) for left, other, _ in run.preemptions())


def by_lanes(run, sums):
    """The sums by the lanes of a picture."""
    drawn, found = picture.Picture(run, 0, run.until), collections.Counter()
    found[0, "own"] = sums.sequencer
    for (mission, number, _), units in sums.releases.items():
        lane = drawn.lane_of[run.missions[mission - 1].handlers[number - 1].row()]
        for kind in ("run", "preempted", "waiting"):
            found[lane, kind] += units[kind]
    return found


def main():
    every, compared, drawn, wrong, unlike, guessed = int(sys.argv[1]), 0, 0, 0, 0, 0
    for count, (name, files, plan, told) in enumerate(unit_sums.cases()):
        if count % every:
            continue
        sums, lines = unit_sums.watch(files, plan)
        compared += 1
        for with_sources in (True, False):
            run = read(files, plan, lines, with_sources)
            found = list(differences(run, sums))
            if with_sources and compared % 5 == 0:
                drawn += 1
                found += list(drawn_sums.differences(run, by_lanes(run, sums)))
            guessed += bool(run.guessed) and not with_sources
            if found and run.guessed:
                unlike += 1
            elif found:
                wrong += 1
                print("%s: %s" % (name, found[:3]))
    print("sums: %d runs compared, %d of them drawn, %d wrong; without sources %d were guessed, %d of them otherwise" % (
        compared, drawn, wrong, guessed, unlike), file=sys.stderr)
    sys.exit(1 if wrong or not drawn else 0)


if __name__ == "__main__":
    main()
