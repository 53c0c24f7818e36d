"""A run as trace events in JSON, as Perfetto and chrome://tracing open them. A unit is a microsecond.

Each lane is a thread, in the order of the picture. A release that was started is a slice with its pieces inside, one
that waits an asynchronous slice; what comes at one unit is an instant; active priorities are counters; and a flow leads
from the release that calls `release()` to the one that it makes."""
import json

PROCESS = 1


def events(picture):
    """The text, line by line."""
    yield '{"displayTimeUnit": "ms", "traceEvents": [\n'
    at = 0
    for at, event in enumerate(all_events(picture)):
        yield (",\n" if at else "") + json.dumps(event)
    yield "\n]}\n"


def base(kind, name, lane, unit, **more):
    return {"ph": kind, "name": name, "pid": PROCESS, "tid": lane, "ts": unit, **more}


def all_events(picture):
    yield {"ph": "M", "name": "process_name", "pid": PROCESS, "tid": 0, "args": {"name": "the run"}}
    for at, lane in enumerate(picture.lanes):
        name = "%s (%s)" % (lane.name, lane.detail)
        yield {"ph": "M", "name": "thread_name", "pid": PROCESS, "tid": at, "args": {"name": name}}
        yield {"ph": "M", "name": "thread_sort_index", "pid": PROCESS, "tid": at, "args": {"sort_index": at}}
    run = picture.run
    for phase, name, first, behind, lines in picture.bands():
        if phase != "execution":
            yield base("X", "%s: %s" % (name, phase), 0, first, dur=behind - first, cat="mission")
    for first, behind in run.sequencer_pieces():
        if picture.meets(first, behind):
            yield base("X", "the sequencer acts", 0, first, dur=behind - first, cat="sequencer")
    for handler in run.handlers():
        lane = picture.lane_of[handler.row()]
        for release in handler.releases:
            if picture.meets(release.ready, release.until(run.until) + 1):
                yield from of_release(picture, lane, release)
    for mark in picture.marks():
        if mark.kind not in ("period", "fire", "release") and mark.unit < picture.behind:
            yield base("i", mark.lines[0].split(" ", 1)[1], mark.lane, mark.unit, s="t", cat=mark.kind)


def of_release(picture, lane, release):
    end = picture.run.until
    name, until, key = "release %d" % release.number, release.until(end), "%d-%d" % (id_of(release), release.number)
    yield base("i", "%s (%s)" % (name, release.cause), lane, release.ready, s="t", cat="arrive")
    if release.waited(end):
        yield base("b", name + " waits", lane, release.ready, id=key, cat="waiting")
        yield base("e", name + " waits", lane, release.ready + release.waited(end), id=key, cat="waiting")
    if release.started is not None:
        response = {} if release.ended is None else {"response": release.response(), "own": release.own()}
        yield base("X", name, lane, release.started, dur=until - release.started, cat="release", args=response)
        for first, behind, _ in release.pieces:
            yield base("X", "runs", lane, first, dur=behind - first, cat="run")
        for first, behind in release.gaps(end):
            yield base("X", "preempted", lane, first, dur=behind - first, cat="preempted")
        counter = "priority of " + picture.lanes[lane].name
        for unit, priority in [(release.started, release.handler.priority)] + [(unit + 1, p) for unit, p, _ in release.raises
                                                                              if unit + 1 < until] + [(until, 0)]:
            yield base("C", counter, lane, unit, args={"priority": priority})
    if release.by is not None and release.started is not None:
        by = picture.lane_of[release.by.handler.row()]
        yield base("s", "release()", by, release.arrived, id=key, cat="release()")
        yield base("f", "release()", lane, release.started, id=key, cat="release()", bp="e")


def id_of(release):
    """A number of a handler that no other one of the run has: the line that registered it."""
    return release.handler.line
