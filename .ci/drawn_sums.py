"""What the forms of tools/timeline hold, summed by lanes: the boxes of the page's SVG, the wave file, and the JSON."""
import collections
import json
import pathlib
import re
import sys
import xml.etree.ElementTree as ElementTree

TOP = pathlib.Path(__file__).resolve().parent.parent
sys.path[:0] = [str(TOP / ".ci"), str(TOP / "tools")]
import wave_sums
from seeing import events, page, picture, waves

KEYS = {"M": {"args"}, "X": {"ts", "dur"}, "i": {"ts", "s"}, "C": {"ts", "args"}, "b": {"ts", "id", "cat"}, "e": {"ts", "id", "cat"},
        "s": {"ts", "id", "cat"}, "f": {"ts", "id", "cat"}}


def of_page(drawn):
    """Units of each kind by lanes, from the picture of the page."""
    text = page.page(drawn, "a <trace> & more", [])
    assert not re.search(r"(?:src|href)=\"(?!#)|url\((?!#)|https?:", text), "the page asks for something else"
    root = ElementTree.fromstring(re.search(r'<svg id="picture".*?</svg>', text, re.DOTALL)[0])
    drawing, sums = page.Drawing(drawn), collections.Counter()
    for rect in root.iter("rect"):
        if rect.get("class") in page.PLACES:
            top = float(rect.get("y")) - page.PLACES[rect.get("class")][0]
            lane = drawing.tops.index(top)
            sums[lane, rect.get("class")] += int(rect.get("data-b")) - int(rect.get("data-a"))
            assert rect.find("title").text
    return sums


def of_waves(drawn):
    changes, until = wave_sums.read("".join(waves.waves(drawn)))
    sums = collections.Counter()
    for lane, row in enumerate(drawn.lanes):
        for name, kind in (("runs", "run"), ("preempted", "preempted"), ("acts", "own")):
            found = changes.get("run.%s.%s" % (waves.scope_name(lane, row), name))
            if found:
                sums[lane, kind] += wave_sums.units_of(found, until)
        waiting = changes.get("run.%s.waiting" % waves.scope_name(lane, row), [])
        for (time, value), behind in zip(waiting, [time for time, _ in waiting[1:]] + [until]):
            sums[lane, "waiting"] += value * (behind - time)
    return sums


def of_events(drawn):
    table = json.loads("".join(events.events(drawn)))
    assert set(table) == {"displayTimeUnit", "traceEvents"}
    sums, slices, waits = collections.Counter(), collections.defaultdict(list), {}
    for event in table["traceEvents"]:
        keys = set(event)
        assert {"ph", "name", "pid", "tid"} | KEYS[event["ph"]] <= keys <= {
            "ph", "name", "pid", "tid", "ts", "dur", "cat", "id", "s", "bp", "args"}, event
        assert all(type(event[key]) is int and event[key] >= 0 for key in ("pid", "tid", "ts", "dur") if key in event), event
        if event["ph"] == "X":
            slices[event["tid"]].append((event["ts"], -event["dur"]))
            kind = {"runs": "run", "preempted": "preempted", "the sequencer acts": "own"}.get(event["name"])
            if kind:
                sums[event["tid"], kind] += event["dur"]
        elif event["ph"] == "b":
            waits[event["id"]] = event["ts"]
        elif event["ph"] == "e":
            sums[event["tid"], "waiting"] += event["ts"] - waits.pop(event["id"])
    assert not waits
    for lane in slices.values():
        check_nesting(sorted(lane))
    return sums


def check_nesting(slices):
    """Slices of a thread lie in one another or apart."""
    around = []
    for first, length in slices:
        while around and around[-1] <= first:
            around.pop()
        assert not around or first - length <= around[-1], "slices overlap"
        around.append(first - length)


def differences(run, wanted):
    """What the forms hold otherwise than `wanted`, units by lane and kind."""
    drawn = picture.Picture(run, 0, run.until)
    for name, found in (("page", of_page(drawn)), ("waves", of_waves(drawn)), ("events", of_events(drawn))):
        for key in set(found) | set(wanted):
            if key[1] != "raised" and found[key] != wanted[key]:
                yield name, key, found[key], wanted[key]
