"""The places of the sources that a run speaks of: where its prints and faults stand, with the lines."""


def who(release):
    """The release, or the sequencer."""
    return "the sequencer" if release is None else "%d %s" % (release.handler.number, release.handler.name)


def times(count):
    return "once" if count == 1 else "%d times" % count


def shown_line(sources, name, number):
    line = sources.line(name, number)
    return "    %d | %s\n" % (number, line) if line is not None else "    (no source here has this line)\n"


def lines_of(run, sources):
    """The two lists as lines of a text."""
    return fault_lines(run, sources) + print_lines(run, sources)


def fault_lines(run, sources):
    found = {}
    for unit, _, name, file, line, release in run.faults:
        found.setdefault((name, file, line), []).append((unit, who(release)))
    out = ["\nfaults\n"] if found else []
    for (name, file, line), times_of in found.items():
        jobs = sorted({job for _, job in times_of})
        out.append("  %s at %s:%d, %s, first in unit %d: %s\n" % (
            name, file, line, times(len(times_of)), times_of[0][0], ", ".join(jobs)))
        out.append(shown_line(sources, file, line))
    return out


def print_lines(run, sources):
    found = {}
    for unit, _, label, value, release in run.prints:
        found.setdefault(label, []).append((unit, value, who(release)))
    out = ["\nprints\n"] if found else []
    for label, prints in found.items():
        values = [value for _, value, _ in prints]
        span = "%d" % values[0] if min(values) == max(values) else "%d to %d" % (min(values), max(values))
        out.append("  \"%s\" %s, %s: %s\n" % (label, span, times(len(prints)), ", ".join(sorted({job for _, _, job in prints}))))
        for file, line in sources.print_places(label):
            out.append("    %s:%d\n" % (file.name, line))
            out.append(shown_line(sources, file.name, line))
    return out
