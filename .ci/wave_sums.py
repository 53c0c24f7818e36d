"""Reads wave files, and compares them. It knows of them no more than the standard says.

    wave_sums.py A.vcd B.vcd    whether two files have the same values of the same variables at the same times
    wave_sums.read(text)        for each variable, by `scope.name`, its changes as pairs (time, value)
"""
import sys


def read(text):
    words, scopes, names, changes, time = iter(text.split()), [], {}, {}, 0
    for word in words:
        if word in ("$date", "$version", "$timescale", "$comment"):
            while next(words) != "$end":
                pass
        elif word == "$scope":
            scopes.append([next(words), next(words), next(words)][1])
        elif word == "$upscope":
            scopes.pop()
            next(words)
        elif word == "$var":
            kind, size, identifier, name = (next(words) for _ in range(4))
            assert next(words) == "$end" and identifier not in names
            names[identifier] = ".".join(scopes + [name])
            changes[names[identifier]] = []
        elif word.startswith("#"):
            assert int(word[1:]) >= time
            time = int(word[1:])
        elif word[0] == "b":
            changes[names[next(words)]].append((time, int(word[1:], 2)))
        elif word[0] in "01":
            changes[names[word[1:]]].append((time, int(word[0])))
        else:
            assert word in ("$dumpvars", "$end", "$enddefinitions"), word
    return changes, time


def units_of(changes, until):
    """In how many units a variable is 1."""
    ends = [time for time, _ in changes[1:]] + [until]
    return sum(behind - time for (time, value), behind in zip(changes, ends) if value == 1)


def main():
    first, second = (read(open(name).read())[0] for name in sys.argv[1:3])
    if first != second:
        for name in sorted(set(first) | set(second)):
            if first.get(name) != second.get(name):
                print("%s differs: %s, %s" % (name, (first.get(name) or [])[:4], (second.get(name) or [])[:4]))
        sys.exit(1)


if __name__ == "__main__":
    main()
