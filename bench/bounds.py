#!/usr/bin/env python3
"""Times `bounds` beside `check` on the same sources, which break no rule.

    bench/bounds.py [PROGRAM]     PROGRAM is called as ./scj is, which is the default

It prints milliseconds that the process has a processor, the least of five calls each by turns: on ordinary sources, on
handler classes that each call through a chain of methods of their own, and on those that all come to the same methods.
The status is 1 where `bounds` takes more than twice as long as `check` on a MiB of ordinary sources, or more than two
seconds on any of the others.
"""
import os
import resource
import subprocess
import sys
import tempfile

sys.dont_write_bytecode = True
import sources

TIMES = 2
MOST = 2_000
HANDLERS = 200
FRONT = """class App implements Safelet {
  public MissionSequencer getSequencer() { return null; }
  public long immortalMemorySize() { return 400; }
  public void initializeApplication() { }
}
@DefineScope(name="M", parent="IMMORTAL") class Main extends Mission {
  public long missionMemorySize() { return 1000; }
  public void initialize() { }
}
class Box { int v; }
"""
HANDLER = """@Scope("M") @DefineScope(name="P{k}", parent="M") class H{k} extends AperiodicEventHandler {{
  H{k}() {{ super(new PriorityParameters(7), new AperiodicParameters(), new StorageParameters({storage})); }}
  public void handleAsyncEvent() {{ {first} }}
{more}}}
"""


def handler(k, first, more="", storage=24):
    return HANDLER.format(k=k, storage=storage, first=first, more=more)


def in_files(parts):
    """The front and the parts in files of half a MiB at most."""
    files = [FRONT]
    for part in parts:
        if len(files[-1]) + len(part) > 524_288:
            files.append("")
        files[-1] += part
    return files


def chains(length):
    """Handler classes that call through a chain of so many methods each, whose last one makes an object."""
    def own(k):
        run = f'@RunsIn("P{k}") void '
        calls = "".join(f"  {run}a{n}() {{ a{n + 1}(); }}\n" for n in range(length - 1))
        return calls + f"  {run}a{length - 1}() {{ new Box(); }}\n"
    return in_files(handler(k, "a0();", own(k)) for k in range(HANDLERS))


def shared(classes, length):
    """Handler classes that all come to the methods of the same classes, each of which calls two others."""
    parts = []
    for c in range(classes):
        last = c == classes - 1
        body = "".join(f"  static void a{n}() {{ b{n}(); a{n + 1}(); }}\n  static void b{n}() {{ }}\n" for n in range(length))
        end = "new Box();" if last else f"C{c + 1}.a0();"
        parts.append(f"class C{c} {{\n{body}  static void a{length}() {{ {end} }}\n}}\n")
    return in_files([*parts, *(handler(k, "C0.a0();") for k in range(HANDLERS))])


def families():
    """Texts by their names, and whether `check` is what they are measured by."""
    return {
        "ordinary classes, 64 KiB": (sources.ordinary(65_536), False),
        "ordinary classes, 1 MiB": (sources.ordinary(1_048_576), True),
        f"{HANDLERS} handler classes, each with a chain of 255 methods": (chains(255), False),
        f"{HANDLERS} handler classes over 10,000 methods that they share": (shared(40, 125), False),
    }


def milliseconds(words):
    before = resource.getrusage(resource.RUSAGE_CHILDREN)
    subprocess.run(words, stdout=subprocess.DEVNULL, stderr=subprocess.DEVNULL, check=True)
    after = resource.getrusage(resource.RUSAGE_CHILDREN)
    return 1000 * (after.ru_utime + after.ru_stime - before.ru_utime - before.ru_stime)


def main(words):
    home = os.path.dirname(os.path.dirname(os.path.abspath(__file__)))
    if len(words) > 1 or words and words[0].startswith("-"):
        print(__doc__.strip())
        return 0 if words in (["--help"], ["-h"]) else 2
    program, slow = os.path.abspath(words[0]) if words else f"{home}/scj", False
    with tempfile.TemporaryDirectory() as folder:
        for name, (texts, by_check) in families().items():
            paths = [f"{folder}/F{number}.java" for number in range(len(texts))]
            for path, text in zip(paths, texts):
                with open(path, "w", encoding="utf-8") as file:
                    file.write(text)
            spent = [[milliseconds([program, mode, *paths]) for mode in ("check", "bounds")] for _ in range(5)]
            check, bounds = map(min, zip(*spent))
            told = subprocess.run([program, "bounds", *paths], capture_output=True, text=True, check=True).stdout
            lines = told.splitlines()
            suffice = sum(" yes " in line for line in lines)
            slow |= bounds > (TIMES * check if by_check else MOST)
            print(f"{name}: check {check:.1f} ms, bounds {bounds:.1f} ms, {bounds / check:.2f} times; "
                  f"{suffice} of {len(lines) - 1} with yes, {lines[-1]}")
    return 1 if slow else 0


if __name__ == "__main__":
    sys.exit(main(sys.argv[1:]))
