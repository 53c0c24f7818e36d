#!/usr/bin/env python3
"""Times `faults` beside `check` on the same sources, which break no rule.

    bench/faults.py [PROGRAM]     PROGRAM is called as ./scj is, which is the default

It prints milliseconds that the process has a processor, the least of nine calls each by turns: on ordinary sources, and
on bodies of constants, of operations whose fault is certain, and of high operands. The status is 1 where `faults` takes
more than 1.3 times as long as `check`.
"""
import os
import resource
import subprocess
import sys
import tempfile

sys.dont_write_bytecode = True
import sources

BAR = 1.3
FRONT = """class App implements Safelet {
  public MissionSequencer getSequencer() { return null; }
  public long immortalMemorySize() { return 400; }
  public void initializeApplication() { }
"""


def bodies(statement, count):
    """The safelet with methods of a hundred such statements, so many in all."""
    methods = "".join(f"  static void m{number}(int x) {{\n{statement * 100}  }}\n" for number in range(count // 100))
    return [f"{FRONT}{methods}}}\n"]


def families():
    """Texts by their names."""
    return {
        "ordinary classes, 64 KiB": sources.ordinary(65_536),
        "ordinary classes, 1 MiB": sources.ordinary(1_048_576),
        "10,000 sums of 20 constants": bodies("    x = 1" + " + 1" * 19 + ";\n", 10_000),
        "30,000 divisions by 2 - 1": bodies("    x = x / (2 - 1);\n", 30_000),
        "30,000 divisions by 2 - 2": bodies("    x = x / (2 - 2);\n", 30_000),
        "30,000 reads of port 300": bodies("    x = Device.read(300);\n", 30_000),
        "8,000 divisions in one another, 15 deep": bodies("    x = " + "1 / (" * 15 + "0" + ")" * 15 + ";\n", 8_000),
    }


def milliseconds(words):
    before = resource.getrusage(resource.RUSAGE_CHILDREN)
    subprocess.run(words, stdout=subprocess.DEVNULL, stderr=subprocess.DEVNULL, check=True)
    after = resource.getrusage(resource.RUSAGE_CHILDREN)
    return 1000 * (after.ru_utime + after.ru_stime - before.ru_utime - before.ru_stime)


def main(words):
    home = os.path.dirname(os.path.dirname(os.path.abspath(__file__)))
    if len(words) > 1 or words and words[0].startswith("-"):
        print(__doc__.strip())
        return 0 if words in (["--help"], ["-h"]) else 2
    program, slow = os.path.abspath(words[0]) if words else f"{home}/scj", False
    with tempfile.TemporaryDirectory() as folder:
        for name, texts in families().items():
            paths = [f"{folder}/F{number}.java" for number in range(len(texts))]
            for path, text in zip(paths, texts):
                with open(path, "w", encoding="utf-8") as file:
                    file.write(text)
            spent = [[milliseconds([program, mode, *paths]) for mode in ("check", "faults")] for _ in range(9)]
            check, faults = map(min, zip(*spent))
            listed = subprocess.run([program, "faults", *paths], capture_output=True, text=True, check=True).stdout
            slow |= faults > BAR * check
            print(f"{name}: check {check:.1f} ms, faults {faults:.1f} ms, {faults / check:.2f} times; "
                  f"{listed.splitlines()[-1]}")
    return 1 if slow else 0


if __name__ == "__main__":
    sys.exit(main(sys.argv[1:]))
