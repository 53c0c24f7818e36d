"""Makes sources of whole classes from a number: python3 syntax_sources.py SHAPE SHARE [FIRST] > FILE.

Each is a part 1/SHARE of a whole. Shapes: `ordinary` (1 MiB of classes as a controller has them, about as densely
written as the pump station in examples/, numbered from FIRST), and hostile ones: `operators` (one expression of 300,000 operators), `parentheses` (500,000 opening ones), `comment`
(one of 1 MiB), `line` (1 MiB of ordinary classes in one line), `empty_classes` (100,000 of them) and `else_if` (one chain of 20,000).
"""

import sys

from sources import NUMBERS

# A byte is left for a token behind the last.
LONGEST = 1_048_575


def ordinary_class(number):
    return f"""
// Tank {number}, with its level and its alarm.
class Tank{number} {{
  int level;
  int limit = 90;
  boolean overflows;
  Tank{number} next;

  Tank{number}(int start) {{
    level = start;
    overflows = false;
  }}
{NUMBERS.format(c='', i='')}
  // Whether the levels of two tanks may be levelled out.
  boolean matches(Tank{number} other) {{
    int[] levels = new int[4];
    levels[0] = this.level;
    levels[1] = other.level;
    if (levels[0] >= levels[1] || other.overflows) return true;
    next = new Tank{number}(levels[0] & 15);
    return next.pour(levels[1], -1) == 0;
  }}
}}
"""


def ordinary(limit, first):
    text, number = [], first
    size = 0
    while True:
        more = ordinary_class(number)
        if size + len(more) > limit:
            return "".join(text)
        text.append(more)
        size += len(more)
        number += 1


def main():
    shape, share = sys.argv[1], int(sys.argv[2])
    first = int(sys.argv[3]) if len(sys.argv) > 3 else 0
    limit = LONGEST // share
    if shape == "ordinary":
        text = ordinary(limit, first)
    elif shape == "line":
        lines = ordinary(limit + limit // 4, first).split("\n")
        text = " ".join(line for line in lines if not line.lstrip().startswith("//"))[:limit]
        text = text[: text.rindex(" class ")]
    elif shape == "operators":
        text = "class A { int m() { return 1" + "+1" * (300_000 // share) + "; } }"
    elif shape == "parentheses":
        text = "class A { int m() { return " + "(" * (500_000 // share)
    elif shape == "comment":
        text = "/*" + "c" * (limit - 16) + "*/ class A { }"
    elif shape == "empty_classes":
        letters = "ABCDEFGHIJKLMNOPQRSTUVWXYZ"
        text = "".join(f"class {letters[k // 26 % 26]}{letters[k % 26]}{{}}" for k in range(100_000 // share))
    else:
        text = "class A { void m(int x) { " + "if(x==1){x=2;}else " * (20_000 // share) + "x=3; } }"
    sys.stdout.write(text)


main()
