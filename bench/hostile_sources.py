"""Makes hostile programs, of which a checker that asks too often takes far too long: python3 hostile_sources.py SHAPE
COUNT FOLDER writes F0.java and so on, none longer than a MiB.

More than 256 classes break a limit, and what is said of each of them is asked all the same. Each shape has COUNT of
something:

    empty_chain     empty classes, each under the one before       wide_fields     fields of a class, and classes under it
    field_chain     the same with a field each                     wide_methods    methods of a class, and classes under it
    method_chain    the same with a method each                    same_siblings   classes under one, each with the same field
    same_chain      the same with the same method each             repeats         times Runnable, and methods beside them
    runnable_chain  the same with Runnable at the top              repeats_above   times Runnable above 1,000 methods
    cycle           classes in a circle                            repeats_asked   the same, with calls of its methods
    names           names of classes                               colliding       the same, alike in a hash table
    fields          fields of one class                            colliding_fields the same, alike in a hash table
    locked_chain    classes in a chain, each with a synchronized method
    locked_runs     classes above others that implement Runnable by a synchronized method
    narrower_results missions in a chain, and methods that give the last one in the place of one that gives the first
    open_methods    abstract methods, a class that has all but one, and classes under it that have that one

In these a chain of 238 classes has something at its top, which is asked COUNT times at its end:

    top_calls       a method that is called                        top_fields      a field that is named
    shared_calls    the same, which another class has, too         shared_fields   the same, which another class has, too
    unknown_calls   a method that isn't there                      far_overrides   methods that are overridden
    casts           an object that is given to the top             far_accesses    a field of an object

In these something else is asked COUNT times:

    many_locals     locals, more than a limit allows               many_parameters parameters of two methods, one overridden
    far_scopes      what lies in the first of 200 scopes

These ask COUNT times whether two objects lie in one memory area, or have COUNT statements behind 59 such questions, in
bodies that are as high as they may be:

    guards          guards side by side                            guard_nests     guards in one another
    guarded_stores  stores that the outermost guard allows         undone_guards   assignments that undo all but that one

And these have COUNT bytes, about, with as many nodes as they can have:

    semicolons      empty statements                               nots            signs of one unary expression
    sums            sums that are as high as they may be           negations       unary expressions that are that high
    long_sum        one sum                                        assignments     assignments
    blocks          empty blocks                                   literals        sums of literals
    empty_guard     empty statements behind a guard
"""

import os
import shutil
import subprocess
import sys
import tempfile

from sources import HEAD, MISSION_SCOPE, write_files

# A byte less than a file may have.
LONGEST = 1_048_575

# How many classes a chain has that breaks no limit.
DEPTH = 238


def packed(classes):
    """Texts of classes in as few files as they fit into, the safelet's before them."""
    files, parts, length = [], [HEAD], len(HEAD)
    for text in classes:
        if length + len(text) > LONGEST:
            files.append("".join(parts))
            parts, length = [], 0
        parts.append(text)
        length += len(text)
    return files + ["".join(parts)]


def class_of(head, members):
    return f"class {head} {{ {members}}}\n"


def chain(count, top="", member=lambda n: ""):
    """A chain of classes: what stands in the first one's header, and what each has of its own."""
    return [class_of(f"C{n} extends C{n - 1}" if n else f"C0 {top}", member(n)) for n in range(count)]


def runnable_chain(count):
    return chain(count, "implements Runnable", lambda n: "" if n else "public void run() { } ")


def locked_runs(count):
    return [
        class_of(f"A{n}", "public synchronized void run() { } ") + class_of(f"B{n} extends A{n} implements Runnable", "")
        for n in range(count)
    ]


def narrower_results(count):
    missions = ["abstract " + text for text in chain(count, "extends Mission")]
    gives = "public C{} getNextMission() {{ return null; }}\n"
    above = "abstract " + class_of("A extends MissionSequencer", gives.format(0))
    # In classes of 10,000 methods, so that each goes into a file.
    under = [class_of(f"B{n} extends A", gives.format(count - 1) * min(10_000, count - n)) for n in range(0, count, 10_000)]
    return missions + [above] + under


def cycle(count):
    return [class_of(f"C{n} extends C{(n + 1) % count}", "") for n in range(count)]


def wide(count, member, own=""):
    """A class with its members, and as many classes under it."""
    return [class_of("A", "".join(map(member, range(count))))] + [class_of(f"B{n} extends A", own) for n in range(count)]


def same_siblings(count):
    return [class_of("A", "")] + [class_of(f"B{n} extends A", "int f; ") for n in range(count)]


def repeated(count):
    return ", ".join(["Runnable"] * count)


def methods(names, before="", body="{ }"):
    return "".join(f"{before}void m{n}() {body}\n" for n in names)


def repeats(count):
    return ["abstract " + class_of(f"A implements {repeated(count)}", methods(range(count)))]


def repeats_above(count, asked=0):
    calls = "void go() {\n" + "".join(f"m{n % 1000}();\n" for n in range(asked)) + "} " if asked else ""
    under = class_of("B extends A", methods(range(1000)) + calls)
    return [f"abstract class A implements {repeated(count)} {{ }}\n", "abstract " + under]


def open_methods(count):
    top = "abstract " + class_of("A", methods(range(count), "abstract ", ";"))
    under = "abstract " + class_of("B extends A", methods(range(1, count)))
    return [top, under] + [class_of(f"D{n} extends B", "void m0() { } ") for n in range(count)]


def apart(count):
    """Names as long as those that collide."""
    return [f"N{n:08}" for n in range(count)]


def empty_classes(names):
    return [class_of(name, "") for name in names]


def class_of_fields(names):
    return [class_of("C", "".join(f"int {name};\n" for name in names))]


def folded(a, b):
    product = a * b
    return (product ^ product >> 64) & 0xFFFF_FFFF_FFFF_FFFF


def slot(name):
    """The lowest 13 bits of what the maps' hasher makes of a name of nine letters: 60,000 go into 8,192 groups."""
    first, last = (int.from_bytes(name.encode()[at:at + 8], "little") for at in (0, 1))
    state = folded(first ^ 0x243F_6A88_85A3_08D3 + len(name), last ^ 0x9E37_79B9_7F4A_7C15)
    return (state ^ state >> 32) & 0x1FFF


# The same in C, which is quick enough to look for such names: prints so many of nine letters.
SEARCH = """
#include <stdio.h>
#include <stdlib.h>
#include <string.h>
typedef unsigned long long word;
static word folded(word a, word b) { unsigned __int128 p = (unsigned __int128)a * b; return (word)p ^ (word)(p >> 64); }
static void search(char *name, int at, int *left) {
    if (at == 9) {
        word first, last;
        memcpy(&first, name, 8);
        memcpy(&last, name + 1, 8);
        word state = folded(first ^ (0x243F6A8885A308D3ull + 9), last ^ 0x9E3779B97F4A7C15ull);
        if (((state ^ state >> 32) & 0x1FFF) == 0) { puts(name); --*left; }
        return;
    }
    for (char letter = 'A'; letter <= 'Z' && *left > 0; letter++) {
        name[at] = letter;
        search(name, at + 1, left);
    }
}
int main(int count, char **words) {
    char name[10] = {0};
    int left = atoi(words[1]);
    search(name, 0, &left);
    return 0;
}
"""


def colliding(count):
    """Names that begin their search at one place of the map. They take a C compiler to be found."""
    compiler = shutil.which("cc")
    if compiler is None:
        sys.exit("no C compiler here: names that collide aren't tried")
    with tempfile.TemporaryDirectory() as folder:
        code, program = os.path.join(folder, "search.c"), os.path.join(folder, "search")
        with open(code, "w") as file:
            file.write(SEARCH)
        subprocess.run([compiler, "-O2", "-o", program, code], check=True)
        found = subprocess.run([program, str(count)], check=True, stdout=subprocess.PIPE, text=True).stdout.split()
    assert len(found) == count and all(slot(name) == 0 for name in found[:100])
    return found


def asked(count, top, statement, kind=""):
    """A chain whose first class has something, for which methods of classes at its end ask."""
    classes = chain(DEPTH, member=lambda n: "" if n else top)
    most = 1_000_000 // len(statement)
    for n, first in enumerate(range(0, count, most)):
        body = statement * min(most, count - first)
        classes.append(class_of(f"B{n} extends C{DEPTH - 1}", f"void go({kind}) {{\n{body}}} "))
    return classes


def far_overrides(count):
    own = methods(range(count))
    return chain(DEPTH, member=lambda n: "" if n else own) + [class_of(f"B extends C{DEPTH - 1}", own)]


def many_locals(count):
    return [class_of("C", "void m() {\n" + "".join(f"int x{n};\n" for n in range(count)) + "} ")]


def many_parameters(count):
    method = "void m(" + ", ".join(f"int x{n}" for n in range(count)) + ") { } "
    return [class_of("C", method), class_of("D extends C", method)]


def far_scopes(count):
    classes = [MISSION_SCOPE]
    for n in range(200):
        parent = f"S{n - 1}" if n else "M"
        before = f'@Scope("{parent}") @DefineScope(name="S{n}", parent="{parent}") '
        asks = "o = p;\n" * count if n == 199 else ""
        body = f'@Scope("M") Object o; @Scope("M") Object p; public void run() {{\n{asks}}} '
        classes.append(before + class_of(f"R{n} implements Runnable", body))
    return classes


def guarded(count, before, statement, behind=""):
    """Classes of methods, each of which has so many statements at most, of parameters that may lie anywhere."""
    parameters = ", ".join(f"@Scope(UNKNOWN) B {name}" for name in "abcd")
    most = 1_000 if before else 5_000
    return [class_of("B", "B next; ")] + [
        class_of(f"C{n}", f"static void m({parameters}) {{\n{before}{statement * min(most, count - first)}{behind}}} ")
        for n, first in enumerate(range(0, count, most))
    ]


def guard_nests(count):
    nest = "if (ManagedMemory.allocInSame(a, b)) " * 60 + "a.next = b;\n"
    return guarded(count // 60, "", nest)


def in_nest(statement):
    before = "".join(f"if (ManagedMemory.allocInSame({names})) " for names in ["a, b"] + ["c, d"] * 58)
    return lambda count: guarded(count, before + "{\n", statement, "}\n")


def dense(piece):
    """A method of a statement, as often as it has room."""
    before, behind = "class C { int x; boolean b; void m() {\n", "} }\n"
    return lambda count: [before + piece * max(1, (count - len(HEAD + before + behind)) // len(piece)) + behind]


def long(before, piece, behind):
    return lambda count: dense(before + piece * max(1, (count - 300) // len(piece)) + behind)(0)


SHAPES = {
    "empty_chain": chain,
    "field_chain": lambda count: chain(count, member=lambda n: f"int f{n}; "),
    "method_chain": lambda count: chain(count, member=lambda n: f"void m{n}() {{ }} "),
    "same_chain": lambda count: chain(count, member=lambda n: "void m() { } "),
    "runnable_chain": runnable_chain,
    "cycle": cycle,
    "locked_chain": lambda count: chain(count, member=lambda n: f"synchronized void m{n}() {{ }} "),
    "locked_runs": locked_runs,
    "narrower_results": narrower_results,
    "wide_fields": lambda count: wide(count, lambda n: f"static int f{n};\n"),
    "wide_methods": lambda count: wide(count, lambda n: f"void m{n}() {{ }}\n"),
    "same_siblings": same_siblings,
    "repeats": repeats,
    "repeats_above": repeats_above,
    "repeats_asked": lambda count: repeats_above(count, count),
    "open_methods": open_methods,
    "names": lambda count: empty_classes(apart(count)),
    "fields": lambda count: class_of_fields(apart(count)),
    "top_calls": lambda count: asked(count, "void m() { } ", "m();\n"),
    "unknown_calls": lambda count: asked(count, "", "n();\n"),
    "top_fields": lambda count: asked(count, "int f; ", "f=f;\n"),
    "shared_calls": lambda count: asked(count, "void m() { } ", "m();\n") + [class_of("D", "void m() { } ")],
    "shared_fields": lambda count: asked(count, "int f; ", "f=f;\n") + [class_of("D", "int f; ")],
    "far_accesses": lambda count: asked(count, "int f; ", "b.f=1;\n", "B0 b"),
    "casts": lambda count: asked(count, "void m(C0 c) { } ", "m(b);\n", "B0 b"),
    "far_overrides": far_overrides,
    "many_locals": many_locals,
    "many_parameters": many_parameters,
    "far_scopes": far_scopes,
    "guards": lambda count: guarded(count, "", "if (ManagedMemory.allocInSame(a, b)) a.next = b;\n"),
    "guard_nests": guard_nests,
    "guarded_stores": in_nest("a.next = b;\n"),
    "undone_guards": in_nest("c = d;\n"),
    "colliding": lambda count: empty_classes(colliding(count)),
    "colliding_fields": lambda count: class_of_fields(colliding(count)),
    "semicolons": dense(";"),
    "blocks": dense("{}"),
    "empty_guard": long("if (ManagedMemory.allocInSame(this, this))", ";", ""),
    "sums": dense("x=x" + "+x" * 50 + ";"),
    "literals": dense("x=1" + "+1" * 50 + ";"),
    "negations": dense("b=" + "!" * 50 + "b;"),
    "assignments": dense("x=x;"),
    "nots": long("b=", "!", "b;"),
    "long_sum": long("x=1", "+1", ";"),
}


def main():
    shape, count, folder = sys.argv[1], int(sys.argv[2]), sys.argv[3]
    write_files(packed(SHAPES[shape](count)), folder)


if __name__ == "__main__":
    main()
