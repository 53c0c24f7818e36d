"""Makes the table `changed` of crates/scj_tables and what each must print, by the recogniser beside this file.

    python3 make_cases.py        writes it

The rows in `ROWS` and `HEIGHTS` were written by hand from docs/LANGUAGE.md; the recogniser has to agree with the
former. All others are changes of a few files: one byte, or one token, or a cut. A source in the grammar breaks C8 at
its first place, since it has no safelet, but for those in `SAFELETS`.
"""

import sys

sys.dont_write_bytecode = True
import recogniser
import table_files
from recogniser import begin, lex, refused, step

TEXTS = {
    "L1": "bad byte",
    "L2": "bad number",
    "L3": "open comment or string",
    "L4": "long name",
    "P1": "not in the grammar",
    "P2": "too deep",
    "C7": "abstract left open",
    "C8": "not exactly one safelet",
}

EVERYTHING = b"""package a.b;
import javax.safetycritical.*;
import static a.B.c;
import Z;
@SCJAllowed @SuppressWarnings("x y") @SCJRestricted(a = b.C, "t", true, k = false) @Override()
@DefineScope(name="M", parent="IMMORTAL") @Scope(Scope.M) @RunsIn(M)
public final abstract class A extends MissionSequencer<B> implements Safelet<B>, Runnable {
  private static int x = -2147483648; // a comment
  protected boolean[] y = true;
  int n = -5; int l = 5; boolean f = false; Object o = null;
  @DefineScope(parent=P, name="N") synchronized Safelet<B> s;
  A(int a, @Scope("M") final A[] b) { super(a, "t"); ; }
  A() { super(); x = 1; }
  abstract void m();
  public long k() { return 2147483647; }
  int g(MissionSequencer<B> p) {
    int q; final boolean r = true; @Scope(M) A[] c = new A[p];
    { x = 1; this.x = a.b.c; c[0].d[1] = (A) b; }
    x++; x--; x += 1; x -= 1; x *= 1; x /= 1; x %= 1; x &= 1; x |= 1; x ^= 1; x <<= 1; x >>= 1; x >>>= 1;
    m(); a.m(1, "t"); new A(); new A(b, c).m(); (a).b = null;
    if (a) ; else { }
    if (a) if (b) return; else x = 2;
    while (!a) b = ~c;
    for (int i = 0; i < 9; i++) { }
    for (i = 0; true; i += 1) ;
    x = a || b && c | d ^ e & f == g != h < i > j <= k >= l << m >> n >>> o + p - q * r / s % t;
    x = -a + (A) (b) - (A) !c + (A) (B) ~m(d)[e].f(g);
    y = new int[3].length; z = new boolean[x]; /* another
    comment */ z = - -2147483648.f[0].m(false);
  }
}
class B { }
"""

MIXED = b'@Scope("M")class A{/**/int x=1;}'
PLAIN = b"class A{}"
SCOPED = b'@Scope("M")@DefineScope(name="M",parent="N")abstract class A extends B{}'
SAMPLE = b'\x00\t\n\x0c\r !"$()*,./09=@AMZ_az{}\\\x7f\x80\xff'

OTHERS = [b"x", b"5", b"2147483648", b'"t"', b";", b"{", b"}", b"(", b")", b"=", b".", b"-", b"class", b"int", b"else", b"@"]

BODY = b"class A{void m(){%s}}"
GIVES = b"class A{int m(){return %s;}}"

# Name, source, the break as rule, line and column; None where there is none.
ROWS = [
    ("synchronized_statement", b"class C {\n  void m() {\n    synchronized (this) { }\n  }\n}\n", "P1 3:5"),
    ("open_class", b"class A {", "P1 1:10"),
    ("no_value", b"class A { void m() { x = ; } }", "P1 1:26"),
    ("brace_behind", b"class A { int x; } }", "P1 1:20"),
    ("public_twice", b"public public class A { }", "P1 1:8"),
    ("large_number", b"class A { int x = 99999999999; }", "L2 1:19"),
    ("open_comment", b"/*/", "L3 1:1"),
    ("else_alone", BODY % b"else;", "P1 1:18"),
    ("super_late", b"class A{A(){;super();}}", "P1 1:14"),
    ("super_in_method", BODY % b"super();", "P1 1:18"),
    ("array_of_arrays", b"class A{int[] [] x;}", "P1 1:15"),
    ("for_ever", BODY % b"for(;;);", "P1 1:22"),
    ("for_without_value", BODY % b"for(int i;;);", "P1 1:27"),
    ("step_in_value", BODY % b"x=x++;", "P1 1:21"),
    ("step_and_more", BODY % b"x++ + 1;", "P1 1:22"),
    ("step_of_field", BODY % b"a.b++;", "P1 1:21"),
    ("step_before", BODY % b"++a;", "P1 1:18"),
    ("new_array_of_arrays", BODY % b"x=new int[3][4];", "P1 1:30"),
    ("new_array_length", BODY % b"x=new int[3].length;", None),
    ("cast_to_int", BODY % b"x=(int) x;", "P1 1:21"),
    ("assignment_twice", BODY % b"a.b = c = d;", "P1 1:26"),
    ("compound_twice", BODY % b"x+=y+=1;", "P1 1:22"),
    ("negative_field", b"class A{int x = -5;}", None),
    ("name_as_value_of_field", b"class A{int x=y;}", "P1 1:15"),
    ("two_signs_of_field", b"class A{int x=--5;}", "P1 1:15"),
    ("largest_of_field", b"class A{int x=2147483648;}", "P1 1:15"),
    ("least_of_field", b"class A{int x=- 2147483648;}", None),
    ("beyond_largest", b"class A{int x=-2147483649;}", "L2 1:16"),
    ("largest_behind_minus", GIVES % b"x-2147483648", "P1 1:26"),
    ("least", GIVES % b"x- -2147483648", None),
    ("largest_in_parentheses", GIVES % b"-(2147483648)", "P1 1:26"),
    ("least_with_suffix", GIVES % b"-2147483648.f", None),
    ("largest_behind_cast", GIVES % b"(a) 2147483648", "P1 1:28"),
    ("word_in_scope", b'@Scope("int") class A{}', "P1 1:8"),
    ("no_name_in_scope", b'@Scope("a b") class A{}', "P1 1:8"),
    ("scope_twice", b'@Scope("M") @Scope("N") class A{}', "P1 1:14"),
    ("no_effect_twice", b"@SCJAllowed @SCJAllowed class A{int x;}", None),
    ("unknown_annotation", b"@Deprecated class A{}", "P1 1:2"),
    ("list_in_annotation", b'@SuppressWarnings({"a"}) class A{}', "P1 1:19"),
    ("scope_by_class", b"@RunsIn(Scope.M) class A{int x;}", None),
    ("scope_by_other_class", b"@RunsIn(M.Scope) class A{}", "P1 1:10"),
    ("define_name_twice", b'@DefineScope(name="M",name="N") class A{}', "P1 1:23"),
    ("argument_of_other_class", b"class A extends B<C>{}", "P1 1:18"),
    ("argument_of_safelet", b"class A{Safelet<B> s;}", None),
    ("less_than_safelet", GIVES % b"Safelet < B", None),
    ("cast_as_statement", BODY % b"(a) b;", "P1 1:22"),
    ("cast", GIVES % b"(a) b", None),
    ("parenthesised_minus", GIVES % b"(a) -b", None),
    ("cast_of_parenthesised", GIVES % b"(a) (b)", None),
    ("cast_of_number", GIVES % b"(a) 5", None),
    ("cast_to_field", GIVES % b"(a.b) 5", "P1 1:30"),
    ("long_field", b"class A{long x;}", "P1 1:15"),
    ("void_field", b"class A{void x;}", "P1 1:15"),
    ("final_twice", BODY % b"final final int x;", "P1 1:24"),
    ("static_local", BODY % b"static int x;", "P1 1:18"),
    ("local_under_if", BODY % b"if(a) int x;", None),
    ("name_as_statement", BODY % b"a;", "P1 1:19"),
    ("minus_as_statement", BODY % b"-x;", "P1 1:18"),
    ("number_as_statement", BODY % b"5;", "P1 1:19"),
    ("true_as_target", BODY % b"true = x;", "P1 1:23"),
    ("this_as_target", BODY % b"this=x;", "P1 1:22"),
    ("new_as_target", BODY % b"new A()=1;", "P1 1:25"),
    ("field_of_new", BODY % b"new A().x=1;", None),
    ("text_as_statement", BODY % b'"t";', "P1 1:18"),
    ("text_as_value", BODY % b'x="t";', "P1 1:20"),
    ("text_as_argument", BODY % b'm("t");', None),
    ("import_behind_star", b"import a.*.b;", "P1 1:11"),
    ("package_twice", b"package a; package b;", "P1 1:12"),
    ("import_behind_class", b"class A{} import b;", "P1 1:11"),
    ("interface", b"interface A{}", "P1 1:1"),
    ("comma_behind_names", b"class A implements B,{}", "P1 1:22"),
    ("comma_behind_parameter", b"class A{void m(int a,){}}", "P1 1:22"),
    ("constructor_without_body", b"class A{A();}", "P1 1:12"),
    ("field_without_end", b"class A{int x=1}", "P1 1:16"),
    ("method_without_body", b"class A{void m();}", None),
    ("carriage_returns", b"class A{\r\n}\r\n}", "P1 3:1"),
    ("tab", b"\t}", "P1 1:2"),
    ("end_behind_line", b"class\n", "P1 2:1"),
    ("end_in_comment", b"class A{ // }", "P1 1:14"),
    ("name_of_64", b"class " + b"a" * 64 + b"{}", None),
    ("name_of_65", b"class " + b"a" * 65 + b"{}", "L4 1:7"),
    ("text_of_65", b'@Scope("' + b"a" * 65 + b'") class A{}', "P1 1:8"),
    ("hexadecimal", b"class A{int x=0x1;}", "L2 1:15"),
    ("leading_zero", b"class A{int x=00;}", "L2 1:15"),
    ("long_number", b"class A{int x=1L;}", "L2 1:15"),
    ("text_over_lines", b'@Scope("a\n") class A{}', "L3 1:8"),
    ("text_with_escape", b'@Scope("\\n") class A{}', "L3 1:8"),
    ("hash", b"class # A{}", "L1 1:7"),
    ("quote", b"class A{int x='a';}", "L1 1:15"),
    ("vertical_tab", b"class\x0bA{}", "L1 1:6"),
    ("lexeme_before_grammar", b"} } #", "L1 1:5"),
    ("any_bytes_in_comment", b"/* \xff\x00 */", None),
    ("nothing", b"", None),
    ("headers", b"package a; import static b.C; import d.*; public final @SCJAllowed(a) class A extends B implements C{}", None),
    ("two_interfaces", b"class A implements B,C{}", None),
    ("header_with_argument", b"class A implements Safelet<B>{}", None),
    ("static_header", b"static class A{}", None),
    ("colons", b"class A{int x=a::b;}", "P1 1:15"),
    ("dots", b"import a...b;", "P1 1:9"),
    ("shift_as_argument_end", b"class A{Safelet<B>> x;}", "P1 1:18"),
]


def nested(count):
    return b"(" * count + b"1" + b")" * count


# As in `ROWS`, by counting nodes: 64 is the greatest height, and the body's block has the height 1.
HEIGHTS = [
    ("blocks_64", BODY % (b"{" * 63 + b"}" * 63), None),
    ("blocks_65", BODY % (b"{" * 64 + b"}" * 64), "P2 1:14"),
    ("value_64", GIVES % nested(61), None),
    ("value_65", GIVES % nested(62), "P2 1:13"),
    ("compound_64", BODY % (b"x+=" + nested(59) + b";"), None),
    ("compound_65", BODY % (b"x+=" + nested(60) + b";"), "P2 1:14"),
    ("call_64", BODY % (b"m(" + nested(60) + b");"), None),
    ("call_65", BODY % (b"m(" + nested(61) + b");"), "P2 1:14"),
    ("super_64", b"class A{A(){super(" + nested(62) + b");}}", None),
    ("super_65", b"class A{A(){super(" + nested(63) + b");}}", "P2 1:9"),
    ("for_64", BODY % (b"for(x=" + nested(60) + b";a;x=1);"), None),
    ("for_65", BODY % (b"for(x=" + nested(61) + b";a;x=1);"), "P2 1:14"),
    ("grammar_before_height", BODY % (b"{" * 64 + b"}" * 64) + b"}", "P1 1:148"),
    ("second_method", b"class A{void n(){} void m(){" + b"{" * 64 + b"}" * 64 + b"}}", "P2 1:25"),
]


# The first break of sources with a concrete safelet, written by hand: the class in question leaves methods open. All
# other sources here have none, which is told at line 1, column 1, before any other break of classes.
SAFELETS = {"header_with_argument": "C7 1:7", "e_76_gone": "C7 7:22"}


def has_safelet(tokens):
    """Whether some class without `abstract` has `Safelet` behind `implements`."""
    texts = [token.text for token in tokens]
    for at, text in enumerate(texts):
        if text == b"class" and (at == 0 or texts[at - 1] != b"."):
            flags = at
            while flags > 0 and texts[flags - 1] not in (b"}", b";"):
                flags -= 1
            header = texts[at:texts.index(b"{", at)]
            if b"abstract" not in texts[flags:at] and b"implements" in header and b"Safelet" in header[header.index(b"implements"):]:
                return True
    return False


def line(name, lexed, broken):
    if not broken:
        broken = place(SAFELETS[name]) if has_safelet(lexed.tokens) else ("C8", 1, 1)
    rule, row, column = broken
    return f"{name} 1 {name}:{row}:{column}: {rule} {TEXTS[rule]}"


def written(text):
    return "".join(chr(byte) if 32 <= byte <= 126 and byte != 92 else f"\\x{byte:02x}" for byte in text)


class Cases:
    def __init__(self):
        self.source, self.lines, self.answers, self.known = b"", [], [], {}

    def asks(self, name, source, broken=None):
        """A case of its own, with the break that is given in place of the recogniser's."""
        self.source = source
        *whole, rest = source.split(b"\n")
        self.lines.append(f"== {name}")
        self.lines += [written(text) for text in whole]
        if rest:
            self.lines.append(written(rest) + "\\")
        lexed = lex(source)
        self.answers.append(line(name, lexed, broken or self.broken(lexed)))

    def edits(self, name, start, end, text, columns=None):
        """A change of the last case of its own."""
        self.lines.append(f"~~ {name} {start} {end} {written(text)}")
        lexed = lex(self.source[:start] + text + self.source[end:])
        self.answers.append(line(name, lexed, self.broken(lexed, columns)))

    def broken(self, lexed, columns=None):
        if lexed.broken:
            return lexed.broken
        key = tuple(frozenset(token.kinds) for token in lexed.tokens)
        if key not in self.known:
            self.known[key] = refused(lexed.tokens, columns)
        number = self.known[key]
        return None if number is None else ("P1", lexed.tokens[number].line, lexed.tokens[number].column)


def place(text):
    if text is None:
        return None
    rule, row = text.split(" ")
    return (rule, *map(int, row.split(":")))


def ask_rows(cases):
    for name, source, found in ROWS + HEIGHTS:
        read = None if found and found.startswith("P2") else place(found)
        assert recogniser.answer(source) == read, (name, recogniser.answer(source), found)
        cases.asks(name, source, place(found))


def ask_bytes(cases, name, source, bytes_there):
    cases.asks(name, source)
    for at in range(len(source)):
        for byte in bytes_there:
            if byte != source[at]:
                cases.edits(f"{name}_{at}_{byte:02x}", at, at + 1, bytes([byte]))


def ask_tokens(cases, name, source):
    cases.asks(name, source)
    tokens = lex(source).tokens
    columns = begin()
    kept = [columns[0]]
    for token in tokens:
        assert step(columns, token.kinds), token.text
        kept.append(columns[-1])
    missing = list(unused(columns))
    assert not missing, missing
    for number, token in enumerate(tokens[:-1]):
        start, end = token.start, token.end
        before, behind = kept[: number + 1], kept[: number + 2]
        cases.edits(f"{name}_{number}_cut", end, len(source), b"", behind[:])
        cases.edits(f"{name}_{number}_gone", start, end, b" ", before[:])
        cases.edits(f"{name}_{number}_twice", end, end, b" " + token.text, behind[:])
        for other in OTHERS:
            if other != token.text:
                cases.edits(f"{name}_{number}_{other.decode()}".replace('"', ""), start, end, b" " + other + b" ", before[:])


def ask_prefixes(cases, name, source):
    """The prefixes of the last case's source that end inside of a token, of blanks or of a comment."""
    tokens = lex(source).tokens[:-1]
    columns = begin()
    kept, number = [columns[0]], 0
    ends = {token.end for token in tokens}
    for at in range(len(source)):
        while number < len(tokens) and tokens[number].end <= at:
            assert step(columns, tokens[number].kinds)
            kept.append(columns[-1])
            number += 1
        if at not in ends:
            cases.edits(f"{name}_to_{at}", at, len(source), b"", kept[:])


def unused(columns):
    """The productions that are read nowhere in a file, but for the repeated flags."""
    used = {item for column in columns for item, _ in column.seen}
    grammar = recogniser.GRAMMAR
    for left in grammar.table:
        for right, first in zip(grammar.table[left], grammar.items(left)):
            if first + len(right) not in used:
                yield left, right


def main():
    cases = Cases()
    ask_rows(cases)
    ask_bytes(cases, "p", PLAIN, range(256))
    ask_bytes(cases, "m", MIXED, range(256))
    ask_bytes(cases, "s", SCOPED, SAMPLE)
    ask_tokens(cases, "e", EVERYTHING)
    ask_prefixes(cases, "e", EVERYTHING)
    for name, lines in ("stdin", cases.lines), ("stdout", cases.answers):
        table_files.write(name, "changed", "".join(text + "\n" for text in lines))
    print(len(cases.answers), "cases,", sum(len(text) + 1 for text in cases.lines), "bytes")


if __name__ == "__main__":
    main()
