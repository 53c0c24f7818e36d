"""A slow recogniser of the language of docs/LANGUAGE.md, written apart from the program's lexer and parser.

`answer(source)` gives the break of the lexemes or of the grammar that a source has, as (rule, line, column), or
None. The lexemes are read by the rules of that page. The grammar is a table of productions below, and is asked by
Earley's method: a token is refused exactly where no item is left behind it, so where the tokens up to it begin no
file. Heights (rule P2) are not asked.

    python3 recogniser.py FILE..    prints the break of each file
"""

import sys

WORDS = set(
    "abstract assert boolean break byte case catch char class const continue default do double else enum extends"
    " false final finally float for goto if implements import instanceof int interface long native new null package"
    " private protected public return short static strictfp super switch synchronized this throw throws transient"
    " true try void volatile while".split()
)
SIGNS = (
    "{ } ( ) [ ] ; , . @ = == != < > <= >= + - * / % ! && || & | ^ ~ << >> >>> ? : ++ -- += -= *= /= %= &= |= ^="
    " <<= >>= >>>= -> :: ..."
).split()
BLANKS = b" \t\r\n\f"
BEGINS_NAME = frozenset(b"ABCDEFGHIJKLMNOPQRSTUVWXYZabcdefghijklmnopqrstuvwxyz_$")
DIGITS = frozenset(b"0123456789")
LARGEST = 2147483648


class Token:
    """A lexeme: the terminals that it may stand for, and its place."""

    def __init__(self, kinds, text, start, end, line, column):
        self.kinds, self.text = kinds, text
        self.start, self.end, self.line, self.column = start, end, line, column


def run_end(source, at):
    while at < len(source) and (source[at] in BEGINS_NAME or source[at] in DIGITS):
        at += 1
    return at


def is_name(text):
    if not text or len(text) > 64 or text[0] not in BEGINS_NAME or run_end(text, 0) < len(text):
        return False
    return text.decode() not in WORDS


def blank_end(source, at):
    """Where the blank or comment at a place ends; `at` where there is none, and None where it is open."""
    if source[at] in BLANKS:
        return at + 1
    if source[at : at + 2] == b"//":
        end = source.find(b"\n", at)
        return len(source) if end < 0 else end
    if source[at : at + 2] == b"/*":
        end = source.find(b"*/", at + 2)
        return None if end < 0 else end + 2
    return at


def lexeme(source, at):
    """The kinds and the end of the lexeme at a place, or the rule that is broken there."""
    byte = source[at]
    if byte in BEGINS_NAME:
        end = run_end(source, at)
        if end - at > 64:
            return "L4", None
        text = source[at:end].decode()
        return ({text} if text in WORDS else {"Name", "'" + text}), end
    if byte in DIGITS:
        end = at
        while end < len(source) and source[end] in DIGITS:
            end += 1
        digits = source[at:end]
        if digits[:1] == b"0" and len(digits) > 1 or int(digits) > LARGEST:
            return "L2", None
        if end < len(source) and source[end] in BEGINS_NAME:
            return "L2", None
        return {"Largest" if int(digits) == LARGEST else "Number"}, end
    if byte == 34:
        end = at + 1
        while end < len(source) and 32 <= source[end] <= 126 and source[end] not in b'"\\':
            end += 1
        if source[end : end + 1] != b'"':
            return "L3", None
        return ({"Text", "NameText"} if is_name(source[at + 1 : end]) else {"Text"}), end + 1
    fits = [sign for sign in SIGNS if source.startswith(sign.encode(), at)]
    if not fits:
        return "L1", None
    sign = max(fits, key=len)
    return {sign}, at + len(sign)


class Lexed:
    def __init__(self, tokens, broken):
        self.tokens, self.broken = tokens, broken


def lex(source):
    tokens, at, line, column = [], 0, 1, 1
    while at < len(source):
        end = blank_end(source, at)
        kinds = None
        if end == at:
            kinds, end = lexeme(source, at)
            if end is None:
                return Lexed(tokens, (kinds, line, column))
            tokens.append(Token(kinds, source[at:end], at, end, line, column))
        elif end is None:
            return Lexed(tokens, ("L3", line, column))
        for byte in source[at:end]:
            line, column = (line + 1, 1) if byte == 10 else (line, column + 1)
        at = end
    tokens.append(Token({"End"}, b"", at, at, line, column))
    return Lexed(tokens, None)


# A line `A -> symbols | symbols`; what stands on no left side is a terminal. `'x` is the name x, by its lexeme.
PRODUCTIONS = r"""
File -> Package Imports Classes End
Package -> | package Dotted ;
Imports -> | Imports Import
Import -> import Static Dotted Star ;
Static -> | static
Star -> | . *
Dotted -> Name | Dotted . Name
Classes -> | Classes Class
Class -> Flags class Name Extends Implements { Members }
Extends -> | extends Above
Implements -> | implements Aboves
Aboves -> Above | Aboves , Above
Above -> Name | Generic < Name >
Generic -> 'MissionSequencer | 'Safelet
Members -> | Members Member
Member -> Flags Type Name Value ;
Member -> Flags Result Name ( Params0 ) Body
Member -> Flags Name ( Params0 ) { Super Stmts }
Value -> | = Lit
Lit -> Number | - Number | - Largest | true | false | null
Result -> Type | void | long
Body -> Block | ;
Params0 -> | Params
Params -> Param | Params , Param
Param -> Flags Type Name
Type -> Element | Element [ ]
Element -> int | boolean | Above
Super -> | super ( Args0 ) ;
Block -> { Stmts }
Stmts -> | Stmts Stmt
Stmt -> Block | ; | Local ; | Assign ; | Done ;
Stmt -> if ( Expr ) Stmt | if ( Expr ) Stmt else Stmt
Stmt -> while ( Expr ) Stmt
Stmt -> for ( Start ; Expr ; Assign ) Stmt
Stmt -> return ; | return Expr ;
Start -> Type Name = Expr | Assign
Local -> LocalFlags Type Name | LocalFlags Type Name = Expr
Assign -> Target = Expr | Name ++ | Name -- | Name Cop Expr
Cop -> += | -= | *= | /= | %= | &= | |= | ^= | <<= | >>= | >>>=
Target -> Name | Post . Name | Indexed [ Expr ]
Done -> Call | New
Call -> Name ( Args0 ) | Post . Name ( Args0 )
New -> new Name ( Args0 )
NewArray -> new Kind [ Expr ]
Kind -> int | boolean | Name
Expr -> Or
Or -> And | Or || And
And -> BitOr | And && BitOr
BitOr -> BitXor | BitOr OR BitXor
BitXor -> BitAnd | BitXor ^ BitAnd
BitAnd -> Equal | BitAnd & Equal
Equal -> Less | Equal == Less | Equal != Less
Less -> Shift | Less < Shift | Less > Shift | Less <= Shift | Less >= Shift
Shift -> Sum | Shift << Sum | Shift >> Sum | Shift >>> Sum
Sum -> Product | Sum + Product | Sum - Product
Product -> Unary | Product * Unary | Product / Unary | Product % Unary
Unary -> - Unary | - LargestPost | Unary1
Unary1 -> ! Unary | ~ Unary | ( Name ) Unary1 | Post
Post -> Indexed | NewArray
Indexed -> Prim | Post . Name | Call | Indexed [ Expr ]
LargestPost -> Largest | LargestPost . Name | LargestPost . Name ( Args0 ) | LargestPost [ Expr ]
Prim -> Number | true | false | null | this | ( Expr ) | Name | New
Args0 -> | Args
Args -> Arg | Args , Arg
Arg -> Expr | Text
Flags -> Flags:
LocalFlags -> LocalFlags:
NoEffect -> @ Plain | @ Plain ( Avs0 )
Plain -> 'Override | 'SCJAllowed | 'SCJRestricted | 'SuppressWarnings
Avs0 -> | Avs
Avs -> Av | Avs , Av
Av -> AvValue | Name = AvValue
AvValue -> Text | Dotted | true | false
Defines -> @ 'DefineScope ( 'name = V , 'parent = V ) | @ 'DefineScope ( 'parent = V , 'name = V )
Resides -> @ 'Scope ( V )
Runs -> @ 'RunsIn ( V )
V -> NameText | Name | 'Scope . Name
"""

ANNOTATIONS = ["Defines", "Resides", "Runs"]
ONCE = {
    "Flags": ANNOTATIONS + "public protected private static final abstract synchronized".split(),
    "LocalFlags": ANNOTATIONS + ["final"],
}


def read_productions():
    table = {}
    for text in PRODUCTIONS.strip().split("\n"):
        left, right = text.split(" -> ")
        one = table.setdefault(left, [])
        for part in (" " + right + " ").replace(" |= ", " OREQ ").replace(" || ", " OROR ").split("|"):
            names = {"OR": "|", "OREQ": "|=", "OROR": "||"}
            one.append(tuple(names.get(symbol, symbol) for symbol in part.split()))
    return table


class Grammar:
    """Productions as numbered items, with one item for each place of the dot."""

    def __init__(self):
        self.table = read_productions()
        self.left, self.next = [], []
        self.first_items = {}
        self.nullable = set()
        size = -1
        while size < len(self.nullable):
            size = len(self.nullable)
            for left, rights in self.table.items():
                if any(all(self.is_nullable(symbol) for symbol in right) for right in rights):
                    self.nullable.add(left)

    def is_nullable(self, symbol):
        return ":" in symbol and symbol.split(":")[0] in ONCE or symbol in self.nullable

    def is_left(self, symbol):
        return symbol in self.table or symbol.split(":")[0] in ONCE and ":" in symbol

    def rights(self, left):
        if left in self.table:
            return self.table[left]
        kind, used = left.split(":")
        found = [(), ("NoEffect", left)]
        for number, flag in enumerate(ONCE[kind]):
            letter = "abcdefghij"[number]
            if letter not in used:
                found.append((flag, kind + ":" + "".join(sorted(used + letter))))
        return found

    def items(self, left):
        if left not in self.first_items:
            firsts = []
            for right in self.rights(left):
                firsts.append(len(self.left))
                for symbol in right + (None,):
                    self.left.append(left)
                    self.next.append(symbol)
            self.first_items[left] = firsts
        return self.first_items[left]


GRAMMAR = Grammar()


class Column:
    """The items behind some tokens: those that wait, by the symbol that they wait for."""

    def __init__(self):
        self.seen, self.waiting, self.ended = set(), {}, False


def close(columns, work):
    """A further column from its first items, with what they predict and complete."""
    grammar, column, here = GRAMMAR, Column(), len(columns)
    columns.append(column)
    seen, waiting = column.seen, column.waiting
    seen.update(work)
    work = list(work)
    while work:
        item, origin = work.pop()
        symbol = grammar.next[item]
        more = []
        if symbol is None:
            left = grammar.left[item]
            column.ended = column.ended or left == "File" and origin == 0
            if origin < here:
                more = [(waiter + 1, start) for waiter, start in columns[origin].waiting.get(left, ())]
        else:
            waiting.setdefault(symbol, []).append((item, origin))
            if grammar.is_left(symbol):
                more = [(first, here) for first in grammar.items(symbol)]
                if grammar.is_nullable(symbol):
                    more.append((item + 1, origin))
        for new in more:
            if new not in seen:
                seen.add(new)
                work.append(new)


def begin():
    columns = []
    close(columns, [(item, 0) for item in GRAMMAR.items("File")])
    return columns


def step(columns, kinds):
    """Adds the column behind one more token; False where the tokens begin no file."""
    waiting = columns[-1].waiting
    moved = {(item + 1, origin) for kind in kinds for item, origin in waiting.get(kind, ())}
    if not moved:
        return False
    close(columns, moved)
    return True


def refused(tokens, columns=None):
    """The number of the first token that can't stand, where the columns are those of the first tokens; or None."""
    columns = columns or begin()
    for number in range(len(columns) - 1, len(tokens)):
        if not step(columns, tokens[number].kinds):
            return number
    assert columns[-1].ended
    return None


def answer(source):
    lexed = lex(source)
    if lexed.broken:
        return lexed.broken
    number = refused(lexed.tokens)
    if number is None:
        return None
    return "P1", lexed.tokens[number].line, lexed.tokens[number].column


def main():
    for name in sys.argv[1:]:
        with open(name, "rb") as file:
            print(name, answer(file.read()))


if __name__ == "__main__":
    main()
