#!/usr/bin/env python3
"""Prints the nodes of a program, from the text of its files.

    print_nodes.py NAME FILE..           as a definition
    print_nodes.py --lines NAME FILE..   one a line, and behind them the classes of each file

The nodes stand in the order in which reading finishes them: children first, left to right, file after file. This is a
reader of its own, after the grammar of docs/LANGUAGE.md, and shares nothing with the parser that is proved. It reads
programs that are in the grammar, and says little of others.
"""
import re
import sys

WORDS = set(
    "abstract assert boolean break byte case catch char class const continue default do double else enum extends false"
    " final finally float for goto if implements import instanceof int interface long native new null package private"
    " protected public return short static strictfp super switch synchronized this throw throws transient true try void"
    " volatile while".split()
)
SIGNS = (
    "{ } ( ) [ ] ; , . @ = == != < > <= >= + - * / % ! && || & | ^ ~ << >> >>> ? : ++ -- += -= *= /= %= &= |= ^= <<="
    " >>= >>>= -> :: ...".split()
)
LONGEST_FIRST = sorted(SIGNS, key=len, reverse=True)
LEVELS = [["||"], ["&&"], ["|"], ["^"], ["&"], ["==", "!="], ["<", ">", "<=", ">="], ["<<", ">>", ">>>"], ["+", "-"],
          ["*", "/", "%"]]
COMPOUND = ["+=", "-=", "*=", "/=", "%=", "&=", "|=", "^=", "<<=", ">>=", ">>>="]
MODIFIERS = ["public", "protected", "private", "static", "final", "abstract", "synchronized"]
WITHOUT_EFFECT = ["Override", "SCJAllowed", "SCJRestricted", "SuppressWarnings"]


class Token:
    def __init__(self, kind, text, place):
        self.kind, self.text, self.place = kind, text, place


def lex(file, text):
    tokens, i, line, start = [], 0, 1, 0
    while i < len(text):
        c = text[i]
        place = (file, line, i - start + 1)
        if c == "\n":
            i, line, start = i + 1, line + 1, i + 1
        elif c in " \t\r\f":
            i += 1
        elif text.startswith("//", i):
            end = text.find("\n", i)
            i = len(text) if end < 0 else end
        elif text.startswith("/*", i):
            end = text.index("*/", i + 2) + 2
            for k in range(i, end):
                if text[k] == "\n":
                    line, start = line + 1, k + 1
            i = end
        elif c == '"':
            end = text.index('"', i + 1)
            tokens.append(Token("text", text[i + 1:end], place))
            i = end + 1
        else:
            name = re.compile(r"[A-Za-z_$][A-Za-z0-9_$]*").match(text, i)
            number = re.compile(r"0|[1-9][0-9]*").match(text, i)
            if name:
                tokens.append(Token("word" if name.group() in WORDS else "name", name.group(), place))
                i = name.end()
            elif number:
                tokens.append(Token("number", number.group(), place))
                i = number.end()
            else:
                sign = next(s for s in LONGEST_FIRST if text.startswith(s, i))
                tokens.append(Token("sign", sign, place))
                i += len(sign)
    tokens.append(Token("end", "", (file, line, len(text) - start + 1)))
    return tokens


class Reader:
    def __init__(self, nodes, tokens):
        self.nodes, self.tokens, self.at = nodes, tokens, 0

    # ---- tokens

    def peek(self, k=0):
        return self.tokens[min(self.at + k, len(self.tokens) - 1)]

    def is_next(self, text, k=0):
        t = self.peek(k)
        return t.kind in ("word", "sign") and t.text == text

    def take(self, text=None):
        t = self.peek()
        if text is not None and not self.is_next(text):
            raise SystemExit(f"not in the grammar at {t.place}: {t.text!r} in place of {text!r}")
        self.at += 1
        return t

    def name(self):
        t = self.take()
        if t.kind != "name":
            raise SystemExit(f"not in the grammar at {t.place}: {t.text!r} is no name")
        return t

    def add(self, kind, place, *fields):
        self.nodes.append((kind, place, fields))
        return len(self.nodes) - 1

    def place_of(self, node):
        return self.nodes[node][1]

    # ---- files and classes

    def dotted(self):
        self.name()
        while self.is_next("."):
            self.take()
            self.take()

    def file(self):
        classes = []
        if self.is_next("package"):
            self.take()
            self.dotted()
            self.take(";")
        while self.is_next("import"):
            while not self.is_next(";"):
                self.take()
            self.take(";")
        while self.peek().kind != "end":
            classes.append(self.class_())
        return classes

    def scope_name(self):
        t = self.take()
        name = t.text
        if t.kind == "name" and name == "Scope" and self.is_next("."):
            self.take()
            name = self.name().text
        return self.add("ScopeName", t.place, Name(name))

    def flags(self):
        first = self.peek().place
        define = scope = runs_in = None
        kept = set()
        while True:
            if self.is_next("@"):
                sign = self.take()
                annotation = self.name().text
                if annotation == "DefineScope":
                    self.take("(")
                    keys, values = [], []
                    for k in range(2):
                        keys.append(self.name().text)
                        self.take("=")
                        values.append(self.scope_name())
                        self.take("," if k == 0 else ")")
                    define = self.add("DefineScope", sign.place, values[0], values[1], keys[0] == "parent")
                elif annotation in ("Scope", "RunsIn"):
                    self.take("(")
                    value = self.scope_name()
                    self.take(")")
                    if annotation == "Scope":
                        scope = value
                    else:
                        runs_in = value
                elif annotation in WITHOUT_EFFECT:
                    if self.is_next("("):
                        while not self.is_next(")"):
                            self.take()
                        self.take(")")
                else:
                    raise SystemExit(f"unknown annotation {annotation}")
            elif self.peek().kind == "word" and self.peek().text in MODIFIERS:
                kept.add(self.take().text)
            else:
                break
        kept &= {"static", "abstract", "synchronized"}
        if define is None and scope is None and runs_in is None and not kept:
            return None
        return self.add("Flags", first, Option(define), Option(scope), Option(runs_in), "static" in kept,
                        "abstract" in kept, "synchronized" in kept)

    def argument(self):
        if not self.is_next("<"):
            return None
        self.take()
        t = self.name()
        self.take(">")
        return self.add("TypeArgument", t.place, Name(t.text))

    def super_type(self):
        t = self.name()
        return self.add("SuperType", t.place, Name(t.text), Option(self.argument()))

    def class_(self):
        flags = self.flags()
        self.take("class")
        t = self.name()
        superclass, interfaces, header, first = None, [], None, None
        if self.is_next("extends"):
            first = self.take().place
            superclass = self.super_type()
        if self.is_next("implements"):
            place = self.take().place
            first = first or place
            interfaces.append(self.super_type())
            while self.is_next(","):
                self.take()
                interfaces.append(self.super_type())
        if first:
            header = self.add("Supers", first, Option(superclass), interfaces)
        self.take("{")
        members = []
        while not self.is_next("}"):
            members.append(self.member())
        self.take("}")
        return self.add("Class", t.place, Name(t.text), Option(flags), Option(header), members)

    def type_(self, array=True):
        t = self.take()
        argument = self.argument() if t.kind == "name" else None
        is_array = False
        if array and self.is_next("["):
            self.take()
            self.take("]")
            is_array = True
        if t.text == "int":
            return self.add("IntType", t.place, is_array)
        if t.text == "boolean":
            return self.add("BooleanType", t.place, is_array)
        if t.text == "void":
            return self.add("VoidType", t.place)
        if t.text == "long":
            return self.add("LongType", t.place)
        return self.add("ClassType", t.place, Name(t.text), Option(argument), is_array)

    def member(self):
        flags = self.flags()
        if self.peek().kind == "name" and self.is_next("(", 1):
            t = self.name()
            parameters = self.parameters()
            brace = self.take("{")
            call = None
            if self.is_next("super"):
                place = self.take().place
                arguments = self.arguments()
                self.take(";")
                call = self.add("SuperCall", place, arguments)
            body = self.block_behind(brace)
            return self.add("Constructor", t.place, Name(t.text), Option(flags), Option(parameters), Option(call), body)
        declared_type = self.type_()
        t = self.name()
        if self.is_next("("):
            parameters = self.parameters()
            body = None
            if self.is_next(";"):
                self.take()
            else:
                body = self.block_behind(self.take("{"))
            return self.add("Method", t.place, Name(t.text), Option(flags), declared_type, Option(parameters),
                            Option(body))
        equals, value = None, None
        if self.is_next("="):
            equals = Place(self.take().place)
            sign = self.take() if self.is_next("-") else None
            literal = self.take()
            place = sign.place if sign else literal.place
            if literal.kind == "number":
                value = self.add("Number", place, int(literal.text), sign is not None)
            else:
                value = self.add({"true": "True", "false": "False", "null": "Null"}[literal.text], place)
        self.take(";")
        return self.add("Field", t.place, Name(t.text), Option(flags), declared_type, Option(equals), Option(value))

    def parameters(self):
        place = self.take("(").place
        listed = []
        while not self.is_next(")"):
            if listed:
                self.take(",")
            flags = self.flags()
            declared_type = self.type_()
            t = self.name()
            listed.append(self.add("Parameter", t.place, Name(t.text), Option(flags), declared_type))
        self.take(")")
        return self.add("Parameters", place, listed) if listed else None

    # ---- statements

    def block_behind(self, brace):
        statements = []
        while not self.is_next("}"):
            statements.append(self.statement())
        self.take("}")
        return self.add("Block", brace.place, statements)

    def begins_local(self):
        if self.is_next("@") or self.is_next("final") or self.is_next("int") or self.is_next("boolean"):
            return True
        if self.peek().kind != "name":
            return False
        if self.peek(1).kind == "name":
            return True
        if self.is_next("[", 1) and self.is_next("]", 2):
            return True
        return self.is_next("<", 1) and self.is_next(">", 3) and self.peek(4).kind == "name"

    def local(self):
        flags = self.flags()
        declared_type = self.type_()
        t = self.name()
        if self.is_next("="):
            place = self.take().place
            value = self.expression()
            return self.add("LocalWithValue", place, Place(t.place), Name(t.text), Option(flags), declared_type, value)
        return self.add("Local", t.place, Name(t.text), Option(flags), declared_type)

    def assignment_or_call(self):
        if self.peek().kind == "name" and self.peek(1).kind == "sign" and self.peek(1).text in ["++", "--"] + COMPOUND:
            t = self.name()
            sign = self.take()
            target = self.add("SimpleName", t.place, Name(t.text))
            again = self.add("SimpleName", t.place, Name(t.text))
            if sign.text in ("++", "--"):
                operand = self.add("Number", sign.place, 1, False)
            else:
                operand = self.add("Parenthesized", sign.place, self.expression())
            operator = sign.text[0] if sign.text in ("++", "--") else sign.text[:-1]
            value = self.add("Binary", sign.place, SIGNS.index(operator), again, operand)
            return self.add("Assign", sign.place, target, value)
        expression = self.post()
        if self.is_next("="):
            place = self.take().place
            return self.add("Assign", place, expression, self.expression())
        return self.add("ExpressionStatement", self.place_of(expression), expression)

    def statement(self):
        if self.is_next("{"):
            return self.block_behind(self.take())
        if self.is_next(";"):
            return self.add("Empty", self.take().place)
        if self.is_next("if"):
            place = self.take().place
            self.take("(")
            condition = self.expression()
            self.take(")")
            then_part = self.statement()
            else_part = None
            if self.is_next("else"):
                self.take()
                else_part = self.statement()
            return self.add("If", place, condition, then_part, Option(else_part))
        if self.is_next("while"):
            place = self.take().place
            self.take("(")
            condition = self.expression()
            self.take(")")
            return self.add("While", place, condition, self.statement())
        if self.is_next("for"):
            place = self.take().place
            self.take("(")
            first = self.local() if self.begins_local() else self.assignment_or_call()
            self.take(";")
            condition = self.expression()
            self.take(";")
            step = self.assignment_or_call()
            self.take(")")
            return self.add("For", place, first, condition, step, self.statement())
        if self.is_next("return"):
            place = self.take().place
            value = None if self.is_next(";") else self.expression()
            self.take(";")
            return self.add("Return", place, Option(value))
        statement = self.local() if self.begins_local() else self.assignment_or_call()
        self.take(";")
        return statement

    # ---- expressions

    def expression(self, level=0):
        if level == len(LEVELS):
            return self.unary()
        left = self.expression(level + 1)
        while self.peek().kind == "sign" and self.peek().text in LEVELS[level]:
            sign = self.take()
            right = self.expression(level + 1)
            left = self.add("Binary", sign.place, SIGNS.index(sign.text), left, right)
        return left

    def is_cast(self):
        if not (self.is_next("(") and self.peek(1).kind == "name" and self.is_next(")", 2)):
            return False
        t = self.peek(3)
        return t.kind in ("name", "number") or (t.kind == "sign" and t.text in ("!", "~", "(")) or (
            t.kind == "word" and t.text in ("true", "false", "null", "this", "new"))

    def unary(self):
        if self.is_next("-") and self.peek(1).kind == "number" and self.peek(1).text == "2147483648":
            place = self.take().place
            self.take()
            return self.suffixes(self.add("Number", place, 2147483648, True))
        if self.peek().kind == "sign" and self.peek().text in ("-", "!", "~"):
            sign = self.take()
            return self.add("Unary", sign.place, SIGNS.index(sign.text), self.unary())
        if self.is_cast():
            place = self.take("(").place
            t = self.name()
            self.take(")")
            return self.add("Cast", place, Place(t.place), Name(t.text), self.unary())
        return self.post()

    def arguments(self):
        self.take("(")
        listed = []
        while not self.is_next(")"):
            if listed:
                self.take(",")
            if self.peek().kind == "text":
                t = self.take()
                listed.append(self.add("Text", t.place, Name(t.text)))
            else:
                listed.append(self.expression())
        self.take(")")
        return listed

    def post(self):
        return self.suffixes(self.primary())

    def suffixes(self, node):
        while True:
            if self.is_next("."):
                self.take()
                t = self.name()
                if self.is_next("("):
                    arguments = self.arguments()
                    node = self.add("Call", t.place, Name(t.text), Option(node), arguments)
                else:
                    node = self.add("FieldAccess", t.place, Name(t.text), node)
            elif self.is_next("["):
                place = self.take().place
                index = self.expression()
                self.take("]")
                node = self.add("Element", place, node, index)
            else:
                return node

    def primary(self):
        t = self.take()
        if t.kind == "number":
            return self.add("Number", t.place, int(t.text), False)
        if t.text in ("true", "false", "null", "this") and t.kind == "word":
            return self.add(t.text.capitalize(), t.place)
        if t.text == "(" and t.kind == "sign":
            inner = self.expression()
            self.take(")")
            return self.add("Parenthesized", t.place, inner)
        if t.text == "new" and t.kind == "word":
            if self.is_next("[", 1):
                element = self.type_(array=False)
                self.take("[")
                length = self.expression()
                self.take("]")
                return self.add("NewArray", t.place, element, length)
            n = self.name()
            arguments = self.arguments()
            return self.add("New", t.place, Place(n.place), Name(n.text), arguments)
        if t.kind == "name":
            if self.is_next("("):
                arguments = self.arguments()
                return self.add("Call", t.place, Name(t.text), None, arguments)
            return self.add("SimpleName", t.place, Name(t.text))
        raise SystemExit(f"not in the grammar at {t.place}: {t.text!r}")


# ---- how fields are printed


class Name:
    def __init__(self, text):
        self.text = text


class Place:
    def __init__(self, place):
        self.place = place


class Option:
    def __init__(self, value):
        self.value = value


def shown(field):
    if field is None:
        return "None"
    if isinstance(field, bool):
        return "true" if field else "false"
    if isinstance(field, int):
        return str(field)
    if isinstance(field, Name):
        return f'(codes "{field.text}")'
    if isinstance(field, Place):
        return "(at {} {} {})".format(*field.place)
    if isinstance(field, Option):
        return "None" if field.value is None else f"(Some {shown(field.value)})"
    if isinstance(field, list):
        return "(" + " ∷ ".join([shown(x) for x in field] + ["[]"]) + ")" if field else "[]"
    raise TypeError(field)


def node_lines(nodes):
    return [" ".join([kind, shown(Place(place))] + [shown(f) for f in fields]) for kind, place, fields in nodes]


def printed_lines(name, nodes, files):
    return "\n".join([f"== {name}"] + node_lines(nodes) + [shown(classes) for _, classes in files]) + "\n"


def printed(name, nodes, files):
    kinds = sorted({kind for kind, _, _ in nodes})
    text = " ".join(shown(field) for _, _, fields in nodes for field in fields)
    words = ["[]", "◌∷◌"] + [w for w in ("Some", "None", "codes", "true", "false") if re.search(rf"\b{w}\b", text)] + ["ℕ"]
    lines = [
        f"-- The nodes of {', '.join(f for f, _ in files)}. Printed by expected/print_nodes.py.",
        "use Rattle.std.specs.Prelude.{" + ", ".join(words) + "}",
        "use Rattle.scj_base.specs.declared.positions.Position.{Position}",
        "use Rattle.scj_tree.specs.declared.nodes.Node.TheVariants.{" + ", ".join(kinds) + "}",
        "use Rattle.scj_tree.specs.Forest.{Forest}",
        "",
        "abbrev at : ℕ → ℕ → ℕ → Position",
        "at file line col = record { file = file; line = line; col = col }",
        "",
        f"abbrev pub {name} : Forest",
        f"{name} =",
        "    record {",
        "      nodes =",
    ]
    lines += ["          " + ("∷ " if i else "") + line for i, line in enumerate(node_lines(nodes))]
    lines.append("          ∷ [];")
    classes = " ∷ ".join([shown(c) for _, c in files] + ["[]"])
    lines += [f"      files = ({classes});", "    }"]
    return "\n".join(lines) + "\n"


def main():
    words = sys.argv[1:]
    as_lines = words[0] == "--lines"
    if as_lines:
        words = words[1:]
    name, nodes, files = words[0], [], []
    for number, path in enumerate(words[1:]):
        reader = Reader(nodes, lex(number, open(path).read()))
        files.append((path.rsplit("/", 1)[-1], reader.file()))
    sys.stdout.write((printed_lines if as_lines else printed)(name, nodes, files))


main()
