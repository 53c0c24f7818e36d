"""Sources of the subset as trees: classes with members, statements and expressions, each with its place."""
import re

WORDS = set("abstract assert boolean break byte case catch char class const continue default do double else enum extends false final finally float for goto if implements import instanceof int interface long native new null package private protected public return short static strictfp super switch synchronized this throw throws transient true try void volatile while".split())
SIGNS = sorted("{ } ( ) [ ] ; , . @ = == != < > <= >= + - * / % ! && || & | ^ ~ << >> >>> ? : ++ -- += -= *= /= %= &= |= ^= <<= >>= >>>= -> :: ...".split(), key=len, reverse=True)
BLANKS, NAME, NUMBER = re.compile(r"[ \t\r\f]+"), re.compile(r"[A-Za-z_$][A-Za-z0-9_$]*"), re.compile(r"[0-9]+")
SIGN = re.compile("|".join(map(re.escape, SIGNS)))


class Node:
    def __init__(self, kind, pos, **more):
        self.kind, self.pos = kind, pos
        self.__dict__.update(more)


def lex(file, text):
    out, at, line, start = [], 0, 1, 0
    while at < len(text):
        c = text[at]
        if c == "\n":
            line += 1
            at += 1
            start = at
            continue
        if c in " \t\r\f":
            at = BLANKS.match(text, at).end()
            continue
        if text.startswith("//", at):
            at = text.find("\n", at)
            if at < 0:
                at = len(text)
            continue
        if text.startswith("/*", at):
            end = text.index("*/", at + 2) + 2
            for k in range(at, end):
                if text[k] == "\n":
                    line += 1
                    start = k + 1
            at = end
            continue
        pos = (file, line, at - start + 1)
        m = NAME.match(text, at)
        if m:
            out.append(("word" if m.group() in WORDS else "name", m.group(), pos))
            at = m.end()
            continue
        m = NUMBER.match(text, at)
        if m:
            out.append(("num", m.group(), pos))
            at = m.end()
            continue
        if c == '"':
            end = text.index('"', at + 1)
            out.append(("text", text[at + 1:end], pos))
            at = end + 1
            continue
        m = SIGN.match(text, at)
        if m is None:
            raise Exception("bad byte %r" % c)
        out.append(("sign", m.group(), pos))
        at = m.end()
    out.append(("end", "", (file, line, at - start + 1)))
    return out


LEVELS = [["||"], ["&&"], ["|"], ["^"], ["&"], ["==", "!="], ["<", ">", "<=", ">="], ["<<", ">>", ">>>"], ["+", "-"], ["*", "/", "%"]]


class Parser:
    def __init__(self, tokens):
        self.t, self.i = tokens, 0

    def k(self, o=0):
        return self.t[min(self.i + o, len(self.t) - 1)]

    def sv(self, o=0):
        k = self.k(o)
        return k[1] if k[0] in ("sign", "word") else None

    def pos(self):
        return self.k()[2]

    def acc(self, v):
        if self.sv() == v:
            self.i += 1
            return True
        return False

    def eat(self, v):
        if self.sv() != v:
            raise SyntaxError("expected %s at %s got %s" % (v, self.pos(), self.k()))
        self.i += 1
        return self.t[self.i - 1]

    def name(self):
        if self.k()[0] != "name":
            raise SyntaxError("name at %s got %s" % (self.pos(), self.k()))
        self.i += 1
        return self.t[self.i - 1]

    def file(self):
        if self.acc("package"):
            while not self.acc(";"):
                self.i += 1
        while self.acc("import"):
            while not self.acc(";"):
                self.i += 1
        out = []
        while self.k()[0] != "end":
            out.append(self.cls())
        return out

    def value(self):
        p = self.pos()
        if self.k()[0] == "text":
            n = self.k()[1]
            self.i += 1
        else:
            n = self.name()[1]
            if n == "Scope" and self.sv() == ".":
                self.eat(".")
                n = self.name()[1]
        return Node("value", p, name=n)

    def flags(self):
        f = Node("flags", self.pos(), define=None, scope=None, runs=None, static=False, abstract=False, sync=False)
        while True:
            if self.acc("@"):
                a = self.name()[1]
                if a == "DefineScope":
                    self.eat("(")
                    first = self.name()[1]
                    self.eat("=")
                    x = self.value()
                    self.eat(",")
                    self.name()
                    self.eat("=")
                    y = self.value()
                    self.eat(")")
                    f.define = (x, y) if first == "name" else (y, x)
                elif a == "Scope":
                    self.eat("(")
                    f.scope = self.value()
                    self.eat(")")
                elif a == "RunsIn":
                    self.eat("(")
                    f.runs = self.value()
                    self.eat(")")
                elif self.acc("("):
                    while not self.acc(")"):
                        self.i += 1
            elif self.sv() in ("public", "protected", "private", "final"):
                self.i += 1
            elif self.acc("static"):
                f.static = True
            elif self.acc("abstract"):
                f.abstract = True
            elif self.acc("synchronized"):
                f.sync = True
            else:
                return f

    def arg1(self, behind):
        if behind not in ("Safelet", "MissionSequencer") or not self.acc("<"):
            return None
        n = self.name()
        self.eat(">")
        return Node("arg", n[2], name=n[1])

    def stype(self):
        n = self.name()
        return Node("super", n[2], name=n[1], arg=self.arg1(n[1]))

    def cls(self):
        f = self.flags()
        self.eat("class")
        n = self.name()
        above, faces = None, []
        if self.acc("extends"):
            above = self.stype()
        if self.acc("implements"):
            faces.append(self.stype())
            while self.acc(","):
                faces.append(self.stype())
        self.eat("{")
        c = Node("class", n[2], name=n[1], flags=f, above=above, faces=faces, members=[])
        while not self.acc("}"):
            c.members.append(self.member())
        return c

    def type(self):
        p = self.pos()
        if self.k()[0] == "word":
            w = self.k()[1]
            if w not in ("int", "boolean", "void", "long"):
                raise SyntaxError("type at %s" % (p,))
            self.i += 1
            arg = None
        else:
            w = self.name()[1]
            arg = self.arg1(w)
        array = False
        if self.sv() == "[" and self.sv(1) == "]":
            self.i += 2
            array = True
        return Node("type", p, name=w, arg=arg, array=array)

    def params(self):
        self.eat("(")
        out = []
        if self.acc(")"):
            return out
        while True:
            f = self.flags()
            t = self.type()
            n = self.name()
            out.append(Node("param", n[2], name=n[1], flags=f, type=t))
            if not self.acc(","):
                break
        self.eat(")")
        return out

    def member(self):
        f = self.flags()
        if self.k()[0] == "name" and self.sv(1) == "(":
            n = self.name()
            ps = self.params()
            bp = self.eat("{")[2]
            sc = None
            if self.sv() == "super":
                sp = self.eat("super")[2]
                sc = Node("supercall", sp, args=self.args())
                self.eat(";")
            st = []
            while not self.acc("}"):
                st.append(self.stmt())
            return Node("ctor", n[2], name=n[1], flags=f, params=ps, sup=sc, body=Node("block", bp, items=st))
        t = self.type()
        n = self.name()
        if self.sv() == "(":
            ps = self.params()
            body = None if self.acc(";") else self.block()
            return Node("method", n[2], name=n[1], flags=f, type=t, params=ps, body=body)
        v = eq = None
        if self.sv() == "=":
            eq = self.eat("=")[2]
            v = self.lit()
        self.eat(";")
        return Node("field", n[2], name=n[1], flags=f, type=t, eq=eq, value=v)

    def lit(self):
        p = self.pos()
        for w in ("true", "false", "null"):
            if self.acc(w):
                return Node("null", p) if w == "null" else Node("bool", p, truth=w == "true")
        neg = self.acc("-")
        if self.k()[0] != "num":
            raise SyntaxError("literal at %s" % (p,))
        self.i += 1
        return Node("num", p, value=int(self.t[self.i - 1][1]), neg=neg)

    def block(self):
        p = self.eat("{")[2]
        st = []
        while not self.acc("}"):
            st.append(self.stmt())
        return Node("block", p, items=st)

    def starts_local(self):
        k = self.k()
        if k[0] == "sign" and k[1] == "@":
            return True
        if k[0] == "word" and k[1] in ("int", "boolean", "final"):
            return True
        if k[0] == "name":
            if self.k(1)[0] == "name":
                return True
            if self.sv(1) == "[" and self.sv(2) == "]":
                return True
            if k[1] in ("Safelet", "MissionSequencer") and self.sv(1) == "<" and self.k(2)[0] == "name" and self.sv(3) == ">":
                return True
        return False

    def local(self):
        f = self.flags()
        t = self.type()
        n = self.name()
        if self.sv() == "=":
            ep = self.eat("=")[2]
            return Node("local", n[2], name=n[1], flags=f, type=t, eq=ep, value=self.expr())
        return Node("local", n[2], name=n[1], flags=f, type=t, eq=None, value=None)

    def is_compound(self):
        v = self.sv(1)
        return self.k()[0] == "name" and v is not None and (v in ("++", "--") or (v.endswith("=") and v not in ("=", "==", "<=", ">=", "!=")))

    def assign(self):
        if self.is_compound():
            n = self.name()
            op = self.k()
            self.i += 1
            x1, x2 = Node("name", n[2], name=n[1]), Node("name", n[2], name=n[1])
            if op[1] in ("++", "--"):
                e, sign = Node("num", op[2], value=1, neg=False), op[1][0]
            else:
                e, sign = Node("paren", op[2], e=self.expr()), op[1][:-1]
            return Node("assign", op[2], target=x1, value=Node("binary", op[2], op=sign, l=x2, r=e))
        t = self.post()
        ep = self.eat("=")[2]
        return Node("assign", ep, target=t, value=self.expr())

    def stmt(self):
        p = self.pos()
        if self.sv() == "{":
            return self.block()
        if self.acc(";"):
            return Node("empty", p)
        if self.acc("if"):
            self.eat("(")
            c = self.expr()
            self.eat(")")
            a = self.stmt()
            return Node("if", p, c=c, a=a, b=self.stmt() if self.acc("else") else None)
        if self.acc("while"):
            self.eat("(")
            c = self.expr()
            self.eat(")")
            return Node("while", p, c=c, a=self.stmt())
        if self.acc("for"):
            self.eat("(")
            f = self.local() if self.starts_local() else self.assign()
            self.eat(";")
            c = self.expr()
            self.eat(";")
            u = self.assign()
            self.eat(")")
            return Node("for", p, f=f, c=c, u=u, a=self.stmt())
        if self.acc("return"):
            v = None if self.sv() == ";" else self.expr()
            self.eat(";")
            return Node("return", p, value=v)
        if self.starts_local():
            r = self.local()
            self.eat(";")
            return r
        if self.is_compound():
            r = self.assign()
            self.eat(";")
            return r
        e = self.post()
        if self.sv() == "=":
            ep = self.eat("=")[2]
            v = self.expr()
            self.eat(";")
            return Node("assign", ep, target=e, value=v)
        self.eat(";")
        return Node("exprstmt", e.pos, e=e)

    def expr(self, level=0):
        if level == len(LEVELS):
            return self.unary()
        x = self.expr(level + 1)
        while self.k()[0] == "sign" and self.k()[1] in LEVELS[level]:
            op = self.k()
            self.i += 1
            x = Node("binary", op[2], op=op[1], l=x, r=self.expr(level + 1))
        return x

    def unary(self):
        p = self.pos()
        if self.sv() == "-" and self.k(1)[:2] == ("num", "2147483648"):
            self.i += 2
            return self.suffixes(Node("num", p, value=2147483648, neg=True))
        if self.k()[0] == "sign" and self.k()[1] in ("-", "!", "~"):
            op = self.k()
            self.i += 1
            return Node("unary", p, op=op[1], e=self.unary())
        if self.sv() == "(" and self.k(1)[0] == "name" and self.sv(2) == ")":
            nx = self.k(3)
            if nx[0] in ("name", "num") or (nx[0] == "word" and nx[1] in ("true", "false", "null", "this", "new")) or (nx[0] == "sign" and nx[1] in ("!", "~", "(")):
                self.eat("(")
                n = self.name()
                self.eat(")")
                return Node("cast", p, name=n[1], npos=n[2], e=self.unary())
        return self.post()

    def args(self):
        self.eat("(")
        out = []
        if self.acc(")"):
            return out
        while True:
            if self.k()[0] == "text":
                out.append(Node("text", self.pos(), text=self.k()[1]))
                self.i += 1
            else:
                out.append(self.expr())
            if not self.acc(","):
                break
        self.eat(")")
        return out

    def post(self):
        return self.suffixes(self.prim())

    def suffixes(self, x):
        while True:
            if self.acc("."):
                n = self.name()
                if self.sv() == "(":
                    x = Node("call", n[2], name=n[1], obj=x, args=self.args())
                else:
                    x = Node("access", n[2], name=n[1], obj=x)
            elif self.sv() == "[":
                p = self.pos()
                self.eat("[")
                x = Node("element", p, arr=x, ix=self.expr())
                self.eat("]")
            else:
                return x

    def prim(self):
        p = self.pos()
        k = self.k()
        if k[0] == "num":
            self.i += 1
            if int(k[1]) > 2147483647:
                raise SyntaxError("a number too large at %s" % (p,))
            return Node("num", p, value=int(k[1]), neg=False)
        if k[0] == "word" and k[1] in ("true", "false"):
            self.i += 1
            return Node("bool", p, truth=k[1] == "true")
        if self.acc("null"):
            return Node("null", p)
        if self.acc("this"):
            return Node("this", p)
        if self.acc("("):
            x = self.expr()
            self.eat(")")
            return Node("paren", p, e=x)
        if self.acc("new"):
            tp = self.pos()
            if self.k()[0] == "word":
                w = self.k()[1]
                if w not in ("int", "boolean"):
                    raise SyntaxError("new at %s" % (p,))
                self.i += 1
                self.eat("[")
                e = self.expr()
                self.eat("]")
                return Node("newarray", p, name=w, npos=tp, size=e)
            n = self.name()
            if self.sv() == "[":
                self.eat("[")
                e = self.expr()
                self.eat("]")
                return Node("newarray", p, name=n[1], npos=n[2], size=e)
            return Node("new", p, name=n[1], npos=n[2], args=self.args())
        n = self.name()
        if self.sv() == "(":
            return Node("call", p, name=n[1], obj=None, args=self.args())
        return Node("name", p, name=n[1])


def read(texts):
    """The files' classes, in order."""
    return [Parser(lex(f, t)).file() for f, t in enumerate(texts)]
