"""The lines of a trace, exactly as docs/MACHINE.md has them: which bytes are one, and what stands in it.

`whole_lines` gives the lines of a file one by one, `split_line` takes one apart. What isn't a line of a trace is a
BadInput with its number. Whether a line fits to those before it, run_reader.py says.
"""
import re

LONGEST_LINE = 1 << 21
HANDLERS = {b"%d" % number: number for number in range(1, 65)}
PRIORITIES = {b"%d" % number: number for number in range(1, 29)}
FAULTS = frozenset((
    b"NullPointer", b"ArrayIndex", b"NegativeSize", b"DivideByZero", b"ClassCast", b"MemoryFull", b"StoreFull",
    b"ScopedCycle", b"CeilingViolation", b"BadPriority", b"BadPeriod", b"BadPort", b"NotInitializing",
    b"TooManyHandlers", b"DepthFull"))
WORDS = (b"mission", b"register", b"exec", b"arrive", b"lost", b"miss", b"run", b"idle", b"prio", b"print", b"fault",
         b"end", b"terminate", b"drop", b"cleanup", b"done", b"halted", b"stopped")
# Lines of the unit and the word alone.
BARE = frozenset((b"exec", b"idle", b"terminate", b"cleanup", b"done", b"halted", b"stopped"))
NAME = re.compile(rb"[A-Za-z_$][A-Za-z0-9_$]{0,63}\Z")
PRINT = re.compile(rb"print ([ !#-\[\]-~]*) (0|-?[1-9][0-9]*)\Z")
FAULT = re.compile(rb"fault ([A-Za-z]+) ([^\x00-\x1f\x7f]+):([1-9][0-9]*)\Z")
# What may stand behind the last line feed: the front of a line that was cut off.
FRONT = re.compile(rb"(?:0|[1-9][0-9]*)(?: ([a-z]*)( .*)?)?\Z", re.DOTALL)


class BadInput(Exception):
    """What is wrong with an input: which one, in which line (or None), and what."""

    def __init__(self, message, line=None, source=None):
        super().__init__(message)
        self.message, self.line, self.source = message, line, source

    def text(self):
        where = [str(part) for part in (self.source, self.line) if part is not None]
        return ":".join(where) + (": " if where else "") + self.message


def shown(line, most=50):
    """A line as it may be printed in a message: no control bytes, and no more than its front."""
    text = "".join(c if c.isprintable() else "?" for c in line[:4 * most].decode("utf-8", "replace"))
    return "`%s`" % text if len(text) <= most and len(line) <= 4 * most else "`%s..`" % text[:most]


def whole_lines(file, cut):
    """The lines of a binary file with their numbers, without their line feeds. Puts into `cut` what stands behind the
    last line feed, if anything does: a trace that was cut off."""
    number = 0
    while line := file.readline(LONGEST_LINE):
        number += 1
        if line.endswith(b"\n"):
            yield number, line[:-1]
        elif len(line) == LONGEST_LINE:
            raise BadInput("this line has more than %d bytes, and no line of a trace has" % (LONGEST_LINE - 1), number)
        else:
            check_front(number, line)
            cut.append(line)
    if number == 0:
        raise BadInput("the file is empty: a trace has a last line at least")


def check_front(number, line):
    """Whether a line may begin so."""
    match = FRONT.match(line)
    word, rest = match.groups() if match else (None, None)
    if match is None or b"\r" in line:
        raise strange(number, line)
    if word is not None and not (word in WORDS if rest else any(w.startswith(word) for w in WORDS)):
        raise strange(number, line)


def strange(number, line):
    """What is wrong with a line that is none of a trace."""
    if line.startswith(b"\xef\xbb\xbf"):
        return BadInput("a byte order mark stands before the line, and a trace has none", number)
    if line.startswith((b"\xff\xfe", b"\xfe\xff")) or b"\0" in line[:200]:
        return BadInput("this is no text of single bytes (is it UTF-16?)", number)
    if line.endswith(b"\r"):
        return BadInput("the line ends with a carriage return; the lines of a trace end with a line feed alone", number)
    return BadInput("%s is no line of a trace" % shown(line), number)


def split_line(number, line, rest):
    """What stands behind the unit: the word, and its parts as a tuple. `rest` is the line without the unit."""
    parts = rest.split(b" ")
    word, count = parts[0], len(parts)
    if count == 3 and parts[1] in HANDLERS:
        digits = parts[2]
        if word in (b"arrive", b"run", b"end", b"drop"):
            if digits.isdigit() and digits[0] != 48 and len(digits) < 20:
                return word, (HANDLERS[parts[1]], int(digits))
        elif word == b"prio" and digits in PRIORITIES:
            return word, (HANDLERS[parts[1]], PRIORITIES[digits])
    if count == 1 and word in BARE:
        return word, ()
    found = split_rare(rest, word, parts)
    if found is None:
        raise strange(number, line)
    return found


def split_rare(rest, word, parts):
    """The lines with names and texts in them; None where it is none of these."""
    count = len(parts)
    if word in (b"mission", b"miss") and count == 2 and NAME.match(parts[1]):
        return word, (parts[1].decode(),)
    if word == b"lost" and count == 2 and parts[1] in HANDLERS:
        return word, (HANDLERS[parts[1]],)
    if word == b"register" and count == 4 and parts[1] in HANDLERS:
        if NAME.match(parts[2]) and parts[3] in PRIORITIES:
            return word, (HANDLERS[parts[1]], parts[2].decode(), PRIORITIES[parts[3]])
    if word == b"print" and (match := PRINT.match(rest)) and len(match[2]) < 12 and -2**31 <= int(match[2]) < 2**31:
        return word, (match[1].decode(), int(match[2]))
    if word == b"fault" and (match := FAULT.match(rest)) and match[1] in FAULTS and len(match[3]) < 8:
        return word, (match[1].decode(), match[2].decode("utf-8", "surrogateescape"), int(match[3]))
    return None
