#!/usr/bin/env python3
"""The faults that are certain before a run, slowly: a program's operations one by one, with what is known of operands.

    slow_faults.py SOURCE ..     prints what `scj faults` prints for an accepted program

It was written from the pages, apart from `scj`. It goes through the operations of each body, as the slow machine has
them, with a stack of what is known: the value of a constant, that there is an object, or nothing.
"""
import sys

import slow_machine

UNKNOWN, OBJECT = object(), object()
# the operations that may have a certain fault
FAULTING = ("BIN", "ALLOCARRAY", "READ", "ENTER", "SETCEILING", "PARAMS")
INT = range(-(2**31), 2**31)


class Walk:
    """The operations of one body, over operands of which something may be known."""

    def __init__(self, program, found):
        self.program, self.found = program, found
        self.stack = []

    def pop(self, count=1):
        taken = self.stack[len(self.stack) - count :] if count else []
        del self.stack[len(self.stack) - count :]
        return taken

    def fault(self, operation, name):
        self.found.add((operation.place, name))

    def all(self, operations):
        for operation in operations:
            self.one(operation)

    def one(self, operation):
        word, what = operation.word, operation.about
        if word == "PUSH":
            self.stack.append(what)
        elif word == "THIS":
            self.stack.append(OBJECT)
        elif word in ("LOAD", "GETSTATIC"):
            self.stack.append(UNKNOWN)
        elif word in ("GET", "LENGTH", "CAST"):
            self.pop()
            self.stack.append(UNKNOWN)
        elif word == "ELEM":
            self.pop(2)
            self.stack.append(UNKNOWN)
        elif word == "UNARY":
            (operand,) = self.pop()
            self.stack.append(UNKNOWN if operand in (UNKNOWN, OBJECT) else slow_machine.UNARY[what](operand))
        elif word == "BIN":
            self.binary(operation)
        elif word in ("AND", "OR"):
            self.pop()
            Walk(self.program, self.found).all(self.program.of(what))
            self.stack.append(UNKNOWN)
        elif word == "ALLOC":
            self.stack.append(OBJECT)
        elif word == "ALLOCARRAY":
            (length,) = self.pop()
            if is_number(length) and length < 0:
                self.fault(operation, "NegativeSize")
            self.stack.append(OBJECT)
        else:
            self.other(operation)

    def binary(self, operation):
        left, right = self.pop(2)
        if operation.about in ("/", "%") and is_number(right) and right == 0:
            self.fault(operation, "DivideByZero")
            self.stack.append(UNKNOWN)
        elif UNKNOWN in (left, right) or OBJECT in (left, right):
            self.stack.append(UNKNOWN)
        else:
            self.stack.append(slow_machine.BINARY[operation.about](left, right))

    def other(self, operation):
        word, what = operation.word, operation.about
        if word == "READ":
            (port,) = self.pop()
            if is_number(port) and not 0 <= port <= 255:
                self.fault(operation, "BadPort")
            self.stack.append(UNKNOWN)
        elif word == "ENTER":
            size, runnable = self.pop(2)
            if runnable is OBJECT and is_number(size) and size < 0:
                self.fault(operation, "NegativeSize")
        elif word == "SETCEILING":
            target, ceiling = self.pop(2)
            if target is None:
                self.fault(operation, "NullPointer")
            elif target is OBJECT and is_number(ceiling) and not 1 <= ceiling <= 28:
                self.fault(operation, "BadPriority")
        elif word == "PARAMS":
            self.form(operation)
        elif word in ("CALL", "CALLSTATIC"):
            method = what
            self.pop(len(method.params) + (word == "CALL"))
            if method.result != "void":
                self.stack.append(UNKNOWN)
        elif word == "CONSTRUCT":
            c = self.program.constructor(what) if not isinstance(what, str) else None
            self.pop(len(c.params) if c else 0)
        elif word == "SUPER":
            self.stack.clear()
        elif word == "IF":
            self.pop()
            self.parts(what.a, what.b)
        elif word == "LOOP":
            self.pop()
            self.parts(what.a)
        elif word == "EXECUTEIN":
            self.pop(2)
        elif word == "SAME":
            self.pop(2)
            self.stack.append(UNKNOWN)
        elif word in ("PUT",):
            self.pop(2)
        elif word == "PUTELEM":
            self.pop(3)
        elif word in ("PRINT", "REGISTER", "RELEASE", "TERMINATE", "STORE", "PUTSTATIC", "DROP", "LEAVEWITH"):
            self.pop()

    def parts(self, *statements):
        for statement in statements:
            if statement is not None:
                Walk(self.program, self.found).all(self.program.of_statement(statement))

    def form(self, operation):
        periodic = operation.about == "PeriodicEventHandler"
        numbers = self.pop(6 if periodic else 2)
        fault = form_fault(numbers)
        if fault:
            self.fault(operation, fault)


def is_number(value):
    return isinstance(value, int) and not isinstance(value, bool)


def form_fault(numbers):
    """The fault of a form: its priority is asked first, then its times, then its storage."""
    priority, *times, storage = numbers
    if is_number(priority) and not 1 <= priority <= 28:
        return "BadPriority"
    if not is_number(priority):
        return None
    if any(is_number(ms) and ms < 0 for ms in times[0::2]):
        return "BadPeriod"
    if any(is_number(ns) and not (0 <= ns < 1000000 and ns % 1000 == 0) for ns in times[1::2]):
        return "BadPeriod"
    if not all(map(is_number, times)):
        return None
    return "NegativeSize" if is_number(storage) and storage < 0 else None


def faults(texts):
    """The places (file, line, column) with their faults, in the report's order."""
    program = slow_machine.Program(texts)
    found = set()
    for c in program.rules.users:
        Walk(program, found).all(program.of_constructor(c))
        for m in c.members:
            if m.kind == "method" and m.body is not None:
                Walk(program, found).all(program.of_method(m))
    return sorted(found)


def main():
    names = sys.argv[1:]
    texts = []
    for name in names:
        with open(name, encoding="utf-8") as file:
            texts.append(file.read())
    found = faults(texts)
    for (file, line, column), name in found:
        print(f"{names[file]}:{line}:{column}: {name}")
    print(f"faults {len(found)}")


if __name__ == "__main__":
    main()
