#!/usr/bin/env python3
"""A second machine for images, written from its description; plain rather than fast.

    oracle/machine.py COUNT HEX        runs the image for at most so many instructions

It first asks what a state lacks, by one function that changes nothing, and only then does the instruction. Values are
tuples: ("int", n), ("text", bytes), ("closure", Closure) and ("object", place in the heap). A local is None while it is
unset, ("value", value), or ("cell", Cell).
"""

import operator
import sys
from dataclasses import dataclass

from images import OWN, Fault, is_name, read

LEAST, GREATEST = -(2**127), 2**127 - 1
LONGEST_STRING = 65_536
COMPARISONS = [operator.lt, operator.le, operator.gt, operator.ge, operator.eq]
SETTER = b"set_"
ACCESSORS = {"get": 1, "set": 2}

# The classes of the operands of each primitive.
NUMBERS, TEXTS, CLOSURE = ["int", "int"], ["text", "text"], ["closure"]
TAKES = [NUMBERS] * 7 + [TEXTS] * 2 + [["any", "any"], ["int"], ["text"]]
TAKES += [CLOSURE + ["any"] * count for count in range(5)] + [CLOSURE]
EVALS = range(12, 17)
LOOP = 17


class RunError(Exception):
    """The run stops with an error; the text is that of the report."""


class WrongClass(Exception):
    """An operand of a wrong class, or an object without the slot."""


@dataclass(eq=False)
class Cell:
    content: tuple


@dataclass(eq=False)
class Closure:
    """A block of a code, what it captured, and the activation of a method to which its return leads."""

    code: int
    block: object
    captured: list
    home: object


class Activation:
    """A block that runs. `closure` is that whose block it is, or None for a method, which is its own home."""

    def __init__(self, code, block, first, closure=None, is_turn=False):
        self.code, self.block, self.closure, self.is_turn = code, block, closure, is_turn
        self.home = closure.home if closure else self
        self.locals = first + [None] * (block.locals - len(first))
        self.stack = []
        self.next = 0


def plain(values):
    return [("value", value) for value in values]


class Machine:
    def __init__(self, image):
        self.image = image
        self.own = {word: ("object", place) for word, place in zip(OWN, image.own)}
        self.heap = [(owner, self.fresh(owner)) for owner in range(len(image.shapes))]
        self.running = []
        self.has_begun = False
        self.count = 0
        self.lines = []

    def fresh(self, owner):
        """The slots of a new object; of two for a field the first counts."""
        slots = {}
        for field, start in self.image.shapes[owner]:
            slots.setdefault(field, self.own[start[0]] if len(start) == 1 else start)
        return slots

    # ---- dispatch

    def class_of(self, value):
        kind, what = value
        if kind == "object":
            return self.heap[what][0]
        return self.own["string" if kind == "text" else kind][1]

    def holds(self, test, value):
        """Whether the value is one of the predicate's."""
        fields = entry(test.classes, self.class_of(value))
        if fields is None:
            return False
        results = []
        for step in test.steps:
            if step[0] == "compare":
                results.append(self.compares(value, fields[step[2]], COMPARISONS[step[1]], step[3]))
            elif step[0] == "not":
                results.append(not results.pop())
            else:
                second, first = results.pop(), results.pop()
                results.append(first and second if step[0] == "and" else first or second)
        return results[0]

    def compares(self, value, field, compare, number):
        """Whether the value has a slot for the field, with an integer of which the comparison is true."""
        if field is None or value[0] != "object":
            return False
        held = self.heap[value[1]][1].get(field)
        return held is not None and held[0] == "int" and compare(held[1], number)

    def mask(self, position, value):
        """The rows that the value may have at the position."""
        mask = entry(position.classes, self.class_of(value))
        if mask is None:
            mask = position.default
        for number, rows in position.tests:
            if self.holds(self.image.tests[number], value):
                mask |= rows
        return mask

    def found(self, table, values, below):
        """The row that the message finds, by its place; else the error is raised."""
        beats = [has for _, has in table.rows]
        masks = [self.mask(position, value) for position, value in zip(table.positions, values)]
        if below is not None:
            masks.append(beats[below] & ~(1 << below))
        left = [row for row in range(len(beats)) if all(mask >> row & 1 for mask in masks)]
        for row in left:
            if all(beats[row] >> other & 1 for other in left):
                return row
        raise RunError(f"message {'ambiguous' if left else 'not understood'}: {message(table)}")

    def code_of(self, does, values):
        """The code that a row enters for these values."""
        _, code, split = does
        if split:
            other = entry(split[1], self.class_of(values[split[0]]))
            return code if other is None else other
        return code

    def row_lacks(self, table, values, below):
        """Whether the row that is found can't be taken with so many values."""
        try:
            does = table.rows[self.found(table, values, below)][0]
        except RunError:
            return False
        if does[0] == "prim":
            return len(TAKES[does[1]]) != table.arity
        if does[0] in ACCESSORS:
            return ACCESSORS[does[0]] != table.arity
        if does[2] and does[2][0] >= table.arity:
            return True
        return self.image.codes[self.code_of(does, values)][0].formals != table.arity

    # ---- what a state lacks

    def lacks(self):
        """Whether the state lacks what the next instruction wants."""
        if not self.has_begun:
            return self.image.main is not None and self.row_lacks(self.image.tables[self.image.main], [], None)
        now = self.running[-1]
        if now.next == len(now.block.code):
            return True
        word, *operands = now.block.code[now.next]
        if len(now.stack) < self.wanted(word, operands):
            return True
        if word in ("load", "store", "cell", "cget", "cset"):
            return local_lacks(now.locals, word, operands[0])
        if word == "clos":
            return self.closure_lacks(now, *operands)
        if word in ("send", "resend"):
            table, below = self.image.tables[operands[0]], operands[1] if word == "resend" else None
            if below is not None and below >= len(table.rows):
                return True
            return self.row_lacks(table, top(now.stack, table.arity), below)
        return False

    def wanted(self, word, operands):
        """How many operands the instruction takes from the stack."""
        if word in ("send", "resend"):
            return self.image.tables[operands[0]].arity
        if word == "call":
            return self.image.codes[operands[0]][0].formals
        if word == "prim":
            return len(TAKES[operands[0]])
        if word == "new":
            return len(operands[1])
        return {"store": 1, "cell": 1, "cset": 1, "getf": 1, "setf": 2, "pop": 1, "ret": 1, "home": 1}.get(word, 0)

    def closure_lacks(self, now, block, captured):
        blocks = self.image.codes[now.code]
        if block >= len(blocks) or blocks[block].captures != len(captured):
            return True
        return any(place >= len(now.locals) or now.locals[place] is None for place in captured)

    # ---- instructions

    def step(self):
        """Does the next instruction of a state that lacks nothing."""
        if not self.has_begun:
            self.has_begun = True
            if self.image.main is None:
                raise RunError("message not understood: main/0")
            return self.send(self.image.tables[self.image.main], [], None)
        now = self.running[-1]
        word, *operands = now.block.code[now.next]
        now.next += 1
        return getattr(self, "do_" + word)(now, *operands)

    def push(self, value):
        """Gives the value to the activation that runs; there is none where the first has returned."""
        if self.running:
            self.running[-1].stack.append(value)

    def pop(self, count):
        """Takes so many operands, the one pushed first at the head."""
        stack = self.running[-1].stack
        values = top(stack, count)
        del stack[len(stack) - count :]
        return values

    def do_int(self, now, number):
        self.push(("int", number))

    def do_str(self, now, text):
        self.push(("text", text))

    def do_obj(self, now, place):
        self.push(("object", place))

    def do_load(self, now, place):
        self.push(now.locals[place][1])

    def do_store(self, now, place):
        now.locals[place] = ("value", now.stack.pop())

    def do_cell(self, now, place):
        now.locals[place] = ("cell", Cell(now.stack.pop()))

    def do_cget(self, now, place):
        self.push(now.locals[place][1].content)

    def do_cset(self, now, place):
        now.locals[place][1].content = now.stack.pop()

    def do_clos(self, now, block, captured):
        held = [now.locals[place] for place in captured]
        self.push(("closure", Closure(now.code, self.image.codes[now.code][block], held, now.home)))

    def do_send(self, now, number):
        table = self.image.tables[number]
        self.send(table, self.pop(table.arity), None)

    def do_resend(self, now, number, row):
        table = self.image.tables[number]
        self.send(table, self.pop(table.arity), row)

    def do_call(self, now, code):
        self.enter(code, self.pop(self.image.codes[code][0].formals))

    def do_prim(self, now, number):
        self.perform(number, self.pop(len(TAKES[number])))

    def do_getf(self, now, field):
        self.get(field, *self.pop(1))

    def do_setf(self, now, field):
        self.set(field, *self.pop(2))

    def do_new(self, now, owner, fields):
        slots = self.fresh(owner)
        for field, value in zip(fields, self.pop(len(fields))):
            if field not in slots:
                raise WrongClass
            slots[field] = value
        self.heap.append((owner, slots))
        self.push(("object", len(self.heap) - 1))

    def do_pop(self, now):
        now.stack.pop()

    def do_ret(self, now):
        value = now.stack.pop()
        self.running.pop()
        if now.is_turn:
            self.running.append(Activation(now.code, now.block, list(now.closure.captured), now.closure, True))
        else:
            self.push(value)

    def do_home(self, now):
        value = now.stack.pop()
        if now.home not in self.running:
            raise RunError("dead return")
        while self.running.pop() is not now.home:
            pass
        self.push(value)

    def do_mark(self, now):
        pass

    def do_fail(self, now, kind, name, arity):
        text = name.decode()
        raise RunError([f"no field {text}", f"unknown object {text}", f"message not understood: {text}/{arity}"][kind])

    # ---- messages and primitives

    def send(self, table, values, below):
        does = table.rows[self.found(table, values, below)][0]
        if does[0] == "code":
            return self.enter(self.code_of(does, values), values)
        if does[0] == "prim":
            return self.perform(does[1], values)
        if values[0][0] != "object":
            raise RunError(f"no field {field_of(table.name, does[0])}")
        return self.get(does[1], *values) if does[0] == "get" else self.set(does[1], *values)

    def enter(self, code, values):
        self.running.append(Activation(code, self.image.codes[code][0], plain(values)))

    def slots(self, value, field):
        """The slots of an object that has one for the field."""
        if value[0] != "object" or field not in self.heap[value[1]][1]:
            raise WrongClass
        return self.heap[value[1]][1]

    def get(self, field, value):
        self.push(self.slots(value, field)[field])

    def set(self, field, owner, value):
        self.slots(owner, field)[field] = value
        self.push(self.own["nil"])

    def perform(self, number, values):
        for wanted, value in zip(TAKES[number], values):
            if wanted not in ("any", value[0]):
                raise WrongClass
        if number in EVALS or number == LOOP:
            return self.evaluate(values[0][1], values[1:], number == LOOP)
        if number == 9:
            return self.push_truth(values[0] == values[1])
        return self.compute(number, *[value[1] for value in values])

    def evaluate(self, closure, values, is_turn):
        if closure.block.formals != len(values):
            raise RunError(f"closure arity {len(values)}")
        first = closure.captured + plain(values)
        self.running.append(Activation(closure.code, closure.block, first, closure, is_turn))

    def push_truth(self, holds):
        self.push(self.own["true" if holds else "false"])

    def compute(self, number, first, second=None):
        """The primitives over numbers and texts, by their number."""
        if number <= 4:
            self.push(("int", computed(number, first, second)))
        elif number <= 7:
            self.push_truth(first < second if number == 5 else first == second)
        elif number == 8:
            if len(first) + len(second) > LONGEST_STRING:
                raise RunError("string limit")
            self.push(("text", first + second))
        else:
            self.lines.append(str(first).encode() if number == 10 else first)
            self.push(self.own["nil"])

    # ---- runs

    def run(self, count):
        """How the run ends after at most so many instructions; `count` of the machine says how many there were."""
        for _ in range(count):
            if self.lacks():
                return "stuck"
            self.count += 1
            try:
                self.step()
            except RunError as error:
                return f"error {error}"
            except WrongClass:
                return "stuck"
            if not self.running and self.has_begun:
                return "end"
        return "stuck" if self.lacks() else "unfinished"


def entry(pairs, number):
    """What stands beside the number in the first pair that has it."""
    return next((what for other, what in pairs if other == number), None)


def top(stack, count):
    return stack[len(stack) - count :]


def local_lacks(held, word, place):
    """Whether there is no such local, or it is not of the sort that the instruction wants."""
    if place >= len(held):
        return True
    wanted = {"load": "value", "cget": "cell", "cset": "cell"}.get(word)
    return wanted is not None and (held[place] is None or held[place][0] != wanted)


def message(table):
    return f"{table.name.decode()}/{table.arity}"


def field_of(name, kind):
    """The field that an accessor's message speaks of."""
    rest = name.removeprefix(SETTER)
    return (rest if kind == "set" and is_name(rest) else name).decode()


def computed(number, first, second):
    """The number that an arithmetic primitive gives; division cuts off towards zero."""
    if number >= 3:
        if second == 0:
            raise RunError("division by zero")
        quotient = abs(first) // abs(second)
        if (first < 0) != (second < 0):
            quotient = -quotient
        result = quotient if number == 3 else first - second * quotient
    else:
        result = [operator.add, operator.sub, operator.mul][number](first, second)
    if not LEAST <= result <= GREATEST:
        raise RunError("overflow")
    return result


def reported(data, count):
    """The lines that are told of running the bytes as an image."""
    try:
        machine = Machine(read(data))
    except Fault as fault:
        return [str(fault)]
    end = machine.run(count)
    return ["> " + line.decode("latin-1") for line in machine.lines] + ["= " + end]


if __name__ == "__main__":
    print("\n".join(reported(bytes.fromhex(sys.argv[2]), int(sys.argv[1]))))
