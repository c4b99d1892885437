#!/usr/bin/env python3
"""Random images, as lines for `image_answers.py` and for the program that it is compared with.

    oracle/random_images.py FIRST COUNT        the first seed, and how many images

Most of an image's code runs: each code and table has a signature, the kinds of its arguments and of its value, and an
expression is written for the kind that is wanted where it stands. Now and then something else is written there. Each image
is asked for with some numbers of instructions, those around its end among them, and then with some of its bytes changed.
"""

import random
import sys

from images import OWN, Block, Fault, Image, Position, Table, Test, read, write
from machine import Machine

KINDS = ["int", "text", "object", "bool", "closure"]
EVAL, LOOP = 12, 17
MOST_STEPS = 1500
MOST_LOCALS = 10_000
FAILING = 0.002


class Writer:
    """Writes one image. A signature is (kinds of the arguments, kind of the value)."""

    def __init__(self, seed):
        self.choices = random.Random(seed)
        self.image = Image(self.choices.choice([1, 2]))
        self.classes = self.choices.randint(1, 4)
        self.objects = len(OWN) + self.classes
        self.image.own = list(range(len(OWN)))
        self.image.fields = self.choices.randint(1, 4)
        self.field_kinds = [self.choices.choice(["int", "int", "text", "bool"]) for _ in range(self.image.fields)]
        self.image.shapes = [[] for _ in OWN] + [self.shape() for _ in range(self.classes)]
        self.image.tests = [self.test() for _ in range(self.choices.randint(0, 3))]
        self.code_signatures = [([], "int")] + [self.signature() for _ in range(self.choices.randint(3, 7))]
        self.table_signatures = [([], "int")] + [self.choices.choice(self.code_signatures) for _ in range(self.choices.randint(3, 7))]
        self.image.codes = [self.code(number) for number in range(len(self.code_signatures))]
        self.image.tables = [self.table(number) for number in range(len(self.table_signatures))]
        self.image.main = 0
        if self.rarely(0.03):
            self.image.own = [self.choices.randrange(self.objects) for _ in OWN]

    def rarely(self, chance=FAILING):
        return self.choices.random() < chance

    def signature(self):
        return [self.choices.choice([*KINDS, "int"]) for _ in range(self.choices.choice([0, 1, 1, 2, 2, 3]))], self.choices.choice(KINDS)

    # ---- shapes, tests, tables

    def start(self, kind):
        if kind == "int":
            return ("int", self.number())
        return ("text", self.text()) if kind == "text" else self.choices.choice([("true",), ("false",), ("nil",)])

    def shape(self):
        """Each field mostly, and now and then one twice."""
        fields = [field for field in range(self.image.fields) if not self.rarely(0.1)]
        if fields and self.rarely(0.05):
            fields.append(self.choices.choice(fields))
        self.choices.shuffle(fields)
        return [(field, self.start(self.field_kinds[field])) for field in fields]

    def test(self):
        names = self.choices.randint(1, 2)
        classes = [
            (owner, [None if self.rarely(0.1) else self.choices.randrange(self.image.fields) for _ in range(names)])
            for owner in self.some(self.objects)
        ]
        return Test(names, classes, self.steps(names, 2))

    def steps(self, names, depth):
        kind = self.choices.choice(["compare", "compare", "and", "or", "not"]) if depth else "compare"
        if kind == "compare":
            return [(kind, self.choices.randrange(5), self.choices.randrange(names), self.number())]
        parts = self.steps(names, depth - 1)
        return parts + [(kind,)] if kind == "not" else parts + self.steps(names, depth - 1) + [(kind,)]

    def some(self, bound):
        """Some numbers below the bound, mostly in order and each once."""
        numbers = [number for number in range(bound) if self.rarely(0.7)]
        if numbers and self.rarely(0.05):
            numbers.append(self.choices.choice(numbers))
            self.choices.shuffle(numbers)
        return numbers

    def table(self, number):
        arguments, _ = self.table_signatures[number]
        rows = self.choices.choice([1, 1, 2, 2, 3, 4, 6]) if number or self.rarely(0.05) else 1
        if self.rarely(0.01):
            rows = 64 * self.image.version
        does = [self.does(number) for _ in range(rows)]
        masks = [self.mask(rows, row) for row in range(rows)]
        name = self.choices.choice(["m", "set_f", "set_", "+", "age"]).encode() if number else b"main"
        return Table(name, len(arguments), list(zip(does, masks)), [self.position(rows) for _ in arguments])

    def mask(self, rows, row):
        """What the row beats: mostly itself and all before it."""
        if rows == 1 or self.rarely(0.85):
            return (2 << row) - 1
        return self.random_mask(rows)

    def random_mask(self, rows):
        return self.choices.getrandbits(64 * self.image.version if self.rarely(0.1) else rows)

    def position(self, rows):
        default = 0 if self.rarely(0.05) else self.random_mask(rows) | 1 << self.choices.randrange(rows)
        classes = [(owner, self.random_mask(rows) | self.choices.randrange(2)) for owner in self.some(self.objects)]
        return Position(default, classes, [(test, self.random_mask(rows)) for test in self.some(len(self.image.tests))])

    def does(self, number):
        """What a row of the table does: mostly it enters a code of the same signature."""
        signature = self.table_signatures[number]
        fit = [code for code in range(len(self.code_signatures)) if code >= number or self.rarely(0.1)]
        same = [code for code in fit if self.code_signatures[code] == signature]
        alike = [code for code in fit if len(self.code_signatures[code][0]) == len(signature[0])]
        if number and self.rarely(0.15):
            return self.other_deed(len(signature[0]))
        if not alike or self.rarely(0.01):
            return self.other_deed(len(signature[0])) if self.rarely(0.8) else ("code", self.choices.randrange(len(self.code_signatures)), None)
        code = self.choices.choice(same or alike)
        if not signature[0] or self.rarely(0.7):
            return ("code", code, None)
        position = len(signature[0]) if self.rarely(0.02) else self.choices.randrange(len(signature[0]))
        return ("code", code, (position, [(owner, self.choices.choice(alike)) for owner in self.some(self.objects)]))

    def other_deed(self, arity):
        fitting = {1: [10, 11, EVAL, EVAL, LOOP], 2: [0, 1, 2, 3, 4, 5, 6, 7, 8, 9, 9, 9, EVAL + 1]}.get(arity, [EVAL + 2])
        deeds = [("prim", self.choices.choice(fitting)), ("get", self.choices.randrange(self.image.fields))]
        deeds.append(("set", deeds[1][1]))
        if arity in (1, 2) and self.rarely(0.5):
            return deeds[arity]
        return deeds[0]

    # ---- codes

    def code(self, number):
        arguments, value = self.code_signatures[number]
        self.blocks, self.waiting, self.value, self.number_of_code = [], [], value, number
        self.block([], [], arguments, value, 3)
        while self.waiting:
            self.block(*self.waiting.pop(0))
        return self.blocks

    def block(self, captured, kinds, arguments, value, depth):
        """A block with what it captures, whether that are cells, the kinds of its arguments and of its value."""
        self.locals = list(zip(captured, kinds)) + [(False, kind) for kind in arguments]
        self.code_so_far = []
        captures = len(captured)
        for _ in range(self.choices.randint(0, depth)):
            self.statement(depth - 1)
        goes_home = len(self.blocks) > 0 and self.rarely(0.2)
        self.expression(self.value if goes_home else value, depth - 1)
        self.emit("home" if goes_home else "ret")
        missing = 1 if self.locals and self.rarely() else 0
        count = max(len(self.locals) - missing, captures + len(arguments))
        self.blocks.append(Block(count, captures, len(arguments), self.code_so_far))

    def emit(self, word, *operands):
        self.code_so_far.append((word, *operands))
        if self.rarely():
            self.code_so_far.append(self.choices.choice([("pop",), ("mark",), ("load", 0), ("ret",), ("fail", 0, b"age", 0)]))

    def number(self):
        return self.choices.choice([0, 1, -1, 2, 5, 7, 10, self.choices.randint(-20, 20), 2**127 - 1, -(2**127)])

    def text(self):
        return self.choices.choice([b"", b"a", b"ab", b"zed"])

    def places(self, is_cell, kind):
        return [place for place, held in enumerate(self.locals) if held == (is_cell, kind)]

    def statement(self, depth):
        kind = self.choices.choice(KINDS)
        choice = self.choices.randrange(6)
        if choice == 0:
            self.expression("object", depth)
            field = self.choices.randrange(self.image.fields)
            self.expression(self.field_kinds[field], depth)
            self.emit("setf", field)
            self.emit("pop")
        elif choice == 1 and self.places(True, kind):
            self.expression(kind, depth)
            self.emit("cset", self.choices.choice(self.places(True, kind)))
        elif choice in (2, 3):
            self.expression(kind, depth)
            self.emit("store" if choice == 2 else "cell", len(self.locals))
            self.locals.append((choice == 3, kind))
        elif choice == 4:
            kind = self.choices.choice(["int", "text"])
            self.expression(kind, depth)
            self.emit("prim", 10 if kind == "int" else 11)
            self.emit("pop")
        else:
            self.expression(kind, depth)
            self.emit("pop")

    def expression(self, kind, depth):
        """Code that pushes a value of the kind."""
        if self.rarely():
            kind = self.choices.choice(KINDS)
        if self.places(False, kind) and self.rarely(0.3):
            return self.emit("load", self.choices.choice(self.places(False, kind)))
        if self.places(True, kind) and self.rarely(0.4):
            return self.emit("cget", self.choices.choice(self.places(True, kind)))
        if depth and self.rarely(0.5):
            return self.message(kind, depth - 1)
        return getattr(self, kind + "_expression")(depth)

    def message(self, kind, depth):
        """A message, call, resend or evaluation with a value of the kind."""
        tables, codes = self.later(self.table_signatures, kind), self.later(self.code_signatures, kind)
        choice = self.choices.randrange(8)
        if tables and choice < 4:
            table = self.choices.choice(tables)
            self.arguments(self.table_signatures[table][0], depth)
            if self.rarely(0.1):
                return self.emit("resend", table, self.choices.randrange(2))
            return self.emit("send", table)
        if codes and choice < 6:
            code = self.choices.choice(codes)
            self.arguments(self.code_signatures[code][0], depth)
            return self.emit("call", code)
        if kind == "int" and depth and self.rarely(0.5):
            self.expression("closure", depth)
            return self.emit("prim", EVAL)
        arguments = [self.choices.choice(KINDS) for _ in range(self.choices.choice([0, 0, 1, 2, 4]))]
        self.closure(arguments, kind, max(depth, 1))
        self.arguments(arguments, depth)
        return self.emit("prim", EVAL + len(arguments))

    def later(self, signatures, kind):
        """The numbers of those that give the kind; mostly none that would come back to this code, so that runs end."""
        fit = [number for number, (_, value) in enumerate(signatures) if value == kind and number]
        return [number for number in fit if number > self.number_of_code or self.rarely(0.03)]

    def arguments(self, kinds, depth):
        for kind in kinds:
            self.expression(kind, depth)

    def closure(self, arguments, value, depth):
        """A closure of a new block, which is written later."""
        block = len(self.blocks) + 1 + len(self.waiting)
        captured = [place for place in range(len(self.locals)) if self.rarely(0.6)]
        held = [self.locals[place] for place in captured]
        self.waiting.append(([is_cell for is_cell, _ in held], [kind for _, kind in held], arguments, value, depth))
        return self.emit("clos", block, captured)

    def int_expression(self, depth):
        if depth and self.rarely(0.5):
            self.arguments(["int", "int"], depth - 1)
            return self.emit("prim", self.choices.randrange(5))
        return self.emit("int", self.choices.choice([0, 1, 2, 3, 7, self.number()]))

    def text_expression(self, depth):
        if depth and self.rarely(0.4):
            self.arguments(["text", "text"], depth - 1)
            return self.emit("prim", 8)
        return self.emit("str", self.text())

    def bool_expression(self, depth):
        if depth and self.rarely(0.6):
            number = self.choices.choice([5, 6, 7, 9])
            kind = {7: "text", 9: self.choices.choice(KINDS)}.get(number, "int")
            self.arguments([kind, kind], depth - 1)
            return self.emit("prim", number)
        return self.emit("obj", self.choices.choice([1, 5]))

    def object_expression(self, depth):
        owner = len(OWN) + self.choices.randrange(self.classes)
        if self.rarely(0.3):
            return self.emit("obj", owner if self.rarely(0.95) else self.choices.randrange(self.objects))
        fields = [field for field, _ in self.image.shapes[owner] if depth and self.rarely(0.5)]
        if self.rarely():
            fields.append(self.choices.randrange(self.image.fields))
        self.arguments([self.field_kinds[field] for field in fields], max(depth - 1, 0))
        return self.emit("new", owner, fields)

    def closure_expression(self, depth):
        if self.rarely(0.05) and depth:
            self.closure([], "int", depth)
            return self.emit("prim", LOOP)
        return self.closure([], "int", max(depth, 1))


def runs(image, choices):
    """Numbers of instructions to ask for: few, and those around the end of the run."""
    machine = Machine(image)
    machine.run(MOST_STEPS)
    end = machine.count
    return sorted({choices.randint(0, 12), choices.randint(0, end), max(end - 1, 0), end, end + 1})


def changed(data, choices):
    """The bytes with a few of them changed, left out or put in."""
    data = bytearray(data)
    for _ in range(choices.choice([1, 1, 1, 2, 3])):
        place = choices.randrange(len(data))
        kind = choices.randrange(8)
        if kind == 0:
            del data[place]
        elif kind == 1:
            data.insert(place, choices.randrange(256))
        else:
            data[place] = choices.choice([choices.randrange(256), choices.randrange(24), (data[place] + 1) % 256, data[place] ^ 1])
    return bytes(data)


def may_run(data):
    """Whether the bytes are an image of which no block takes much memory, or none."""
    try:
        image = read(data)
    except Fault:
        return True
    return all(block.locals <= MOST_LOCALS for code in image.codes for block in code)


def main():
    first, count = int(sys.argv[1]), int(sys.argv[2])
    for seed in range(first, first + count):
        choices = random.Random(seed)
        image = Writer(seed).image
        data = write(image)
        print(f"# {seed}")
        for number in runs(image, choices):
            print(f"run {number} {data.hex()}")
        for _ in range(6):
            other = changed(data, choices)
            if may_run(other):
                print(f"run {choices.choice([3, 20, 400])} {other.hex()}")


if __name__ == "__main__":
    main()
