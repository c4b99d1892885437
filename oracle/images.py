#!/usr/bin/env python3
"""A second reader of images, written from the description of their bytes, and a writer of them.

    oracle/images.py HEX        says `loaded`, or the first fault, of the bytes

A decoded image is plain data. Numbers that name a thing are its place in its list, from 0. Tuples that begin with a word:

- what a slot holds at first: ("nil",), ("false",), ("true",), ("int", n), ("text", bytes);
- a step of a test: ("compare", operator, name, n), ("and",), ("or",), ("not",);
- what a row does: ("code", code, split), ("prim", number), ("get", field), ("set", field), where split is None or
  (position, [(object, code)]);
- an instruction: its word and its operands, as they stand in OPERATIONS; a list where several of a kind stand together.
"""

import sys
from dataclasses import dataclass, field

MAGIC = b"VXIC"
NONE = 0xFFFFFFFF
NO_SPLIT = 0xFF
MOST_ROWS = {1: 64, 2: 128}
MASK_BYTES = {1: 8, 2: 16}
OPERATORS = 5
PRIMITIVES = 18
FAIL_KINDS = 3
NOT_UNDERSTOOD = 2
STARTS = ["nil", "false", "true", "int", "text"]
STEPS = ["compare", "and", "or", "not"]
ROWS = ["code", "prim", "get", "set"]
OWN = ["closure", "false", "int", "nil", "string", "true"]
SIGNS = {sign.encode() for sign in "+ - * / % < > <= >= = ++ ==".split()}
LETTERS = set(b"abcdefghijklmnopqrstuvwxyzABCDEFGHIJKLMNOPQRSTUVWXYZ_")
DIGITS = set(b"0123456789")
LONGEST_NAME = 64

# The word of each operation, from byte 1 on, and the operands of those of a fixed length.
OPERATIONS = {
    "int": ["integer"],
    "str": None,
    "obj": ["object"],
    "load": ["local"],
    "store": ["local"],
    "cell": ["local"],
    "cget": ["local"],
    "cset": ["local"],
    "clos": None,
    "send": ["table"],
    "call": ["code"],
    "resend": ["table", "row"],
    "prim": ["primitive"],
    "getf": ["field"],
    "setf": ["field"],
    "new": None,
    "pop": [],
    "ret": [],
    "home": [],
    "mark": [],
    "fail": None,
}
WORDS = list(OPERATIONS)
WIDTHS = {"integer": 16, "object": 4, "local": 4, "table": 4, "code": 4, "row": 1, "primitive": 1, "field": 4}


class Fault(Exception):
    """The first fault of bytes; the text is what is told of it."""


@dataclass
class Test:
    """A predicate: how many fields it names, each class with its field or None for each of these, and its steps."""

    names: int
    classes: list
    steps: list


@dataclass
class Position:
    """What the argument of a position says of rows: the mask of classes that are not listed, those listed, the tests."""

    default: int
    classes: list
    tests: list


@dataclass
class Table:
    """The methods of a message; a row is a pair of what it does and the mask of the rows that it beats."""

    name: bytes
    arity: int
    rows: list
    positions: list


@dataclass
class Block:
    locals: int
    captures: int
    formals: int
    code: list


@dataclass
class Image:
    """An image; `fields` is how many there are, `own` the six objects of the head, a code is a list of blocks."""

    version: int = 1
    fields: int = 0
    own: list = field(default_factory=list)
    main: int | None = None
    shapes: list = field(default_factory=list)
    tests: list = field(default_factory=list)
    tables: list = field(default_factory=list)
    codes: list = field(default_factory=list)


def is_name(text):
    """Whether the bytes are a name: an operator, or a letter or `_` and then letters, digits and `_`."""
    if text in SIGNS:
        return True
    return 0 < len(text) <= LONGEST_NAME and text[0] in LETTERS and all(byte in LETTERS | DIGITS for byte in text)


class Reader:
    """The bytes, the place that was come to, and the numbers of the head."""

    def __init__(self, data):
        self.data, self.place = data, 0
        self.version = 0
        self.count = {}

    def present(self, count):
        """So many bytes are there from this place on."""
        if len(self.data) - self.place < count:
            raise Fault(f"short {len(self.data)}")

    def take(self, count):
        self.present(count)
        self.place += count
        return self.data[self.place - count : self.place]

    def number(self, width=4):
        return int.from_bytes(self.take(width), "big")

    def integer(self):
        return int.from_bytes(self.take(16), "big", signed=True)

    def below(self, bound, width=4):
        """A number that is less than the bound."""
        place = self.place
        number = self.number(width)
        check(number < bound, place)
        return number

    def symbol(self, kind):
        return self.below(self.count[kind])

    def symbol_or_none(self, kind):
        place = self.place
        number = self.number()
        if number == NONE:
            return None
        check(number < self.count[kind], place)
        return number

    def mask(self):
        return self.number(MASK_BYTES[self.version])

    def image(self):
        if self.take(4) != MAGIC:
            raise Fault("bad magic")
        self.version = self.number(1)
        if self.version not in MOST_ROWS:
            raise Fault(f"version {self.version}")
        for kind in ("field", "object", "test", "table", "code"):
            self.count[kind] = self.number()
        image = Image(self.version, self.count["field"])
        image.own = [self.symbol("object") for _ in OWN]
        image.main = self.symbol_or_none("table")
        image.shapes = [self.shape() for _ in range(self.count["object"])]
        image.tests = [self.test() for _ in range(self.count["test"])]
        image.tables = [self.table(number == image.main) for number in range(self.count["table"])]
        image.codes = [self.code() for _ in range(self.count["code"])]
        if self.place < len(self.data):
            raise Fault(f"trailing {self.place}")
        return image

    def shape(self):
        return [(self.symbol("field"), self.start()) for _ in range(self.number())]

    def start(self):
        word = STARTS[self.below(len(STARTS), 1)]
        if word == "int":
            return (word, self.integer())
        if word == "text":
            return (word, self.take(self.number()))
        return (word,)

    def test(self):
        count, names = self.number(), self.number()
        classes = []
        for _ in range(count):
            owner = self.symbol("object")
            classes.append((owner, [self.symbol_or_none("field") for _ in range(names)]))
        length_place = self.place
        end = self.number() + self.place
        steps, values = [], 0
        while self.place < end:
            step, values = self.step(end, names, values)
            steps.append(step)
        check(values == 1, length_place)
        return Test(names, classes, steps)

    def step(self, end, names, values):
        """A step, and how many values there are behind it; there were `values` before it."""
        begin = self.place
        word = STEPS[self.below(len(STEPS), 1)]
        if word == "compare":
            check(begin + 22 <= end, begin)
            self.present(21)
            return (word, self.below(OPERATORS, 1), self.below(names), self.integer()), values + 1
        wanted = 1 if word == "not" else 2
        check(values >= wanted, begin)
        return (word,), values - wanted + 1

    def table(self, is_main):
        name_place = self.place
        name = self.take(self.number(1))
        check(is_name(name), name_place)
        arity = self.below(1 if is_main else 256, 1)
        rows = [(self.does(), self.mask()) for _ in range(self.below(MOST_ROWS[self.version] + 1, 1))]
        return Table(name, arity, rows, [self.position() for _ in range(arity)])

    def does(self):
        word = ROWS[self.below(len(ROWS), 1)]
        if word == "prim":
            return (word, self.below(PRIMITIVES, 1))
        if word in ("get", "set"):
            return (word, self.symbol("field"))
        code, position = self.symbol("code"), self.number(1)
        if position == NO_SPLIT:
            return (word, code, None)
        return (word, code, (position, [(self.symbol("object"), self.symbol("code")) for _ in range(self.number(1))]))

    def position(self):
        default = self.mask()
        classes = [(self.symbol("object"), self.mask()) for _ in range(self.number())]
        tests = [(self.symbol("test"), self.mask()) for _ in range(self.number())]
        return Position(default, classes, tests)

    def code(self):
        place = self.place
        count = self.number()
        check(count >= 1, place)
        return [self.block(number) for number in range(count)]

    def block(self, number):
        count = self.number()
        place = self.place
        captures = self.number()
        check(number > 0 or captures == 0, place)
        place = self.place
        formals = self.number(1)
        check(captures + formals <= count, place)
        end = self.number() + self.place
        code = []
        while self.place < end:
            code.append(self.instruction(end))
        return Block(count, captures, formals, code)

    def instruction(self, end):
        """An instruction of a block that ends at the place `end`."""
        begin = self.place
        byte = self.number(1)
        check(1 <= byte <= len(WORDS), begin)
        word = WORDS[byte - 1]
        operands = OPERATIONS[word]
        if operands is None:
            return (word, *getattr(self, "read_" + word)(begin, end))
        self.whole(begin, 1 + sum(WIDTHS[kind] for kind in operands), end)
        return (word, *[self.operand(kind) for kind in operands])

    def whole(self, begin, size, end):
        """The instruction has so many bytes: first they lie within its block, then they are there."""
        check(begin + size <= end, begin)
        self.present(begin + size - self.place)

    def operand(self, kind):
        if kind == "integer":
            return self.integer()
        if kind == "primitive":
            return self.below(PRIMITIVES, 1)
        if kind in ("local", "row"):
            return self.number(WIDTHS[kind])
        return self.symbol(kind)

    def read_str(self, begin, end):
        self.whole(begin, 5, end)
        length = self.number()
        self.whole(begin, 5 + length, end)
        return [self.take(length)]

    def read_clos(self, begin, end):
        self.whole(begin, 9, end)
        block, count = self.number(), self.number()
        self.whole(begin, 9 + 4 * count, end)
        return [block, [self.number() for _ in range(count)]]

    def read_new(self, begin, end):
        """The count is needed for the length, so the object is tested behind the length, though it stands first."""
        self.whole(begin, 9, end)
        count = int.from_bytes(self.data[begin + 5 : begin + 9], "big")
        self.whole(begin, 9 + 4 * count, end)
        owner, _ = self.symbol("object"), self.number()
        return [owner, [self.symbol("field") for _ in range(count)]]

    def read_fail(self, begin, end):
        self.whole(begin, 3, end)
        self.whole(begin, 4 + self.data[begin + 2], end)
        kind = self.below(FAIL_KINDS, 1)
        place = self.place
        name = self.take(self.number(1))
        check(is_name(name), place)
        return [kind, name, self.below(256 if kind == NOT_UNDERSTOOD else 1, 1)]


def check(holds, place):
    if not holds:
        raise Fault(f"bad index {place}")


def read(data):
    """The image that the bytes are; else the first fault is raised."""
    return Reader(data).image()


def loaded(data):
    """What is told of bytes: `loaded`, or the first fault."""
    try:
        read(data)
    except Fault as fault:
        return str(fault)
    return "loaded"


class Writer:
    """The bytes of an image. Nothing is tested: numbers that are out of range are written as they are."""

    def __init__(self, image):
        self.image = image
        self.data = bytearray(MAGIC)

    def number(self, number, width=4):
        self.data += number.to_bytes(width, "big")

    def integer(self, number):
        self.data += number.to_bytes(16, "big", signed=True)

    def text(self, text, width):
        self.number(len(text), width)
        self.data += text

    def symbol_or_none(self, number):
        self.number(NONE if number is None else number)

    def mask(self, mask):
        self.number(mask, MASK_BYTES[self.image.version])

    def write(self):
        image = self.image
        self.number(image.version, 1)
        for number in (image.fields, len(image.shapes), len(image.tests), len(image.tables), len(image.codes), *image.own):
            self.number(number)
        self.symbol_or_none(image.main)
        for parts, write in (
            (image.shapes, self.shape),
            (image.tests, self.test),
            (image.tables, self.table),
            (image.codes, self.code),
        ):
            for part in parts:
                write(part)
        return bytes(self.data)

    def shape(self, slots):
        self.number(len(slots))
        for owner, start in slots:
            self.number(owner)
            self.number(STARTS.index(start[0]), 1)
            if start[0] == "int":
                self.integer(start[1])
            elif start[0] == "text":
                self.text(start[1], 4)

    def test(self, test):
        self.number(len(test.classes))
        self.number(test.names)
        for owner, fields in test.classes:
            self.number(owner)
            for number in fields:
                self.symbol_or_none(number)
        self.number(sum(22 if step[0] == "compare" else 1 for step in test.steps))
        for step in test.steps:
            self.number(STEPS.index(step[0]), 1)
            if step[0] == "compare":
                self.number(step[1], 1)
                self.number(step[2])
                self.integer(step[3])

    def table(self, table):
        self.text(table.name, 1)
        self.number(table.arity, 1)
        self.number(len(table.rows), 1)
        for does, beats in table.rows:
            self.does(does)
            self.mask(beats)
        for position in table.positions:
            self.mask(position.default)
            for entries in (position.classes, position.tests):
                self.number(len(entries))
                for number, mask in entries:
                    self.number(number)
                    self.mask(mask)

    def does(self, does):
        self.number(ROWS.index(does[0]), 1)
        self.number(does[1], 1 if does[0] == "prim" else 4)
        if does[0] != "code":
            return
        position, pairs = does[2] or (NO_SPLIT, [])
        self.number(position, 1)
        if position != NO_SPLIT:
            self.number(len(pairs), 1)
            for owner, code in pairs:
                self.number(owner)
                self.number(code)

    def code(self, blocks):
        self.number(len(blocks))
        for block in blocks:
            self.number(block.locals)
            self.number(block.captures)
            self.number(block.formals, 1)
            place = len(self.data)
            self.number(0)
            for instruction in block.code:
                self.instruction(*instruction)
            self.data[place : place + 4] = (len(self.data) - place - 4).to_bytes(4, "big")

    def instruction(self, word, *operands):
        self.number(WORDS.index(word) + 1, 1)
        if word == "str":
            self.text(operands[0], 4)
        elif word in ("clos", "new"):
            self.number(operands[0])
            self.number(len(operands[1]))
            for number in operands[1]:
                self.number(number)
        elif word == "fail":
            self.number(operands[0], 1)
            self.text(operands[1], 1)
            self.number(operands[2], 1)
        else:
            for kind, operand in zip(OPERATIONS[word], operands, strict=True):
                if kind == "integer":
                    self.integer(operand)
                else:
                    self.number(operand, WIDTHS[kind])


def write(image):
    """The bytes of the image, in its version."""
    return Writer(image).write()


if __name__ == "__main__":
    print(loaded(bytes.fromhex(sys.argv[1])))
