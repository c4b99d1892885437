#!/usr/bin/env python3
"""Images from a small readable text.

    oracle/assembler.py FILE           writes the image's bytes to standard output

A line is some words; what follows `;` is for the reader. A thing is named by its word in the text or by its place, a number.
Rows are a list as `0,2`, `-` for none, or a mask as `0x5`.

    version 2                          else 1
    objects WORD ..                    all objects, in order
    own CLOSURE FALSE INT NIL STRING TRUE          else the objects with these words
    fields WORD ..
    main TABLE                         or `none`; else the table `main/0`, if there is one
    shape OBJECT FIELD=START ..        a start is nil, false, true, a number, or text:WORDS; else there are no slots
    test WORD LABEL ..                 a predicate and the labels of the fields that it names; then its parts:
    class OBJECT FIELD ..              the field of each label, `-` for none
    step LABEL < 5                     or `step and`, `step or`, `step not`
    table NAME/ARITY                   then its rows and positions:
    row code CODE beats ROWS           or `row code CODE split POSITION OBJECT=CODE .. beats ROWS`
    row prim NUMBER beats ROWS         or `row get FIELD`, `row set FIELD`
    at ROWS OBJECT=ROWS .. ?TEST=ROWS ..           a position: rows of classes not listed, those listed, tests
    code WORD                          then its blocks:
    block LOCALS CAPTURES FORMALS      then its instructions, each by its word and operands:
    clos BLOCK LOCAL ..                new OBJECT FIELD ..                fail KIND NAME ARITY
"""

import shlex
import sys

from images import OPERATIONS, OWN, Block, Image, Position, Table, Test, write

OPERATORS = ["<", "<=", ">", ">=", "="]


class Assembler:
    """The image so far, the words of things by their kind, and what of it waits for words that come later."""

    def __init__(self):
        self.image = Image()
        self.words = {"object": [], "field": [], "test": [], "table": [], "code": []}
        self.own, self.main = OWN, None
        self.labels = []
        self.later = []

    def place(self, kind, word):
        return int(word) if word.isdigit() else self.words[kind].index(word)

    def read(self, text):
        for line in text.splitlines():
            words = shlex.split(line.split(";")[0])
            if words:
                word = words[0]
                if word in OPERATIONS:
                    self.instruction(*words)
                else:
                    getattr(self, "read_" + word)(*words[1:])
        for finish in self.later:
            finish()
        self.image.own = [self.place("object", word) for word in self.own]
        main = self.main or ("main/0" if "main/0" in self.words["table"] else "none")
        self.image.main = None if main == "none" else self.place("table", main)
        return self.image

    def read_version(self, number):
        self.image.version = int(number)

    def read_objects(self, *words):
        self.words["object"] = list(words)
        self.image.shapes = [[] for _ in words]

    def read_fields(self, *words):
        self.words["field"] = list(words)
        self.image.fields = len(words)

    def read_own(self, *words):
        self.own = words

    def read_main(self, word):
        self.main = word

    def read_shape(self, owner, *slots):
        pairs = [slot.split("=", 1) for slot in slots]
        shape = [(self.place("field", field), start_of(start)) for field, start in pairs]
        self.image.shapes[self.place("object", owner)] = shape

    def read_test(self, word, *labels):
        self.words["test"].append(word)
        self.labels = list(labels)
        self.image.tests.append(Test(len(labels), [], []))

    def read_class(self, owner, *fields):
        numbers = [None if field == "-" else self.place("field", field) for field in fields]
        self.image.tests[-1].classes.append((self.place("object", owner), numbers))

    def read_step(self, word, sign=None, number=None):
        if sign is None:
            self.image.tests[-1].steps.append((word,))
            return
        label = int(word) if word.isdigit() else self.labels.index(word)
        operator = int(sign) if sign.isdigit() else OPERATORS.index(sign)
        self.image.tests[-1].steps.append(("compare", operator, label, int(number)))

    def read_table(self, word):
        name, arity = word.rsplit("/", 1)
        self.words["table"].append(word)
        self.image.tables.append(Table(name.encode(), int(arity), [], []))

    def read_row(self, kind, what, *rest):
        rows, place = self.image.tables[-1].rows, len(self.image.tables[-1].rows)
        beats = mask_of(rest[-1])
        rows.append(None)

        def finish():
            does = (kind, int(what)) if kind == "prim" else (kind, self.place("field" if kind != "code" else "code", what))
            if kind == "code":
                does += (self.split(rest[1:-2]) if rest[0] == "split" else None,)
            rows[place] = (does, beats)

        self.later.append(finish)

    def split(self, words):
        pairs = [pair.split("=") for pair in words[1:]]
        return int(words[0]), [(self.place("object", owner), self.place("code", code)) for owner, code in pairs]

    def read_at(self, default, *entries):
        position = Position(mask_of(default), [], [])
        for entry in entries:
            word, rows = entry.removeprefix("?").split("=")
            kind, into = ("test", position.tests) if entry.startswith("?") else ("object", position.classes)
            into.append((self.place(kind, word), mask_of(rows)))
        self.image.tables[-1].positions.append(position)

    def read_code(self, word):
        self.words["code"].append(word)
        self.image.codes.append([])

    def read_block(self, count, captures, formals):
        self.image.codes[-1].append(Block(int(count), int(captures), int(formals), []))

    def instruction(self, word, *operands):
        code, place = self.image.codes[-1][-1].code, len(self.image.codes[-1][-1].code)
        code.append(None)

        def finish():
            code[place] = (word, *self.operands(word, operands))

        self.later.append(finish)

    def operands(self, word, operands):
        if word == "str":
            return [" ".join(operands).encode()]
        if word == "clos":
            return [int(operands[0]), [int(local) for local in operands[1:]]]
        if word == "new":
            return [self.place("object", operands[0]), [self.place("field", field) for field in operands[1:]]]
        if word == "fail":
            return [int(operands[0]), operands[1].encode(), int(operands[2])]
        kinds = OPERATIONS[word]
        return [
            self.place(kind, operand) if kind in self.words else int(operand) for kind, operand in zip(kinds, operands, strict=True)
        ]


def start_of(word):
    if word in ("nil", "false", "true"):
        return (word,)
    if word.startswith("text:"):
        return ("text", word.removeprefix("text:").encode())
    return ("int", int(word))


def mask_of(rows):
    if rows.startswith("0x"):
        return int(rows, 16)
    return 0 if rows == "-" else sum(1 << int(row) for row in rows.split(","))


def image_of(text):
    """The image that the text tells."""
    return Assembler().read(text)


def assembled(text):
    """The bytes of the image that the text tells."""
    return write(image_of(text))


if __name__ == "__main__":
    with open(sys.argv[1], encoding="utf-8") as source:
        sys.stdout.buffer.write(assembled(source.read()))
