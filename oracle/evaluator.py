#!/usr/bin/env python3
"""A second evaluator of the language, written from its description.

It shares nothing with the compiler: programs are Python data, what is above a name is a set, and an evaluation is a
recursion with exceptions.

Expressions are tuples: ("int", n), ("string", text), ("name", name), ("send", name, arguments), ("closure", formals,
body), ("new", class, [(field, expression)]) and ("resend",). A body is a list of statements: ("let", name, part),
("let var", name, part), ("set", name, part), ("do", part), ("return", part), each part an expression. Tests: ("and",
a, b), ("or", a, b), ("not", a), ("compare", field, operator, number).

Values are tuples too: ("int", n), ("string", text), ("closure", Closure) and ("object", place in the heap).
"""

import operator
import sys

LEAST, GREATEST = -(2**127), 2**127 - 1
NO_VALUES = {"int", "string", "closure"}
SEALED = NO_VALUES | {"true", "false", "nil"}
COMPARISONS = {"<": operator.lt, "<=": operator.le, ">": operator.gt, ">=": operator.ge, "=": operator.eq}
LONGEST_STRING = 65_536
PYTHON_CALLS = 100_000


class RunError(Exception):
    """A run stops; the text is that of the reply."""


class OutOfAllowance(Exception):
    """The allowance is used up."""


class TooLong(Exception):
    """The run takes more steps than the caller of `reply` wants to wait for; no outcome of the language."""


class Back(Exception):
    """A return to the activation of a method, with the value."""

    def __init__(self, home, value):
        super().__init__()
        self.home, self.value = home, value


class Home:
    """An activation of a method: what a return goes to, and what a resend sends on."""

    def __init__(self, key, values):
        self.key, self.values = key, values


class Closure:
    """A closure with what its text sees: the scope, and the activation of the method in whose text it stands."""

    def __init__(self, formals, body, scope, home):
        self.formals, self.body, self.scope, self.home = formals, body, scope, home


def name(text):
    return ("name", text)


def send(message, *arguments):
    return ("send", message, list(arguments))


def closure(*statements):
    return ("closure", [], list(statements))


def does(expression):
    return [("do", expression)]


TURN = send("if", send("eval", name("c")), closure(("do", send("eval", name("b")))), closure(("return", name("nil"))))

# Name, specialisers, formals and body.
PRELUDE_METHODS = [
    ("if", ("true", "any"), ["c", "t"], does(send("eval", name("t")))),
    ("if", ("false", "any"), ["c", "t"], does(name("nil"))),
    ("if", ("true", "any", "any"), ["c", "t", "e"], does(send("eval", name("t")))),
    ("if", ("false", "any", "any"), ["c", "t", "e"], does(send("eval", name("e")))),
    ("and", ("true", "any"), ["a", "b"], does(send("eval", name("b")))),
    ("and", ("false", "any"), ["a", "b"], does(name("false"))),
    ("or", ("true", "any"), ["a", "b"], does(name("true"))),
    ("or", ("false", "any"), ["a", "b"], does(send("eval", name("b")))),
    ("not", ("true",), ["a"], does(name("false"))),
    ("not", ("false",), ["a"], does(name("true"))),
    (">", ("int", "int"), ["a", "b"], does(send("<", name("b"), name("a")))),
    ("<=", ("int", "int"), ["a", "b"], does(send("not", send("<", name("b"), name("a"))))),
    (">=", ("int", "int"), ["a", "b"], does(send("not", send("<", name("a"), name("b"))))),
    ("while", ("closure", "closure"), ["c", "b"], does(send("loop", closure(("do", TURN))))),
]

PRIMITIVES = (
    [(message, ("int", "int")) for message in ("+", "-", "*", "/", "%", "<", "=")]
    + [("=", ("string", "string")), ("++", ("string", "string")), ("==", ("any", "any"))]
    + [("print", ("int",)), ("print", ("string",)), ("loop", ("closure",))]
    + [("eval", ("closure",) + ("any",) * count) for count in range(5)]
)


class Program:
    """The declarations: parents of plain objects, predicates with parents and test, fields with start and whether they
    are variable, and methods, by name and specialisers, with what they do."""

    def __init__(self):
        self.parents = {"any": [], "true": ["bool"], "false": ["bool"]}
        for own in ("int", "string", "closure", "bool", "nil"):
            self.parents[own] = ["any"]
        self.predicates = {}
        self.found_above = {}
        self.fields = {}
        self.methods = {key: ("primitive", key[0]) for key in PRIMITIVES}
        for message, specialisers, formals, body in PRELUDE_METHODS:
            self.methods[message, specialisers] = ("body", formals, body)

    def copy(self):
        """A program of its own to change; declarations themselves never change."""
        other = Program()
        other.parents, other.predicates = dict(self.parents), dict(self.predicates)
        other.fields, other.methods = dict(self.fields), dict(self.methods)
        return other

    def set_object(self, own, parents):
        self.parents[own] = parents
        self.found_above = {}

    def set_predicate(self, own, parents, test):
        self.predicates[own] = (parents, test)
        self.found_above = {}

    def drop_object(self, own):
        """Drops an object or predicate."""
        del (self.predicates if own in self.predicates else self.parents)[own]
        self.found_above = {}

    def set_field(self, field, specialiser, start, variable):
        """Adds the field, or takes the place of the one with its name and specialiser."""
        key = (field, specialiser)
        if key in self.fields:
            self.drop_field(key)
        self.fields[key] = (start, variable)
        self.methods[field, (specialiser,)] = ("read", key)
        if variable:
            self.methods["set_" + field, (specialiser, "any")] = ("write", key)

    def drop_field(self, key):
        _, variable = self.fields.pop(key)
        del self.methods[key[0], (key[1],)]
        if variable:
            del self.methods["set_" + key[0], (key[1], "any")]

    def parents_of(self, own):
        return self.predicates[own][0] if own in self.predicates else self.parents[own]

    def above(self, own):
        if own not in self.found_above:
            self.found_above[own] = {own}.union(*map(self.above, self.parents_of(own)))
        return self.found_above[own]

    def field_of(self, class_name, field):
        """The field that a constructor and a test mean: those of predicates are never above a class."""
        above = self.above(class_name)
        keys = [key for key in self.fields if key[0] == field and key[1] in above]
        for key in keys:
            if all(other[1] in self.above(key[1]) for other in keys):
                return key
        return None

    def may_be(self, class_name, own):
        """Whether an object of the class may ever count as the plain object or predicate, whatever the tests say."""
        return {up for up in self.above(own) if up in self.parents} <= self.above(class_name)

    def slots(self, class_name):
        return {key: start for key, (start, _) in self.fields.items() if self.may_be(class_name, key[1])}

    def is_more_specific(self, one, other):
        return one != other and all(b in self.above(a) for a, b in zip(one[1], other[1]))


class Run:
    """One run: the heap, a list of classes with slots, the lines printed, and the steps that are left to it. A scope
    is a dictionary of cells; a `let` makes a new one, so that closures made before do not see it."""

    def __init__(self, program, steps):
        self.program = program
        self.steps = steps
        self.lines = []
        self.named = {own: ("object", place) for place, own in enumerate(sorted(program.parents))}
        self.heap = [(own, self.fresh(own)) for own in sorted(program.parents)]

    def step(self, cost):
        self.steps -= cost
        if self.steps < 0:
            raise TooLong

    def fresh(self, class_name):
        return {key: self.named.get(start, start) for key, start in self.program.slots(class_name).items()}

    def class_of(self, value):
        return self.heap[value[1]][0] if value[0] == "object" else value[0]

    def passes(self, value, test):
        if test[0] == "and":
            return self.passes(value, test[1]) and self.passes(value, test[2])
        if test[0] == "or":
            return self.passes(value, test[1]) or self.passes(value, test[2])
        if test[0] == "not":
            return not self.passes(value, test[1])
        key = self.program.field_of(self.class_of(value), test[1])
        held = self.heap[value[1]][1].get(key) if key and value[0] == "object" else None
        return held is not None and held[0] == "int" and COMPARISONS[test[2]](held[1], test[3])

    def counts_as(self, value, own):
        if own in self.program.predicates:
            parents, test = self.program.predicates[own]
            return all(self.counts_as(value, parent) for parent in parents) and self.passes(value, test)
        return own in self.program.above(self.class_of(value))

    def method(self, message, values, below):
        """The key of the method found; with `below` only methods less specific than that one count."""
        applicable = [
            key
            for key in self.program.methods
            if key[0] == message and len(key[1]) == len(values) and all(map(self.counts_as, values, key[1]))
        ]
        if below:
            applicable = [key for key in applicable if self.program.is_more_specific(below, key)]
        for key in applicable:
            if all(other == key or self.program.is_more_specific(key, other) for other in applicable):
                return key
        fault = "message ambiguous" if applicable else "message not understood"
        raise RunError(f"{fault}: {message}/{len(values)}")

    def call(self, message, values, allowance, below=None):
        if allowance == 0:
            raise OutOfAllowance
        self.step(1)
        key = self.method(message, values, below)
        what = self.program.methods[key]
        if what[0] == "body":
            return self.enter(Home(key, values), what[1], what[2], allowance - 1)
        if what[0] == "primitive":
            return self.primitive(what[1], [value[1] for value in values], values, allowance)
        if values[0][0] != "object":
            raise RunError(f"no field {what[1][0]}")
        slots = self.heap[values[0][1]][1]
        if what[0] == "read":
            return slots[what[1]]
        slots[what[1]] = values[1]
        return self.named["nil"]

    def enter(self, home, formals, body, allowance):
        scope = {formal: [value] for formal, value in zip(formals, home.values) if formal}
        try:
            return self.body(body, scope, home, allowance)
        except Back as back:
            if back.home is not home:
                raise
            return back.value

    def primitive(self, message, plain, values, allowance):
        if message == "eval":
            return self.eval(plain[0], values[1:], allowance)
        if message == "loop":
            return self.loop(plain[0], allowance)
        if message == "print":
            self.step(len(str(plain[0])) // 64)
            self.lines.append(str(plain[0]))
            return self.named["nil"]
        if message in ("<", "=", "=="):
            true = plain[0] < plain[1] if message == "<" else values[0] == values[1]
            return self.named["true" if true else "false"]
        if message == "++":
            if len(plain[0]) + len(plain[1]) > LONGEST_STRING:
                raise RunError("string limit")
            return ("string", plain[0] + plain[1])
        return ("int", number(message, plain[0], plain[1]))

    def eval(self, what, values, allowance):
        expect(what, values)
        if allowance == 1:
            raise OutOfAllowance
        return self.inside(what, values, allowance - 2)

    def loop(self, what, allowance):
        expect(what, [])
        for left in range(allowance - 1, 0, -1):
            self.inside(what, [], left - 1)
        raise OutOfAllowance

    def inside(self, what, values, allowance):
        self.step(1)
        scope = what.scope | {formal: [value] for formal, value in zip(what.formals, values)}
        return self.body(what.body, scope, what.home, allowance)

    def body(self, statements, scope, home, allowance):
        last = self.named["nil"]
        for kind, *rest in statements:
            value = self.value(rest[-1], scope, home, allowance)
            if kind == "return":
                raise Back(home, value)
            if kind == "set":
                scope[rest[0]][0] = value
            elif kind != "do":
                scope = scope | {rest[0]: [value]}
            last = value if kind == "do" else self.named["nil"]
        return last

    def value(self, expression, scope, home, allowance):
        kind = expression[0]
        if kind == "name":
            return self.meant(expression[1], scope)
        if kind == "send":
            values = [self.value(part, scope, home, allowance) for part in expression[2]]
            return self.call(expression[1], values, allowance)
        if kind == "resend":
            return self.call(home.key[0], home.values, allowance, below=home.key)
        if kind == "closure":
            return ("closure", Closure(expression[1], expression[2], scope, home))
        if kind == "new":
            return self.made(expression[1], expression[2], scope, home, allowance)
        return expression

    def meant(self, own, scope):
        if own in scope:
            return scope[own][0]
        if own not in self.program.parents or own in NO_VALUES:
            raise RunError(f"unknown object {own}")
        return self.named[own]

    def made(self, class_name, parts, scope, home, allowance):
        if class_name not in self.program.parents or class_name in SEALED:
            raise RunError(f"unknown object {class_name}")
        keys = []
        for field, _ in parts:
            key = self.program.field_of(class_name, field)
            if key is None:
                raise RunError(f"no field {field}")
            keys.append(key)
        values = [self.value(part, scope, home, allowance) for _, part in parts]
        self.heap.append((class_name, self.fresh(class_name) | dict(zip(keys, values))))
        return ("object", len(self.heap) - 1)


def expect(what, values):
    if len(what.formals) != len(values):
        raise RunError(f"closure arity {len(values)}")


def number(message, a, b):
    """The number that an arithmetic primitive answers; division cuts off towards zero."""
    if message in ("/", "%"):
        if b == 0:
            raise RunError("division by zero")
        quotient = abs(a) // abs(b) * (1 if (a < 0) == (b < 0) else -1)
        result = quotient if message == "/" else a - b * quotient
    else:
        result = {"+": operator.add, "-": operator.sub, "*": operator.mul}[message](a, b)
    if not LEAST <= result <= GREATEST:
        raise RunError("overflow")
    return result


def reply(program, allowance, steps=10**9):
    """What `mean` replies with the allowance. A run of more steps than are wanted ends in `TooLong`."""
    run = Run(program, steps)
    sys.setrecursionlimit(PYTHON_CALLS)
    try:
        run.call("main", [], allowance)
        end = "= end"
    except RunError as error:
        end = f"= error {error}"
    except Back:
        end = "= error dead return"
    except OutOfAllowance:
        end = "= unfinished"
    return "".join(f"> {line}\n" for line in run.lines) + end + "\n"
