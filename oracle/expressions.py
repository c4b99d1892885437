"""Random expressions. Most are of the kind that is wanted where they stand, some are of any."""

from typing import NamedTuple

from evaluator import GREATEST, send
from texts import OPERATORS

NUMBERS = [0, 1, 2, 3, 5, 7, 10, -1, -2] * 12 + [GREATEST, -GREATEST]
STRINGS = ["", "a", "b", "ab"]
ARITHMETIC = ["+"] * 6 + ["-", "-", "*", "*", "/", "%", "read", "read"]
NAMES = ["a", "b", "c", "d", "e", "i", "k", "n"]


class Local(NamedTuple):
    name: str
    kind: str
    is_variable: bool


class Place(NamedTuple):
    """Where a piece of a body stands: the locals in scope, the key and the level of its method, how deep closures may
    still nest, and whether it is in one. From here methods of a lower level are sent, so that few programs recur."""

    locals: tuple
    key: tuple
    level: int
    room: int
    is_in_closure: bool = False

    def with_local(self, name, kind, is_variable=False):
        return self._replace(locals=self.locals + (Local(name, kind, is_variable),))

    def names(self):
        return {local.name for local in self.locals}


def level_of(message):
    return 9 if message == "main" else int(message[1:]) if message[1:].isdigit() else 0


def closure_kind(count):
    """The kind of a closure with as many formals."""
    return f"closure{count}" if count else "closure"


def formals_of(kind):
    """How many formals a closure of the kind has."""
    return int(kind.removeprefix("closure") or 0)


class Expressions:
    """Writes expressions for a program. `results` tells of each message of what kind its methods' values should be.
    What inherits from this class writes the bodies of closures."""

    def __init__(self, random, program, results):
        self.random, self.program, self.results = random, program, results
        self.objects = [own for own in program.parents if own[0] == "o"]
        self.messages = [key for key in program.methods if key[0] in results]
        self.accessors = [key for key, what in program.methods.items() if what[0] in ("read", "write")]
        self.closures_left = 0
        self.loops_left = 0

    def chance(self, part):
        return self.random.random() < part

    # Names and closures.

    def fresh(self, place):
        """A name that is not in scope: now and then that of an object or predicate."""
        pool = self.objects + ["zed", "int", "nil", "any", "p0"] if self.chance(0.15) else NAMES
        free = [own for own in pool if own not in place.names()]
        return self.random.choice(free) if free else f"w{len(place.locals)}"

    def inner(self, place):
        self.closures_left -= 1
        return place._replace(room=place.room - 1, is_in_closure=True)

    def closure(self, place, kinds, result, returns):
        """A closure with formals of the kinds; most of its values are of the kind of the result."""
        if not self.may_nest(place):
            return ("closure", [f"y{i}" for i in range(len(kinds))], [("do", self.simple(place, "int"))])
        inner, formals = self.inner(place), []
        for kind in kinds:
            formals.append(self.fresh(inner))
            inner = inner.with_local(formals[-1], kind)
        return ("closure", formals, self.body(inner, 2, result, returns))

    # Expressions.

    def call(self, place):
        """A message of the program: a method's or a field's, most often of a lower level."""
        lower = [key for key in self.messages if level_of(key[0]) < place.level]
        lower += [key for key in lower if key[0] == "r3"] * 2
        choices = self.messages if self.chance(0.02) else lower * 3 + self.accessors
        return self.sent(place, self.random.choice(choices or self.accessors))

    def sent(self, place, key):
        return send(key[0], *[self.argument(place, key[0], specialiser) for specialiser in key[1]])

    def argument(self, place, message, specialiser):
        if message[0] == "r" and specialiser == "int":
            return ("int", self.random.randint(0, 3))
        if message == "set_g0" and specialiser == "any":
            specialiser = "closure"
        if specialiser in self.program.predicates and self.program.may_be("int", specialiser) and self.chance(0.4):
            specialiser = self.random.choice(["int", "string", "closure", "nil"])
        return self.wanted(place, 1, specialiser)

    def wanted(self, place, depth, kind):
        """An expression of the kind, an object, predicate or closure, most of the time."""
        chance = self.random.random()
        if chance < 0.025:
            return self.any_expression(place, depth)
        if kind == "any":
            kind = self.random.choice(self.objects + ["int", "int", "string", "bool", "closure"])
        known = [local.name for local in place.locals if self.suits(local.kind, kind)]
        if known and chance < 0.45:
            return ("name", self.random.choice(known))
        if chance < 0.62 and depth > 0:
            return self.roundabout(place, depth - 1, kind)
        return self.simple(place, kind) if depth == 0 else self.straight(place, depth, kind)

    def suits(self, own, kind):
        if own == kind:
            return True
        known = own in self.program.parents or own in self.program.predicates
        return known and kind in self.program.above(own)

    def simple(self, place, kind):
        """An expression without parts."""
        if kind in ("int", "string"):
            return (kind, self.random.choice(NUMBERS if kind == "int" else STRINGS))
        if kind in ("bool", "true", "false", "nil"):
            return ("name", self.random.choice(["true", "false"]) if kind == "bool" else kind)
        if kind.startswith("closure"):
            return self.closure(place._replace(room=0), ["int"] * formals_of(kind), "int", 0)
        return ("name", self.random.choice(self.below(kind)))

    def below(self, kind):
        """Plain objects of which some may count as the object or predicate."""
        return [own for own in self.objects if self.program.may_be(own, kind)] or self.objects

    def straight(self, place, depth, kind):
        if kind in ("int", "string"):
            return self.number_or_string(place, depth, kind)
        if kind in ("bool", "true", "false"):
            return self.truth(place, depth)
        if kind.startswith("closure"):
            return self.closure(place, ["int"] * formals_of(kind), self.random.choice(["int", "any"]), 0.15)
        return ("name", "nil") if kind == "nil" else self.object(place, depth, kind)

    def roundabout(self, place, depth, kind):
        """The same kind by way of a closure, a branch, a message or a resend."""
        ways = [self.by_message] * 2 + [self.by_local] * 2 + [self.by_outliving]
        ways += [self.by_resend] * 2 if place.key[1] else []
        if self.may_nest(place):
            ways += [self.by_eval, self.by_eval, self.by_branch]
        return self.random.choice(ways)(place, depth, kind)

    def by_message(self, place, depth, kind):
        keys = [key for key in self.messages if self.gives(key, kind) and level_of(key[0]) < place.level]
        if not keys:
            return self.straight(place, depth, kind) if depth else self.simple(place, kind)
        return self.sent(place, self.random.choice(keys))

    def by_local(self, place, depth, kind):
        """Evaluates a closure in scope, hardly ever with too many arguments."""
        closures = [local for local in place.locals if local.kind.startswith("closure")]
        if not closures:
            return self.by_outliving(place, depth, kind)
        local = self.random.choice(closures)
        count = formals_of(local.kind) + self.chance(0.04)
        return send("eval", ("name", local.name), *[self.wanted(place, 0, "int") for _ in range(count)])

    def outliving(self, place):
        """Keys of what gives closures whose homes have most often ended."""
        keys = [key for key in self.accessors if key[0] == "g0"]
        return keys + [key for key in self.messages if self.gives(key, "closure") and level_of(key[0]) < place.level]

    def gives(self, key, kind):
        return self.results[key[0]] == kind

    def given(self, place):
        """A closure that a message gives or a field holds."""
        return self.sent(place, self.random.choice(self.outliving(place)))

    def by_outliving(self, place, depth, kind):
        known = kind in ("int", "any") and self.outliving(place)
        return send("eval", self.given(place)) if known else self.simple(place, kind)

    def has_less_specific(self, key):
        others = [other for other in self.program.methods if other[0] == key[0] and len(other[1]) == len(key[1])]
        return any(self.program.is_more_specific(key, other) for other in others)

    def by_resend(self, place, depth, kind):
        """A resend, from a closure now and then, some of which have formals as the method has."""
        if not self.has_less_specific(place.key) and not self.chance(0.02):
            return self.simple(place, kind)
        if not self.may_nest(place) or self.chance(0.5):
            return ("resend",)
        inner, formals = self.inner(place), []
        for _ in range(self.random.randint(0, 2)):
            formals.append(self.fresh(inner))
            inner = inner.with_local(formals[-1], "any")
        statements, _ = self.statements(inner, 1)
        arguments = [self.wanted(place, 0, "any") for _ in formals]
        return send("eval", ("closure", formals, statements + [("do", ("resend",))]), *arguments)

    def by_eval(self, place, depth, kind):
        kinds = self.random.choice([[], [], ["int"], ["any"], ["int", "int"], ["int", "string", "any"]])
        arguments = [self.wanted(place, min(depth, 1), kind) for kind in kinds]
        return send("eval", self.closure(place, kinds, kind, 0.1), *arguments)

    def by_branch(self, place, depth, kind):
        if kind == "bool" and self.chance(0.7):
            message = self.random.choice(["and", "or"])
            return send(message, self.wanted(place, depth, "bool"), self.closure(place, [], "bool", 0.1))
        parts = [self.closure(place, [], kind, 0.15) for _ in range(2)]
        return send("if", self.wanted(place, depth, "bool"), *parts)

    def number_or_string(self, place, depth, kind):
        if self.chance(0.35):
            return self.simple(place, kind)
        message = self.random.choice(ARITHMETIC) if kind == "int" else "++"
        fields = [key for key in self.program.fields if key[0] != "g0"]
        if message == "read" and fields:
            field, specialiser = self.random.choice(fields)
            return send(field, self.wanted(place, depth - 1, specialiser))
        message = "+" if message == "read" else message
        return send(message, *[self.wanted(place, depth - 1, kind) for _ in range(2)])

    def truth(self, place, depth):
        if self.chance(0.3):
            return self.simple(place, "bool")
        message = self.random.choice(["<", ">", "<=", ">=", "=", "==", "not"])
        if message == "not":
            return send(message, self.wanted(place, depth - 1, "bool"))
        kind = self.random.choice(["any", "closure"]) if message == "==" else "int"
        return send(message, *[self.wanted(place, depth - 1, kind) for _ in range(2)])

    def object(self, place, depth, kind):
        if self.chance(0.012):
            return self.unmade(place)
        class_name = self.random.choice(self.below(kind))
        if self.chance(0.5):
            return ("name", class_name)
        names = sorted({field for field, _ in self.program.fields})
        known = [field for field in names if self.program.field_of(class_name, field)]
        fields = names if self.chance(0.05) else known
        chosen = self.random.sample(fields, min(len(fields), self.random.randint(0, 2)))
        parts = [(field, self.wanted(place, depth - 1, "closure" if field == "g0" else "int")) for field in chosen]
        return ("new", class_name, parts)

    def unmade(self, place):
        """A constructor that fails, most of the time, before its part prints."""
        class_name = self.random.choice(self.objects * 2 + ["int", "nil", "zed", "p0"])
        field = self.random.choice(["f0", "f1", "f3"])
        return ("new", class_name, [(field, send("print", self.wanted(place, 0, "int")))])

    def any_expression(self, place, depth):
        if depth == 0 or self.chance(0.6):
            own = [local.name for local in place.locals]
            others = ["any", "nil", "bool"] * 5 + ["zed", "int", "p0"]
            return ("name", self.random.choice(own * 3 + self.objects * 2 + others))
        parts = [self.wanted(place, depth - 1, "any") for _ in range(2)]
        message = self.random.choice(sorted(OPERATORS) + ["if", "and", "or", "set_f0", "m0", "eval", "while", "new"])
        if message == "new":
            class_name = self.random.choice(self.objects + ["int", "true", "zed"])
            return ("new", class_name, [("f0", parts[0]), ("f1", parts[1])])
        return send(message, *parts)
