"""Random programs and edits of them: a `Program` of the second evaluator for each version, and the texts of edits."""

import random

from bodies import Bodies
from evaluator import COMPARISONS, PRELUDE_METHODS, PRIMITIVES, Program, does, name, send
from texts import field_text, method_key_text, method_text, object_text, predicate_text

RESERVED = set(PRIMITIVES) | {(message, specialisers) for message, specialisers, _, _ in PRELUDE_METHODS}
STARTS = ["nil", "true", "false", ("int", 0), ("int", 3), ("int", -2), ("string", "s")] + [("int", 1)] * 3
RESULTS = ["int"] * 3 + ["string", "closure", "closure", "bool", "any"]


def shows(text):
    return does(send("print", ("string", text)))


# Methods that let runs go on where else a message is not understood: with formals a, b and c, and bodies.
MENDING = [
    ("print", ("any",), shows("any")),
    ("print", ("any",), shows("thing")),
    ("print", ("closure",), shows("closure")),
    ("print", ("nil",), shows("nil")),
    ("print", ("bool",), shows("bool")),
    ("print", ("true",), [("do", send("print", ("string", "yes"))), ("do", ("resend",))]),
    ("print", ("false",), shows("no")),
    ("+", ("any", "any"), does(("int", 1))),
    ("-", ("any", "any"), does(("int", 2))),
    ("*", ("any", "any"), does(send("+", name("b"), name("a")))),
    ("/", ("any", "any"), does(name("a"))),
    ("%", ("any", "any"), does(name("b"))),
    ("<", ("any", "any"), does(name("false"))),
    (">", ("any", "any"), does(name("true"))),
    ("<=", ("any", "any"), does(name("true"))),
    (">=", ("any", "any"), does(name("false"))),
    ("=", ("any", "any"), does(send("==", name("a"), name("b")))),
    ("<", ("closure", "any"), does(name("true"))),
    ("++", ("any", "any"), does(("string", "s"))),
    ("not", ("any",), does(name("a"))),
    ("and", ("any", "any"), does(send("eval", name("b")))),
    ("or", ("any", "any"), does(name("a"))),
    ("if", ("any", "any"), does(send("eval", name("b")))),
    ("if", ("any", "any", "any"), does(send("eval", name("c")))),
    ("eval", ("any",), does(name("a"))),
    ("eval", ("nil",), does(("int", 0))),
    ("eval", ("any", "any"), does(name("b"))),
    ("eval", ("closure", "int"), [("do", send("print", name("b"))), ("do", ("resend",))]),
    ("eval", ("closure", "closure"), does(send("eval", name("a"), send("eval", name("b"))))),
    ("==", ("any", "closure"), does(("closure", [], does(("resend",))))),
    ("loop", ("any",), does(("int", 5))),
    ("while", ("any", "closure"), does(send("eval", name("b")))),
    ("f0", ("any",), does(("int", 7))),
    ("f1", ("any",), does(("int", 8))),
    ("f2", ("any",), does(("int", 9))),
    ("set_f0", ("any", "any"), does(name("b"))),
    ("set_f1", ("any", "any"), does(name("a"))),
    ("set_f2", ("any", "any"), does(name("nil"))),
    ("g0", ("any",), does(("closure", [], shows("none")))),
    ("set_g0", ("any", "any"), does(name("a"))),
]


class Writer:
    """Makes the versions of a program from a seed: a list of an edit's text and the program behind it."""

    def __init__(self, seed):
        self.random = random.Random(seed)
        self.program = Program()
        self.fields = [f"f{i}" for i in range(self.random.randint(1, 3))]
        self.results, self.texts, self.versions = {"main": "int"}, [], []
        self.add_objects()
        self.add_predicates()
        self.add_fields()
        self.add_methods()
        self.end_version("add " + "\n    ".join(self.texts))
        for _ in range(self.random.randint(1, 3)):
            self.texts = []
            for change in self.random.choices(self.changes(), k=self.random.randint(1, 4)):
                change()
            if self.chance(0.5):
                self.put_main()
            if self.texts:
                self.end_version("\n    ".join(self.texts))

    def end_version(self, text):
        self.versions.append((text, self.program))
        self.program = self.program.copy()

    def chance(self, part):
        return self.random.random() < part

    def some(self, choices, most):
        return self.random.sample(choices, min(len(choices), self.random.randint(0, most)))

    def objects(self):
        return [own for own in self.program.parents if own[0] == "o"]

    def bodies(self):
        return Bodies(self.random, self.program, self.results)

    # Declarations.

    def add_objects(self):
        for i in range(self.random.randint(2, 6)):
            self.set_object(f"o{i}", self.some(self.objects(), 3) or ["any"])

    def set_object(self, own, parents, word=""):
        self.program.set_object(own, parents)
        self.texts.append(word + object_text(own, parents))

    def test(self, depth):
        kind = self.random.choice(["compare", "and", "or", "not"]) if depth else "compare"
        if kind == "compare":
            operator = self.random.choice(list(COMPARISONS))
            return (kind, self.random.choice(self.fields), operator, self.random.choice([-1, 0, 1, 3]))
        return (kind,) + tuple(self.test(depth - 1) for _ in range(1 if kind == "not" else 2))

    def add_predicates(self):
        for i in range(self.random.randint(0, 4)):
            self.set_predicate(f"p{i}", list(self.program.predicates))

    def set_predicate(self, own, others, word=""):
        """A predicate. Its test often has a `not`, so that it holds for what has no fields."""
        parents = self.some(self.objects() * 2 + others + ["any"], 2) or [self.random.choice(self.objects())]
        if self.chance(0.2):
            parents = [self.random.choice(["any", "any", "any", "bool"])]
        test = ("not", self.test(1)) if self.chance(0.3) else self.test(2)
        self.program.set_predicate(own, parents, test)
        self.texts.append(word + predicate_text(own, parents, test))

    def add_fields(self):
        for _ in range(self.random.randint(1, 5)):
            self.set_field(self.random.choice(self.fields), self.random.choice(self.specialisers_of_fields()))
        self.set_field("g0", self.random.choice(self.specialisers_of_fields()))

    def specialisers_of_fields(self):
        return self.objects() + list(self.program.predicates) * 2

    def set_field(self, field, specialiser, word=""):
        """A field where its keys are free, or the field itself is there with the word."""
        start, variable = self.random.choice(STARTS), self.chance(0.8)
        start = "nil" if field == "g0" and self.chance(0.8) else start
        others = {key: what for key, what in self.program.methods.items() if what[-1] != (field, specialiser)}
        keys = {(field, (specialiser,)), ("set_" + field, (specialiser, "any"))}
        if not keys & others.keys() and ((field, specialiser) in self.program.fields) == (word == "put "):
            self.program.set_field(field, specialiser, start, variable)
            self.texts.append(word + field_text(field, specialiser, start, variable))

    def specialisers(self):
        own = self.objects() * 2 + list(self.program.predicates) * 3
        return own + ["any", "any", "int", "string", "bool", "true", "nil", "closure", "closure"]

    def method_keys(self):
        """Some messages with one method for everything and others below it, and such with the names of fields."""
        keys = []
        for i in range(self.random.randint(1, 5)):
            message, count = f"m{i}", self.random.choice([0, 1, 1, 1, 2, 2, 3])
            self.results[message] = self.random.choice(RESULTS)
            if self.chance(0.85):
                keys.append((message, ("any",) * count))
            keys += [self.method_key(message, count) for _ in range(self.random.randint(1, 3) if count else 1)]
            if count and self.chance(0.5):
                keys += self.chain(*keys[-1])
        for field in self.some(self.fields, 1):
            self.results[field] = "int"
            keys.append(self.method_key(field, 1))
        return keys

    def method_key(self, message, count):
        return (message, tuple(self.random.choice(self.specialisers()) for _ in range(count)))

    def chain(self, message, specialisers):
        """Keys more and more specific than the one given, most of the time."""
        keys = []
        for _ in range(2):
            names = self.objects() + list(self.program.predicates)
            own = [other for other in names if self.is_below(other, specialisers[0])]
            specialisers = (self.random.choice(own or ["any"]),) + specialisers[1:]
            keys.append((message, specialisers))
        return keys

    def is_below(self, own, other):
        return own != other and other in self.program.above(own)

    def add_methods(self):
        mended = self.random.choice([0.4, 0.9, 0.97, 0.97])
        for message, specialisers, body in MENDING:
            if self.chance(mended):
                formals = [formal for formal, _ in zip("abc", specialisers)]
                self.set_method((message, specialisers), formals, body)
        for key in self.method_keys():
            self.write_method(key)
        if self.chance(0.6):
            self.results["r3"] = "int"
            self.write_method(("r3", ("int", "closure")))
        self.write_method(("main", ()))

    def write_method(self, key, word=""):
        writes = self.bodies().recursion if key[0] == "r3" else self.bodies().method
        self.set_method(key, *writes(key), word)

    def set_method(self, key, formals, body, word=""):
        """A method where the key is free, or one is there with the word."""
        if key not in RESERVED and (key in self.program.methods) == (word == "put "):
            self.program.methods[key] = ("body", formals, body)
            self.texts.append(word + method_text(*key, formals, body))

    # Edits.

    def changes(self):
        often = [self.put_method] * 4 + [self.put_main] * 3 + [self.add_method] * 3 + [self.drop_method] * 2
        often += [self.put_predicate] * 2 + [self.put_object, self.put_field, self.add_field, self.drop_field]
        return often + [self.add_object, self.add_predicate, self.drop_object]

    def written(self):
        """The keys of methods that edits may change."""
        return [key for key, what in self.program.methods.items() if what[0] == "body" and key[0] in self.results]

    def put_method(self):
        self.write_method(self.random.choice(self.written()), "put ")

    def put_main(self):
        key = ("main", ())
        self.write_method(key, "put " if key in self.program.methods else "add ")

    def add_method(self):
        message, specialisers = self.random.choice(self.written())
        if message != "r3":
            self.write_method(self.method_key(message, len(specialisers)), "add ")

    def drop_method(self):
        keys = [key for key, what in self.program.methods.items() if what[0] == "body" and key not in RESERVED]
        key = self.random.choice(keys)
        if key[0] != "main" or self.chance(0.1):
            del self.program.methods[key]
            self.texts.append("drop " + method_key_text(*key))

    def put_object(self):
        own = self.random.choice(self.objects())
        others = [other for other in self.objects() if own not in self.program.above(other)]
        self.set_object(own, self.some(others, 2) or ["any"], "put ")

    def put_predicate(self):
        predicates = list(self.program.predicates)
        if predicates:
            own = self.random.choice(predicates)
            others = [other for other in predicates if own not in self.program.above(other)]
            self.set_predicate(own, others, "put ")

    def put_field(self):
        self.set_field(*self.random.choice(list(self.program.fields)), "put ")

    def add_field(self):
        field = self.random.choice(self.fields + ["g0"])
        self.set_field(field, self.random.choice(self.specialisers_of_fields()), "add ")

    def drop_field(self):
        if len(self.program.fields) > 1:
            key = self.random.choice(list(self.program.fields))
            self.program.drop_field(key)
            self.texts.append(f"drop field {key[0]}(@{key[1]})")

    def add_object(self):
        """An object, most often with the name of one that was dropped or that bodies only guess."""
        own = self.random.choice(["o0", "o1", "o2", "o3", "o4", "o5", "o6"])
        if own not in self.program.parents:
            self.set_object(own, self.some(self.objects(), 2) or ["any"], "add ")

    def add_predicate(self):
        own = f"p{len(self.program.predicates)}"
        if own not in self.program.predicates:
            self.set_predicate(own, list(self.program.predicates), "add ")

    def drop_object(self):
        """Drops an object or predicate that nothing inherits from and nothing is specialised on."""
        named = set().union(*self.program.parents.values(), *(key[1] for key in self.program.methods))
        named = named.union(*(parents for parents, _ in self.program.predicates.values()))
        free = [own for own in self.objects() + list(self.program.predicates) if own not in named]
        if free and len(self.objects()) > 1:
            own = self.random.choice(free)
            word = "predicate" if own in self.program.predicates else "object"
            self.program.drop_object(own)
            self.texts.append(f"drop {word} {own}")
