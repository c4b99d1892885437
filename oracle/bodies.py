"""Random bodies of methods."""

from functools import cached_property

from evaluator import Run, send
from expressions import NUMBERS, Expressions, Place, closure_kind, level_of

MOST_CLOSURES = 14


def fields_in(test):
    return [test[1]] if test[:1] == ("compare",) else [field for part in test[1:] for field in fields_in(part)]


def one_more(count):
    return ("set", count, send("+", ("name", count), ("int", 1)))


class Bodies(Expressions):
    """Writes methods for a program."""

    def method(self, key):
        """Formals and body of a method with the key."""
        self.closures_left, self.loops_left = MOST_CLOSURES, 2
        place, formals = Place((), key, level_of(key[0]), 3), []
        for specialiser in key[1]:
            formal = None if self.chance(0.2) else self.fresh(place)
            formals.append(formal)
            place = place.with_local(formal, specialiser) if formal else place
        if key[0] != "main":
            return formals, self.body(place, 3, self.results[key[0]])
        stored, place = self.statements(place, 2, [self.store])
        return formals, stored + self.body(place, 6, "int")

    def recursion(self, key):
        """A method that calls itself with a number one less, until that is 0, and hands a closure down."""
        self.closures_left, self.loops_left = MOST_CLOSURES, 1
        place = Place((), key, level_of(key[0]), 2).with_local("n", "int").with_local("k", "closure")
        end = self.random.choice([send("eval", ("name", "k"))] * 3 + [("name", "k"), self.wanted(place, 1, "int")])
        body = [("do", send("if", send("<", ("name", "n"), ("int", 1)), ("closure", [], [("return", end)])))]
        more, place = self.statement(place)
        handed = ("name", "k") if self.chance(0.3) else self.closure(place, [], "int", 0.6)
        again = send(key[0], send("-", ("name", "n"), ("int", 1)), handed)
        return ["n", "k"], body + more + [("let", "v", again)] + self.body(place.with_local("v", "int"), 2, "int")

    # Statements.

    def body(self, place, most, result, returns=0.12):
        statements, place = self.statements(place, most)
        if self.chance(returns / 4 if place.level == level_of("main") else returns):
            return statements + [("return", self.wanted(place, 2, result))]
        if result == "closure" and self.chance(0.6):
            return statements + [("do", self.closure(place, [], "int", 0.4))]
        return statements + ([] if self.chance(0.1) else [("do", self.wanted(place, 2, result))])

    def statements(self, place, most, kinds=None):
        statements = []
        for _ in range(self.random.randint(0 if place.is_in_closure else most // 2, most)):
            more, place = self.random.choice(kinds)(place) if kinds else self.statement(place)
            statements += more
        return statements, place

    def statement(self, place):
        """Statements that belong together, and the place behind them."""
        plain = [self.print] * 5 + [self.let] * 3 + [self.assign] * 3 + [self.message] * 3 + [self.store]
        plain += [self.same, self.same, self.comes_and_goes]
        plain += [self.resent] * 3 if self.has_less_specific(place.key) else []
        if not self.may_nest(place):
            return self.random.choice(plain)(place)
        nested = [self.let_closure] * 2 + [self.branch] * 2 + [self.early] * 2 + [self.evaluation, self.evaluation]
        nested += [self.again, self.shadow, self.one_turn] + ([self.growing] if self.chance(0.2) else [])
        nested += [self.turns, self.turns, self.turns_of_loop] if self.loops_left else []
        return self.random.choice(plain + nested)(place)

    def may_nest(self, place):
        return place.room > 0 and self.closures_left > 0

    def print(self, place):
        if self.chance(0.6):
            shown = self.call(place)
            outlives = self.results.get(shown[1], "") == "closure" and self.chance(0.7)
            return [("do", send("print", send("eval", shown) if outlives else shown))], place
        kind = self.random.choice(["int", "int", "string", "any"])
        return [("do", send("print", self.wanted(place, 2, kind)))], place

    def let(self, place, is_variable=None):
        own = self.fresh(place)
        kind = self.random.choice(["int", "int", "string", "bool", "any", "closure"] + self.objects)
        is_variable = self.chance(0.5) if is_variable is None else is_variable
        statement = ("let var" if is_variable else "let", own, self.wanted(place, 2, kind))
        return [statement], place.with_local(own, kind, is_variable)

    def assign(self, place):
        variables = [local for local in place.locals if local.is_variable]
        if not variables:
            return self.let(place, True)
        local = self.random.choice(variables)
        return [("set", local.name, self.wanted(place, 2, local.kind))], place

    def message(self, place):
        return [("do", self.call(place))], place

    def store(self, place):
        """A closure or number into a field."""
        setters = [key for key in self.accessors if len(key[1]) == 2] or self.accessors
        own, specialisers = self.random.choice(setters)
        values = [self.wanted(place, 1, specialisers[0])] + [self.stored(place, own) for _ in specialisers[1:]]
        return [("do", send(own, *values))], place

    def stored(self, place, setter):
        if setter != "set_g0" and self.chance(0.9):
            return self.wanted(place, 1, "int")
        return self.closure(place, [], "int", 0.4) if self.chance(0.7) else self.wanted(place, 1, "closure")

    def comes_and_goes(self, place):
        """Sets and reads a predicate's field, while the predicate may hold, not hold, and hold again."""
        if not self.goers:
            return self.store(place)
        (own, predicate), class_name, field, numbers = self.random.choice(self.goers)
        held = self.fresh(place)
        made = ("name", class_name) if self.chance(0.3) else ("new", class_name, [])
        statements = [("let", held, made)]
        for count, holds in enumerate([True, False, True]):
            number = ("int", self.random.choice(numbers[holds]))
            statements.append(("do", send("set_" + field, ("name", held), number)))
            if count == 0:
                value = self.stored(place.with_local(held, "any"), own)
                statements.append(("do", send("set_" + own, ("name", held), value)))
            shown = send(own, ("name", held))
            statements.append(("do", send("print", send("eval", shown) if own == "g0" else shown)))
        return statements, place.with_local(held, predicate)

    def same(self, place):
        """Whether two closures or objects are the same one: those of locals, or what a message gives twice."""
        kind = self.random.choice(["closure", "closure", "any"])
        known = [("name", local.name) for local in place.locals if kind in ("any", local.kind)]
        known += [self.given(place)] if self.outliving(place) else []
        pair = [self.random.choice(known) if known else self.wanted(place, 1, kind) for _ in range(2)]
        truths = [("closure", [], [("do", ("int", truth))]) for truth in (1, 0)]
        return [("do", send("print", send("if", send("==", *pair), *truths)))], place

    def resent(self, place):
        return [("do", send("print", self.by_resend(place, 1, "int")))], place

    def shadow(self, place):
        """A closure names an object before a local takes its name."""
        free = [own for own in self.objects if own not in place.names()]
        if not free:
            return self.let(place)
        own = self.random.choice(free)
        held = self.fresh(place.with_local(own, "int"))
        seen = self.random.choice([("name", own), self.by_reading(own), send("==", ("name", own), ("name", own))])
        word = self.random.choice(["let", "let var"])
        return [
            ("let", held, ("closure", [], [("do", seen)])),
            (word, own, ("int", self.random.choice(NUMBERS))),
            ("do", send("print", send("eval", ("name", held)))),
            ("do", send("print", ("name", own))),
        ], place.with_local(held, "closure").with_local(own, "int", word == "let var")

    def by_reading(self, own):
        return send(self.random.choice([key[0] for key in self.accessors if len(key[1]) == 1]), ("name", own))

    def let_closure(self, place):
        own, count = self.fresh(place), self.random.choice([0, 0, 0, 1, 2])
        made = self.closure(place, ["int"] * count, self.random.choice(["int", "int", "any", "closure"]), 0.15)
        behind = place.with_local(own, closure_kind(count))
        return [("let", own, made)] + ([self.counted(behind)] if self.chance(0.2) else []), behind

    def counted(self, place):
        return ("do", send("print", self.wanted(place, 1, "int")))

    def branch(self, place):
        parts = [self.closure(place, [], "int", 0.2) for _ in range(self.random.randint(1, 2))]
        return [("do", send("if", self.wanted(place, 2, "bool"), *parts))], place

    def early(self, place):
        """A return out of a closure, where something is true."""
        inner = self.inner(place)
        back = ("closure", [], [("return", self.wanted(inner, 1, self.results.get(place.key[0], "any")))])
        return [("do", send(self.random.choice(["if", "if", "and"]), self.wanted(place, 2, "bool"), back))], place

    def evaluation(self, place):
        """Two closures over one variable, evaluated in turns."""
        own = self.fresh(place)
        place = place.with_local(own, "int", True)
        more = send("+", ("name", own), self.wanted(place, 1, "int"))
        statements = [("let var", own, ("int", self.random.choice(NUMBERS)))]
        up = self.fresh(place)
        statements.append(("let", up, ("closure", [], [("set", own, more), ("do", ("name", own))])))
        place = place.with_local(up, "closure")
        get = self.fresh(place)
        statements.append(("let", get, self.closure(place, [], "int", 0.1)))
        place = place.with_local(get, "closure")
        for shown in self.random.sample([up, get, up, own], 3):
            part = ("name", own) if shown == own else send("eval", ("name", shown))
            statements.append(("do", send("print", part)))
        return statements, place

    def again(self, place):
        """A variable holds a closure that evaluates the closure before."""
        own = self.fresh(place)
        place = place.with_local(own, "closure", True)
        count = self.fresh(place)
        place = place.with_local(count, "int")
        before = self.fresh(place)
        inside = self.inner(place).with_local(before, "closure")
        around = ("closure", [], [("do", send("+", send("eval", ("name", before)), self.wanted(inside, 1, "int")))])
        body = [("let", before, ("name", own)), ("set", own, around), one_more(count)]
        condition = ("closure", [], [("do", send("<", ("name", count), ("int", self.random.randint(1, 2))))])
        return [
            ("let var", own, ("closure", [], [("do", ("int", 1))])),
            ("let var", count, ("int", 0)),
            ("do", send("while", condition, ("closure", [], body))),
            ("do", send("print", send("eval", ("name", own)))),
        ], place

    def turns(self, place):
        """A `while` that counts."""
        self.loops_left -= 1
        count = self.fresh(place)
        behind = place.with_local(count, "int", self.chance(0.1))
        first = self.print(self.inner(behind)._replace(room=0))[0] if self.chance(0.3) else []
        test = send("<", ("name", count), ("int", self.random.randint(0, 3)))
        condition = ("closure", self.odd_formals(behind), first + [("do", test)])
        more = one_more(count)
        body = self.body(self.inner(behind), 2, "int", 0.1)
        body = body[:-1] + [more] + body[-1:] if self.chance(0.8) else [more] + body
        what = send("while", condition, ("closure", self.odd_formals(behind), body))
        what = send("print", what) if self.chance(0.3) else what
        return [("let var", count, ("int", 0)), ("do", what)], behind

    def turns_of_loop(self, place):
        """A `loop` that a return ends."""
        self.loops_left -= 1
        count = self.fresh(place)
        behind = place.with_local(count, "int", self.chance(0.1))
        body, inside = self.statements(self.inner(behind), 2)
        back = ("closure", [], [("return", self.wanted(self.inner(inside), 1, "int"))])
        test = send("<", ("int", self.random.randint(0, 2)), ("name", count))
        body += [one_more(count), ("do", send("if", test, back))]
        what = send("loop", ("closure", self.odd_formals(behind), body))
        return [("let var", count, ("int", 0)), ("do", what)], behind

    def one_turn(self, place):
        """A `loop` whose first turn returns."""
        loop = send("loop", ("closure", [], [("return", self.simple(place, "int"))]))
        return [("do", send("if", self.wanted(place, 1, "bool"), ("closure", [], [("do", loop)])))], place

    def growing(self, place):
        """A `loop` that goes on until its allowance ends or a string is too long."""
        own = self.fresh(place)
        twice = ("set", own, send("++", ("name", own), ("name", own)))
        body = [twice, ("do", send("print", ("int", self.random.randint(0, 9))))]
        loop = send("loop", ("closure", [], body if self.chance(0.5) else body[::-1]))
        return [("let var", own, ("string", "ab" * 32)), ("do", loop)], place.with_local(own, "string", True)

    def odd_formals(self, place):
        """Formals where none belong: hardly ever any."""
        own = [f"z{len(place.locals)}", f"q{len(place.locals)}"]
        return own[: self.random.randint(1, 2)] if self.chance(0.05) else []

    # Predicates that have fields.

    @cached_property
    def goers(self):
        return [goer for key in self.program.fields for goer in self.goers_of(key)]

    def goers_of(self, key):
        """Where the field belongs to a predicate: the field, a class, a field of it by which the predicate comes and
        goes, and numbers with which it does not hold and with which it does."""
        for class_name in self.below(key[1]) if key[1] in self.program.predicates else []:
            for field in fields_in(self.program.predicates[key[1]][1]):
                decider = self.program.field_of(class_name, field)
                numbers, run = [[], []], Run(self.program, 0)
                for number in range(-2, 5) if decider and self.program.fields[decider][1] else []:
                    value = run.named[class_name]
                    run.heap[value[1]][1][decider] = ("int", number)
                    numbers[run.counts_as(value, key[1])].append(number)
                if all(numbers):
                    yield key, class_name, field, numbers
