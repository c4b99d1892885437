#!/usr/bin/env python3
"""Four programs to time the machine with, each as the image that the compiler is to make of it, and written for CPython.

    bench/machine_programs.py image NAME ROUNDS        writes the image's bytes to standard output
    bench/machine_programs.py run NAME ROUNDS          runs it in CPython, and prints what the machine is to print
    bench/machine_programs.py count NAME ROUNDS        how many instructions the machine does for it
"""

import pathlib
import sys

sys.path.append(str(pathlib.Path(__file__).resolve().parent.parent / "oracle"))

from assembler import image_of  # noqa: E402
from images import write  # noqa: E402
from machine import Machine  # noqa: E402

# What the programs share: the objects, the messages of the prelude and of arithmetic, and the code of the loop
#   while(c@closure, b@closure) { loop({ if(eval(c), { eval(b) }, { ^ nil }) }) }
PRELUDE = """
version 2
objects any bool closure false int nil string true plain other point
fields x y
shape point x=3 y=0
table main/0
row code main beats 0
table if/3
row code if_false beats 0
row code if_true beats 1
at - false=0 true=1
at 0,1
at 0,1
table eval/1
row prim 12 beats 0
at - closure=0
table eval/2
row prim 13 beats 0
at - closure=0
at 0
table print/1
row prim 10 beats 0
row prim 11 beats 1
at - int=0 string=1
table </2
row prim 5 beats 0
at - int=0
at - int=0
table +/2
row prim 0 beats 0
at - int=0
at - int=0
table -/2
row prim 1 beats 0
at - int=0
at - int=0
code if_false
block 3 0 3
load 2
send eval/1
ret
code if_true
block 3 0 3
load 1
send eval/1
ret
code while
block 2 0 2
clos 1 0 1
prim 17
ret
block 2 2 0
load 0
prim 12
clos 2 1
clos 3
send if/3
ret
block 1 1 0
load 0
prim 12
ret
block 0 0 0
obj nil
home
"""

# method step(c@plain, n) { n + 1 }
# method step(c@other, n) { n + 2 }
# method main() { let var i := 0; let var s := 0; let var a := plain; let var b := other;
#     while({ i < ROUNDS }, { s := step(a, s); s := step(b, s); .. ; i := i + 1 }); print(s) }
SENDS = """
table step/2
row code step_other beats 0
row code step_plain beats 1
at - plain=1 other=0
at 0,1
code step_other
block 2 0 2
load 1
int 2
send +/2
ret
code step_plain
block 2 0 2
load 1
int 1
send +/2
ret
code main
block 4 0 0
int 0
cell 0
int 0
cell 1
obj plain
cell 2
obj other
cell 3
clos 1 0
clos 2 1 2 3 0
call while
pop
cget 1
send print/1
ret
block 1 1 0
cget 0
int ROUNDS
send </2
ret
block 4 4 0
STEPS
cget 3
int 1
send +/2
cset 3
obj nil
ret
""".replace("STEPS", 8 * "cget 1\ncget 0\nsend step/2\ncset 0\ncget 2\ncget 0\nsend step/2\ncset 0\n")

# method fib(m@plain, n@int) { if(n < 2, { n }, { fib(m, n - 1) + fib(m, n - 2) }) }
# method fib(m@other, n@int) { n }
# method main() { print(fib(plain, ROUNDS)) }
RECURSION = """
table fib/2
row code fib_other beats 0
row code fib_plain beats 1
at - plain=1 other=0
at - int=0,1
code fib_other
block 2 0 2
load 1
ret
code fib_plain
block 2 0 2
load 1
int 2
prim 5
clos 1 1
clos 2 0 1
send if/3
ret
block 1 1 0
load 0
ret
block 2 2 0
load 0
load 1
int 1
prim 1
send fib/2
load 0
load 1
int 2
prim 1
send fib/2
send +/2
ret
code main
block 0 0 0
obj plain
int ROUNDS
call fib_plain
send print/1
ret
"""

# method adder(n) { &(x) { x + n } }
# method main() { let var i := 0; let var s := 0;
#     while({ i < ROUNDS }, { let f := adder(i); s := eval(f, s); .. ; i := i + 1 }); print(s) }
CLOSURES = """
code adder
block 1 0 1
clos 1 0
ret
block 2 1 1
load 1
load 0
send +/2
ret
code main
block 2 0 0
int 0
cell 0
int 0
cell 1
clos 1 0
clos 2 0 1
call while
pop
cget 1
send print/1
ret
block 1 1 0
cget 0
int ROUNDS
send </2
ret
block 3 2 0
cget 0
call adder
store 2
EVALUATIONS
cget 0
int 1
send +/2
cset 0
obj nil
ret
""".replace("EVALUATIONS", 8 * "load 2\ncget 1\nsend eval/2\ncset 1\n")

# method move(p) { set_x(p, x(p) + 1); set_y(p, y(p) + x(p)) }
# method turn(p@point) { set_x(p, x(p) - 1); set_y(p, y(p) - 1); x(p) }
# method main() { let p := object isa point { x := 3 }; let var i := 0;
#     while({ i < ROUNDS }, { move(p); turn(p); .. ; i := i + 1 }); print(y(p)) }
FIELDS = """
table x/1
row get x beats 0
at - point=0
table y/1
row get y beats 0
at - point=0
table set_x/2
row set x beats 0
at - point=0
at 0
table set_y/2
row set y beats 0
at - point=0
at 0
code move
block 1 0 1
load 0
load 0
send x/1
int 1
send +/2
send set_x/2
pop
load 0
load 0
send y/1
load 0
send x/1
send +/2
send set_y/2
ret
code turn
block 1 0 1
load 0
load 0
getf x
int 1
send -/2
setf x
pop
load 0
load 0
getf y
int 1
send -/2
setf y
pop
load 0
getf x
ret
code main
block 2 0 0
int 3
new point x
store 0
int 0
cell 1
clos 1 1
clos 2 0 1
call while
pop
load 0
getf y
send print/1
ret
block 1 1 0
cget 0
int ROUNDS
send </2
ret
block 2 2 0
MOVES
cget 1
int 1
send +/2
cset 1
obj nil
ret
""".replace("MOVES", 4 * "load 0\ncall move\npop\nload 0\ncall turn\npop\n")

IMAGES = {"sends": SENDS, "recursion": RECURSION, "closures": CLOSURES, "fields": FIELDS}


class Plain:
    def step(self, n):
        return n + 1

    def fib(self, n):
        return n if n < 2 else self.fib(n - 1) + self.fib(n - 2)


class Other:
    def step(self, n):
        return n + 2

    def fib(self, n):
        return n


class Point:
    def __init__(self, x=3, y=0):
        self.x, self.y = x, y

    def turn(self):
        self.x = self.x - 1
        self.y = self.y - 1
        return self.x


def move(p):
    p.x = p.x + 1
    p.y = p.y + p.x


def adder(n):
    return lambda x: x + n


def sends(rounds):
    i, s, a, b = 0, 0, Plain(), Other()
    while i < rounds:
        s = a.step(s)
        s = b.step(s)
        s = a.step(s)
        s = b.step(s)
        s = a.step(s)
        s = b.step(s)
        s = a.step(s)
        s = b.step(s)
        s = a.step(s)
        s = b.step(s)
        s = a.step(s)
        s = b.step(s)
        s = a.step(s)
        s = b.step(s)
        s = a.step(s)
        s = b.step(s)
        i = i + 1
    return s


def recursion(rounds):
    return Plain().fib(rounds)


def closures(rounds):
    i = s = 0
    while i < rounds:
        f = adder(i)
        s = f(s)
        s = f(s)
        s = f(s)
        s = f(s)
        s = f(s)
        s = f(s)
        s = f(s)
        s = f(s)
        i = i + 1
    return s


def fields(rounds):
    p, i = Point(3), 0
    while i < rounds:
        move(p)
        p.turn()
        move(p)
        p.turn()
        move(p)
        p.turn()
        move(p)
        p.turn()
        i = i + 1
    return p.y


def image(name, rounds):
    return image_of(PRELUDE + IMAGES[name].replace("ROUNDS", str(rounds)))


def count(name, rounds):
    """How many instructions there are: those of few rounds are counted. Each further round of a loop adds as many, and each
    number of the recursion as many as the two before it, and as many more each time."""
    few = []
    for number in range(3):
        machine = Machine(image(name, number))
        machine.run(10_000)
        few.append(machine.count)
    if name != "recursion":
        return few[1] + (rounds - 1) * (few[2] - few[1])
    last, now = few[1:]
    for _ in range(rounds - 2):
        last, now = now, now + last + few[2] - few[1] - few[0]
    return now


def main():
    what, name, rounds = sys.argv[1], sys.argv[2], int(sys.argv[3])
    if what == "image":
        sys.stdout.buffer.write(write(image(name, rounds)))
    elif what == "count":
        print(count(name, rounds))
    else:
        print({"sends": sends, "recursion": recursion, "closures": closures, "fields": fields}[name](rounds))


if __name__ == "__main__":
    main()
