#!/usr/bin/env python3
"""Writes the cases about images, as lines that a program is given and what it is to answer.

    oracle/image_cases.py INPUT OUTPUT         the two files to write, those of `crates/run_images`

The cases are told in `oracle/image_cases/*.txt`, each with its answers written by hand; where the second reader or machine
answers otherwise this is told, and nothing written. A case is some lines:

    # TITLE
    do INSTRUCTION / INSTRUCTION ..    the code `main`, whose one block has four locals
    other lines                        more of the image (assembler.py)
    run COUNT ANSWER | ANSWER          what is answered when the image runs for at most so many instructions, `= ` left out
    told ANSWER                        what is answered when it is loaded
    broken                             its bytes are broken everywhere; the answers are those of the second reader
    bytes HEX                          these bytes are the image, and no other line says what it is
    part FROM HEX                      in the place of the image's bytes from there on as many are put as are told
    more HEX                           bytes behind those of the image

Before its lines stand those of OPENING; with a line `head` those of HEAD instead, and with a line `bare` none.
"""

import pathlib
import sys

from assembler import assembled
from image_answers import answers

FOLDER = pathlib.Path(__file__).parent / "image_cases"
OPENING = """
objects closure false int nil string true
fields f g
table main/0
row code main beats 0
"""
HEAD = """
objects any
own any any any any any any
fields f
"""
MAIN = "code main\nblock 4 0 0\n"
ASKS = ("run", "told", "broken")
BYTES = ("bytes", "part", "more")


def lines_of(case):
    """The lines of an image that a case tells."""
    for line in case:
        word, _, rest = line.partition(" ")
        if word == "do":
            yield MAIN + rest.replace(" / ", "\n")
        elif word not in ASKS + BYTES + ("bare", "head"):
            yield line


def image(case):
    """The bytes of a case's image."""
    changes = [line.split() for line in case if line.split()[0] in BYTES]
    if changes and changes[0][0] == "bytes":
        return bytes.fromhex("".join(changes[0][1:]))
    opening = "" if "bare" in case else HEAD if "head" in case else OPENING
    data = assembled(opening + "\n".join(lines_of(case)))
    for change in changes:
        if change[0] == "more":
            data += bytes.fromhex(change[1])
        else:
            place, part = int(change[1]), bytes.fromhex(change[2])
            data = data[:place] + part + data[place + len(part) :]
    return data


def asked(case):
    """The lines to give to the program, each with the answers that are written beside it, or None."""
    digits = image(case).hex()
    for line in case:
        word, _, rest = line.partition(" ")
        if word == "run":
            count, wanted = rest.split(" ", 1)
            yield f"run {count} {digits}", wanted.split(" | ")
        elif word == "told":
            yield f"load {digits}", [rest]
        elif word == "broken":
            yield f"broken {digits}", None


def cases():
    """Each case: its title, its lines, and where it stands."""
    for file in sorted(FOLDER.glob("*.txt")):
        title, case = None, []
        for line in [*file.read_text().splitlines(), "#"]:
            if line.startswith("#"):
                if title:
                    yield title, case, file.name
                title, case = line, []
            elif line.split(";")[0].strip():
                case.append(line.strip())


def main():
    given, wanted, count, different = [], [], 0, 0
    for title, case, place in cases():
        given.append(title)
        wanted.append(title)
        for line, written in asked(case):
            answered = answers(line)
            if written not in (None, [answer.removeprefix("= ") for answer in answered]):
                print(f"{place}: {title}: {' '.join(line.split()[:-1])}: written {written}, answered {answered}")
                different += 1
            given.append(line)
            wanted.extend(answered)
        count += 1
    if different:
        sys.exit(f"{different} answers differ")
    for path, lines in zip(sys.argv[1:3], (given, wanted)):
        pathlib.Path(path).write_text("".join(line + "\n" for line in lines))
    print(f"{count} cases")


if __name__ == "__main__":
    main()
