#!/usr/bin/env python3
"""What is answered to lines about images, by the second reader and machine.

    oracle/image_answers.py <LINES

- `load HEX`: `loaded`, or the first fault of the bytes.
- `run COUNT HEX`: the fault; else the lines printed, each behind `> `, and then behind `= ` how the run ends.
- `broken HEX`: what `load` answers of each front of the bytes, the shortest first, and then of the bytes with one of them
  changed, for each byte from the first on: greater by 1, by 128 and by 255, past 255 from 0 on.
- Other lines are copied: they say what the next ones show.
"""

import sys

from images import loaded
from machine import reported

CHANGES = [1, 128, 255]


def broken(data):
    """The bytes as they may be broken."""
    for length in range(len(data)):
        yield data[:length]
    for place, byte in enumerate(data):
        for change in CHANGES:
            yield data[:place] + bytes([(byte + change) % 256]) + data[place + 1 :]


def answers(line):
    """The lines that are answered to a line."""
    words = line.split() or [""]
    if words[0] == "load":
        return [loaded(bytes.fromhex("".join(words[1:])))]
    if words[0] == "run":
        return reported(bytes.fromhex("".join(words[2:])), int(words[1]))
    if words[0] == "broken":
        return [loaded(data) for data in broken(bytes.fromhex("".join(words[1:])))]
    return [line]


def main():
    for line in sys.stdin:
        for answer in answers(line.rstrip("\n")):
            print(answer)


if __name__ == "__main__":
    main()
