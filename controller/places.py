#!/usr/bin/env python3
"""Gives what several parts are handed on in the places that those parts have on a 64-bit machine: places.py MODULE.ll, in place.

The module was made for 64 bits, where a reference takes eight bytes and begins at a multiple of eight. The controller's compiler gives a reference
four, so that what stands behind it, or the reference itself behind a smaller number, would be looked for in another place than it was put.
"""
import re
import sys

PARTS = re.compile(r"\{ ((?:i\d+|ptr)(?:, (?:i\d+|ptr))*) \}")
TAKEN = re.compile(r"(extractvalue|insertvalue) (\{ [^{}]* \})( [^\n]*, )(\d+)$", re.M)


def places(parts, reference):
    """Where each part begins, and where the last one ends."""
    out, at = [], 0
    for part in parts:
        size = reference if part == "ptr" else (int(part[1:]) + 7) // 8
        at = (at + size - 1) // size * size
        out.append(at)
        at += size
    return out, at


def spread(text):
    """The parts with bytes between them where they need some, and the new number of each part."""
    parts = PARTS.fullmatch(text).group(1).split(", ")
    wanted = places(parts, 8)[0]
    if places(parts, 4)[0] == wanted:
        return text, list(range(len(parts)))
    out, numbers, at = [], [], 0
    for part, place in zip(parts, wanted):
        if place > at:
            out.append("[%d x i8]" % (place - at))
        numbers.append(len(out))
        out.append(part)
        at = place + (4 if part == "ptr" else (int(part[1:]) + 7) // 8)
    return "<{ " + ", ".join(out) + " }>", numbers


def main():
    with open(sys.argv[1], encoding="utf8") as file:
        module = file.read()
    module = TAKEN.sub(lambda m: m.group(1) + " " + m.group(2) + m.group(3) + str(spread(m.group(2))[1][int(m.group(4))]) if PARTS.fullmatch(m.group(2)) else m.group(), module)
    module = PARTS.sub(lambda m: spread(m.group())[0], module)
    with open(sys.argv[1], "w", encoding="utf8") as file:
        file.write(module)


if __name__ == "__main__":
    main()
