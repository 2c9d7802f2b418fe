#!/usr/bin/env python3
"""Adds up the stack frames along the deepest path of calls in a program for the controller: frames.py ELF FUNCTION...

Prints `FUNCTION BYTES PATH` for each function, the path with each frame behind its name. The depth of the stack at each instruction is found from
what pushes, pops, or moves the stack pointer by a constant; code that is reached only through a table of addresses is taken to stand at its
function's greatest depth. A call through a register or a cycle of calls has no sum and ends the program.
"""
import re
import subprocess
import sys

BRANCH = re.compile(r"b(eq|ne|cs|cc|mi|pl|vs|vc|hi|ls|ge|lt|gt|le|hs|lo)?(\.n|\.w)?$")


class Function:
    def __init__(self, name):
        self.name, self.code, self.words = name, [], {}


def read(path):
    """The functions of a program with their instructions, from its disassembly."""
    text = subprocess.run(["arm-none-eabi-objdump", "-d", "--no-show-raw-insn", path], capture_output=True, text=True, check=True).stdout
    functions, now = {}, None
    for line in text.split("\n"):
        head = re.match(r"([0-9a-f]+) <(.+)>:$", line)
        if head:
            now = functions[head.group(2)] = Function(head.group(2))
            continue
        row = re.match(r"\s*([0-9a-f]+):\s+(\S+)\s*(.*)$", line)
        if not row or now is None:
            continue
        address, word, rest = int(row.group(1), 16), row.group(2), row.group(3)
        if word.startswith("."):
            if word == ".word":
                now.words[address] = int(rest.split()[0], 16)
        else:
            now.code.append((address, word, rest))
    return functions


def registers(text):
    """How many registers a list like {r4, r5, r6, lr} or {r4-r7} has."""
    count = 0
    for part in re.search(r"\{(.*)\}", text).group(1).split(","):
        ends = [int(n) for n in re.findall(r"r(\d+)", part)]
        count += ends[1] - ends[0] + 1 if len(ends) == 2 else 1
    return count


def target(rest):
    place = re.match(r"([0-9a-f]+) <(.+?)(\+0x[0-9a-f]+)?>$", rest)
    return (int(place.group(1), 16), place.group(2)) if place else None


def constant(function, at, register):
    """The constant in a register that moves the stack pointer: the last word loaded to it before, as a signed number."""
    for address, word, rest in reversed([row for row in function.code if row[0] < at]):
        load = re.match(register + r", \[pc, #\d+\]\s+@ \(([0-9a-f]+)", rest)
        if word.startswith("ldr") and load:
            value = function.words[int(load.group(1), 16)]
            return value - (1 << 32) if value >= 1 << 31 else value
    raise SystemExit("frames: %s moves the stack pointer by what is no constant" % function.name)


def moved(function, at, word, rest):
    """By how much an instruction deepens the stack."""
    if word == "push":
        return 4 * registers(rest)
    if word == "pop":
        return -4 * registers(rest)
    by = re.match(r"sp, (?:sp, )?#(\d+)", rest)
    if by and word in ("sub", "add"):
        return int(by.group(1)) if word == "sub" else -int(by.group(1))
    by = re.match(r"sp, (r\d+)", rest)
    if by and word == "add":
        return -constant(function, at, by.group(1))
    return 0


def scan(function, functions):
    """The function's greatest depth and the calls it makes, each with the depth at which it is made."""
    place = {row[0]: k for k, row in enumerate(function.code)}
    depth, calls, greatest = {}, {}, 0
    todo = [(0, 0)] if function.code else []

    def call(name, at):
        calls[name] = max(calls.get(name, 0), at)

    while todo:
        k, now = todo.pop()
        while k < len(function.code) and depth.get(k, -1) < now:
            depth[k] = now
            address, word, rest = function.code[k]
            aim = target(rest)
            if word == "bl" and aim and place.get(aim[0], 0) > 0:
                todo.append((place[aim[0]], now))  # a jump too far for a branch
                break
            elif word in ("bl", "blx"):
                if aim is None:
                    raise SystemExit("frames: %s calls through a register" % function.name)
                call(aim[1], now)
            elif BRANCH.match(word) and aim:
                if aim[0] in place:
                    todo.append((place[aim[0]], now))
                else:
                    call(aim[1], now)
                if BRANCH.match(word).group(1) is None:
                    break
            elif word == "bx" or (word == "pop" and "pc" in rest) or (word in ("mov", "add") and rest.startswith("pc")):
                break
            elif not (word == "mov" and rest.startswith("sp")):
                now += moved(function, address, word, rest)
                greatest = max(greatest, now)
            k += 1
        if not todo:
            unseen = [k for k in range(len(function.code)) if k not in depth]
            if unseen:
                todo.append((unseen[0], greatest))
    return greatest, calls


def deepest(name, functions, scanned, above):
    """The greatest sum of frames from a function on, with its path."""
    if name in above:
        raise SystemExit("frames: a cycle of calls through " + name)
    if name not in functions:
        raise SystemExit("frames: no function " + name)
    if name not in scanned:
        own, calls = scan(functions[name], functions)
        best = (own, [(name, own)])
        for callee, at in calls.items():
            below, path = deepest(callee, functions, scanned, above + [name])
            if at + below > best[0]:
                best = (at + below, [(name, at)] + path)
        scanned[name] = best
    return scanned[name]


def main(path, roots):
    functions, scanned = read(path), {}
    for root in roots:
        total, route = deepest(root, functions, scanned, [])
        print(root, total, " > ".join("%s %d" % step for step in route))


if __name__ == "__main__":
    if len(sys.argv) < 3:
        sys.exit(__doc__)
    main(sys.argv[1], sys.argv[2:])
