#!/usr/bin/env python3
"""Spells the repository's own definitions, lemmas, fields and constructors in snake case: `isDigit` is `is_digit`, `cut-take` is `cut_take`.

usage: tools/spell.py [--look]      at the top of the repository, once, behind /opt/rattle/port/port.py; --look writes nothing and prints the names that meet another

Types, modules, functions of src/, goals that Rattle names, strings and comments' words that are no such name stay.
"""
import collections
import os
import re
import sys

NAME = r'[^\s(){}.;,@"«»]+'
DECL = re.compile(r"^(\s*)((?:(?:abbrev|unfoldable|pub|abstract|opaque)\s+)*)(" + NAME + r")((?: \{[^{}\n]*\})*) : (.*)$")
GOAL = re.compile(r"(?:tie|goal)\.|statement\b")
USE = re.compile(r"^\s*(?:ghost )?(?:pub )?use ([^\s;{]+?)(?:\.\{([^}]*)\})?(?: as (\S+?))?;?\s*$")
TOKEN = re.compile(NAME)
def snake(name):
    name = re.sub(r"(?<=[0-9])([A-Z])(?![a-z])", lambda m: m[1].lower(), name)
    name = re.sub(r"(?<=[a-z0-9])([A-Z])", lambda m: "_" + m[1].lower(), name)
    return name.replace("-", "_")


def is_old(name):
    return name[:1].islower() and ("-" in name or re.search(r"[a-z0-9][A-Z]", name)) and "_-" not in name and "-_" not in name


def files(*ends):
    for folder, dirs, names in os.walk("crates"):
        dirs[:] = sorted(d for d in dirs if d not in ("out", "data"))
        for n in sorted(names):
            if n.endswith(ends):
                yield os.path.join(folder, n)


def read(path):
    with open(path, encoding="utf-8", newline="") as f:
        return f.read()


def uses(text):
    """Names that a file brings in: {name: module}."""
    found = {}
    for line in text.split("\n"):
        m = USE.match(line)
        if m and m[2] is not None:
            for it in m[2].split(","):
                it = it.strip()
                if it:
                    found[it.split(" as ")[-1].strip()] = m[1]
    return found


def own(module):
    crate = module.split(".")
    return crate[0] == "Rattle" and len(crate) > 1 and os.path.isdir(os.path.join("crates", crate[1]))


def declared(path, text):
    """Names that a file of specs/ or proofs/ declares, without the goals that it answers."""
    for line in text.split("\n"):
        if line.lstrip().startswith("--"):
            continue
        m = DECL.match(line)
        if m and not GOAL.match(m[5].strip()) and "statement" not in m[5]:
            yield m[3]


def turn(text, names, code):
    """A text with its names spelled anew: all of it, or of Rust the clauses and the lines that bring names in."""
    def one(m):
        return names.get(m[0], m[0])

    def line_of(l):
        if code and not re.search(r"\bghost\b|requires|ensures|≡|≤|<|//|→|#\[tactic|λ", l) :
            return TOKEN.sub(lambda m: names[m[0]] if m[0] in names and re.search(r"[A-Z-]", m[0]) else m[0], l)
        out, rest = [], l
        for part in re.split(r'("(?:[^"\\]|\\.)*")', l):
            out.append(part if part.startswith('"') else TOKEN.sub(one, part))
        return "".join(out)

    return "\n".join(line_of(l) for l in text.split("\n"))


def settled(where, shared):
    """Two names that would be one: a definition's stays plain, and a lemma's gets `_lem`. Also the lemmas that are spelled so already."""
    meet = collections.defaultdict(list)
    for n in where:
        meet[shared.get(n, n)].append(n)
    later = {}
    for plain, names in meet.items():
        if len(names) > 1:
            names.sort(key=lambda n: (re.search(r"[A-Z]", n) is None, "-" in n, n))
            for n in names[1:]:
                if n in shared:
                    shared[n] = plain + "_lem"
                else:
                    later[n] = plain + "_lem"
    return later


def main(argv):
    look = "--look" in argv
    texts = {p: read(p) for p in files(".antt", ".rt", ".edit")}
    shared, local = {}, collections.defaultdict(dict)
    where = collections.defaultdict(set)
    for p, t in texts.items():
        if not p.endswith(".antt"):
            continue
        inner = "/proofs/" in p and p.count("/") > 3
        for n in declared(p, t):
            if not inner:
                where[n].add(p)
            if is_old(n):
                (local[p] if inner else shared)[n] = snake(n)
    later = settled(where, shared)
    for p, t in sorted(texts.items()):
        names = dict(local[p])
        names.update(shared)
        brought = uses(t)
        for n, module in brought.items():
            if n in names and not own(module):
                del names[n]
        if p.endswith(".antt"):
            here = set(declared(p, t))
            for n in later:
                if n in here or n in brought and own(brought[n]):
                    names[n] = later[n]
        if look:
            clash(p, t, names)
            continue
        new = turn(t, names, p.endswith(".rt"))
        if new != t:
            with open(p, "w", encoding="utf-8", newline="") as f:
                f.write(new)
    return 0


def clash(p, t, names):
    """Prints the names of a file that would meet another word of it: in antt any, in Rust a parameter."""
    t = re.sub(r"//.*|--.*", "", t)
    if p.endswith(".antt"):
        words = set(TOKEN.findall(t))
    else:
        words = set(re.findall(r"(?<![:\w])(\w+): (?!:)", t)) | set(re.findall(r"\bconst (\w+)", t))
    tokens = set(TOKEN.findall(t))
    for n in sorted(names):
        if n in tokens and names[n] in words:
            print(p, n, names[n])


if __name__ == "__main__":
    raise SystemExit(main(sys.argv[1:]))
