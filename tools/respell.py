#!/usr/bin/env python3
"""Respells the repository's own definitions and lemmas as today's Rattle does: types in upper camel case, all else in snake case.

usage: python3 tools/respell.py [--list]

Run at the top of the checkout, behind the kit's port.py; a second run changes nothing. It takes the names that specs/ and
proofs/ define (types, constructors, fields, functions and lemmas, no goals), and respells them wherever they are cited: in
.antt files, in the clauses of .rt files, and between backquotes in comments, README.md and docs/. So it does with what a
file of specs/ or proofs/ binds for itself. Functions of src/, strings and what the
programs read and print are left alone. --list prints the old and new names, and changes nothing.
"""

import os
import re
import sys

NAME = r"[A-Za-z_][\w'\-]*"
TOP = re.compile(r"^(?:(?:abbrev|pub|unfoldable) )*(?P<name>" + NAME + r") : (?P<type>.*)$")
TYPE = re.compile(r"^(?:pub )?(?:data|record) (?P<name>" + NAME + r")")
FIELD = re.compile(r"^ +(?:pub )?(?P<name>" + NAME + r") : ")
INNER = re.compile(r"^ +(?:(?:abbrev|pub|unfoldable) )*(?P<name>" + NAME + r") : (?P<type>.*)$")


def antt_files():
    for folder, dirs, files in os.walk("crates"):
        dirs[:] = sorted(d for d in dirs if d != "out")
        for name in sorted(files):
            if name.endswith(".antt"):
                yield os.path.join(folder, name)


def names_of(path, types, others):
    inside = module = False
    with open(path, encoding="utf-8") as f:
        for line in f:
            line = line.rstrip("\n")
            if line and not line.startswith((" ", "--")):
                inside = False
                module = line.startswith("module ")
            if m := TYPE.match(line):
                types.add(m["name"])
                inside = line.endswith("where")
            elif inside and (m := FIELD.match(line)):
                others.add(m["name"])
            elif m := TOP.match(line) or (module and INNER.match(line)):
                if not m["type"].startswith("goal."):
                    is_type = m["name"][0].isupper() or re.search(r"(^|→ )Type \d$", m["type"])
                    (types if is_type else others).add(m["name"])


def camel(name):
    return "".join(part[:1].upper() + part[1:] for part in re.split(r"[-_]", name))


def snake(name):
    return name.replace("-", "_")


def mapping():
    types, others = set(), set()
    for path in antt_files():
        names_of(path, types, others)
    turned = {}
    for name in types:
        if "-" in name or name[0].islower():
            turned[name] = TAKEN.get(name) or camel(name)
    for name in others - types:
        if "-" in name:
            turned[name] = snake(name)
    return turned, types | others


# Facts whose names in camel case are those of types of src/.
TAKEN = {"Form-node": "IsFormNode", "View-node": "IsViewNode"}


LOCAL = re.compile(r"--[^\n]*|(?<![\w'.\-])(?P<name>[a-z][\w']*(?:-[\w']+)+)(?![\w'\-])")


def own(text):
    """The text of a file with what it binds for itself, in a `let`, a pattern or a `where`, in snake case."""
    away = set(re.findall(r"[\w'\-]+", " ".join(re.findall(r"^use [^{\n]*\{([^}]*)\}", text, re.M))))
    away |= set(re.findall(r"\bgoal\.([\w'\-]+)", text))
    return LOCAL.sub(lambda m: m[0] if m["name"] is None or m["name"] in away else snake(m[0]), text)


def main():
    turned, known = mapping()
    together = {}
    for old, new in turned.items():
        together.setdefault(new, []).append(old)
    for new, olds in sorted(together.items()):
        if len(olds) > 1 or new in known:
            print("together:", new, olds, "known" if new in known else "", file=sys.stderr)
    if "--list" in sys.argv:
        for old in sorted(turned):
            print(old, turned[old])
        return
    word = re.compile(r"(?<![\w'\-])(?P<goal>goal\.)?(?P<name>" + NAME + r")(?![\w'\-])")

    def respell(text):
        return word.sub(lambda m: m[0] if m["goal"] else turned.get(m["name"], m["name"]), text)

    def quoted(text):
        return re.sub(r"`[^`\n]+`", lambda m: respell(m[0]), text)

    def antt(line):
        # A goal's answer keeps the goal's name.
        code, dash, said = line.partition("--") if line.lstrip().startswith("--") else (line, "", "")
        return respell(code) + dash + quoted(said)

    def rust(line):
        if '"' in line:
            return line
        code, slashes, said = line.partition("//")
        return respell(code) + slashes + quoted(said)

    for folder, dirs, files in os.walk("."):
        dirs[:] = sorted(d for d in dirs if d not in ("out", ".git", "target"))
        for name in sorted(files):
            path = os.path.join(folder, name)
            if name.endswith(".antt"):
                turn = antt
            elif name.endswith(".rt") and path.startswith("./crates"):
                turn = rust
            elif name == "README.md" or (name.endswith(".md") and folder == "./docs"):
                turn = quoted
            else:
                continue
            with open(path, encoding="utf-8") as f:
                before = f.read()
            after = "\n".join(turn(line) for line in before.split("\n"))
            if name.endswith(".antt"):
                after = own(after)
            if after != before:
                with open(path, "w", encoding="utf-8") as f:
                    f.write(after)


main()
