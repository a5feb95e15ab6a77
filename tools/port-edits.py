#!/usr/bin/env python3
"""Brings the must-fail edits to the spelling of today's Rattle, once, after its port.py and tools/port-names.py.

    python3 tools/port-edits.py        at the top of the repository

Each edit is taken from the commit LANDED, and the words of its old and new lines are turned alike: names are in snake case, a projection is
written tight, as e.static for e .static, and names of the libraries are today's. Lines of code stay. Then each old line has to stand once in
its file; those that do not are told, and the exit status is 1.
"""
import importlib.util
import os
import re
import sys

sys.dont_write_bytecode = True

# port-names.py has a dash in its name, so it cannot be imported by name.
SPEC = importlib.util.spec_from_file_location("port_names", os.path.join(os.path.dirname(os.path.abspath(__file__)), "port-names.py"))
port_names = importlib.util.module_from_spec(SPEC)
SPEC.loader.exec_module(port_names)

# Names of the libraries.
LIBRARY = {"getD": "get_or", "Prim.Native.Nat._/_": "Prim.Native.Nat.◌/◌"}
# A module of the repository by its whole path.
MODULE = re.compile(r"^Rattle·(\w+)·specs\.specs\.")
# Lines of clauses, whose form is another today.
CLAUSES = {
    "    requires { ⌜ (at + length (now from) ≤ length (now to)) × (64 ≤ length (now from)) ⌝ }":
        "    requires { (at + length from.now ≤ length to.old) × (64 ≤ length from.now) }",
    "    requires { ⌜ (length (now from) ≤ length (now to)) × (64 ≤ length (now from)) ⌝ }":
        "    requires { (length from.now ≤ length to.old) × (64 ≤ length from.now) }",
}
# What an application cannot reach over.
OPERATORS = set("= + - * / % ^ ++ ∷ && || ≡ ≤ < → × ↔ : λ if then else let in".split())
PARTS = re.compile(r"\s+|[(){}\[\];,]|[^\s(){}\[\];,]+")
MIXED = re.compile(r"[a-z][\w']*[A-Z]")
PROJECTION = re.compile(r"\.[\w']")


def word(part):
    """A name as today's Rattle spells it."""
    part = MODULE.sub(r"Rattle.\1.specs.", part)
    if part in LIBRARY:
        return LIBRARY[part]
    return ".".join(port_names.snake(name) if MIXED.match(name) else name for name in part.split("."))


def tight(text):
    """Writes projections tight: (n .vid) is n.vid, and f x .vid is (f x).vid."""
    # for each open bracket what stands in it so far, and where the application at its end begins
    open_groups = [([], 0)]
    for part in PARTS.findall(text):
        group, start = open_groups[-1]
        if part in "([{":
            open_groups.append(([part], 1))
        elif part in ")]}" and len(open_groups) > 1:
            open_groups.pop()
            inside = group[1:]
            alone = part == ")" and len(inside) == 1 and re.search(r"\.[\w']+$", inside[0])
            open_groups[-1][0].append(inside[0] if alone else "".join(group) + part)
        elif PROJECTION.match(part) and len(group) > start:
            while group[-1].isspace():
                group.pop()
            reached = "".join(group[start:]).lstrip()
            space = [it for it in group[start : start + 1] if it.isspace()]
            several = len(group) - start - len(space) > 1
            group[start:] = [*space, (f"({reached})" if several else reached) + part]
        else:
            group.append(part)
            if part in OPERATORS or part in ";," or part.endswith("."):
                open_groups[-1] = (group, len(group))
    return "".join("".join(group) for group, _ in open_groups)


def turned(text):
    return tight("".join(word(part) for part in PARTS.findall(text)))


def port(path, text):
    """The edit as it is today, and its old lines that do not stand once."""
    crate = os.path.dirname(os.path.dirname(path))
    lines, lost, file = [], [], ""
    for line in text.split("\n"):
        head, space, rest = line.partition(" ")
        if head == "file:":
            file = rest
        elif head in ("old:", "new:"):
            rest = turned(rest) if file.endswith(".antt") else CLAUSES.get(rest, rest)
            if head == "old:" and port_names.read(f"{crate}/{file}").count(rest) != 1:
                lost.append(f"{path}: {file}: {rest}")
            line = head + space + rest
        lines.append(line)
    return "\n".join(lines), lost


def main():
    lost = []
    for path in port_names.files("crates/*/must-fail/*.edit"):
        before = port_names.landed(path)
        if before is None:
            continue
        text, its_lost = port(path, before)
        lost += its_lost
        with open(path, "w", encoding="utf-8") as file:
            file.write(text)
    for line in lost:
        print("does not stand once:", line)
    return 1 if lost else 0


if __name__ == "__main__":
    sys.exit(main())
