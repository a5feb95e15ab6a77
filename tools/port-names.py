#!/usr/bin/env python3
"""Brings the repository's own definitions and lemmas to the spelling of today's Rattle, once, after its port.py.

    python3 tools/port-names.py        at the top of the repository

A word is in snake case: storedBytes is stored_bytes, and bucket-below is bucket_below. Types, facts and modules keep their capitals. Where a
lemma and a definition fall together in a file, the lemma ends in _law. Names that Rattle makes (goals, steps of a function) keep their dashes.
Comments are those of the commit LANDED, with the names in them turned alike. It turns specs/, proofs/, the clauses of src/
and the names between backticks in the pages.
"""
import glob
import re
import subprocess

LANDED = "2288b60b6aed88970cfccdffb73c676b9a5d7699"

TOKEN = re.compile(r"[^\s(){}\[\];.,@\"λ]+")
DECLARED = re.compile(
    r"^[ ]*(?:(?:pub|unfoldable|abbrev|private) )*([^\s(){};.,:|=]+(?: [^\s(){};.,:|=]+)*)(?: \{[^{}]*\})? : ", re.M)
# words that port.py had turned and that are lemmas or fields beside a definition of that name: file patterns, word
TURNED = [
    ("crates/*/proofs/**/*.antt", "cells_fit"),
    ("crates/standing/specs/*.antt", "cells_fit"),
    ("crates/machine/proofs/CallCounts.antt", "is_state"),
    ("crates/rules/specs/FactsTheorems.antt", "look_up"),
    ("crates/rules/proofs/Facts.antt", "look_up"),
    ("crates/machine/proofs/Slips.antt", "look_up"),
    ("crates/standing/proofs/FreshStands.antt", "next_word"),
    ("crates/*/proofs/**/*.antt", "no_room"),
    ("crates/*/proofs/**/*.antt", "out_of_range"),
    ("crates/tags/proofs/**/*.antt", "swap_eight"),
    ("crates/tags/proofs/**/*.antt", "swap_four"),
]
# where such a word is a function of src/ or a step of its proof
KEPT_BEFORE = re.compile(r"(?:^|[^\w])(?:c|before|lengths|reading|proofs)\.$")


def snake(name):
    name = name.replace("-", "_")
    if re.match(r"^[a-z]", name):
        name = re.sub(r"(?<=[a-z0-9_'])([A-Z])", lambda m: "_" + m.group(1).lower(), name)
        name = re.sub(r"__+", "_", name)
    return name


def files(pattern):
    return sorted(f for f in glob.glob(pattern, recursive=True) if "/out/" not in f)


def read(path):
    with open(path, encoding="utf-8") as file:
        return file.read()


def landed(path):
    """The text at LANDED, or None where the file was not there under that name."""
    got = subprocess.run(["git", "show", f"{LANDED}:{path}"], capture_output=True)
    return got.stdout.decode() if got.returncode == 0 else None


def comment_at(line):
    """Where the comment of a line starts, or -1."""
    m = re.search(r"(^|\s)--(\s|$)", line)
    return m.start() + len(m.group(1)) if m else -1


def split(text):
    """Lines as pairs of code and comment."""
    pairs = []
    for line in text.split("\n"):
        at = comment_at(line)
        pairs.append((line, "") if at < 0 else (line[:at], line[at:]))
    return pairs


def own_crates():
    with open("crates.txt", encoding="utf-8") as file:
        return {line.split(":")[0].strip() for line in file if line.strip()}


def of_libraries(antt):
    """The names that the repository takes from the libraries of the kit."""
    own = own_crates()
    found = set()
    for path in antt + files("crates/*/src/**/*.rt"):
        for m in re.finditer(r"^(?:ghost )?use ([^\s{;]+)\.\{([^}]*)\}", read(path), flags=re.M):
            module = m.group(1).split(".")
            if module[0] == "Rattle" and module[1] in own:
                continue
            found.update(word.strip() for word in m.group(2).split(","))
    return found


def is_function(path):
    """Is it a file of the proof of one function?"""
    return path.count("/") > 3


def names():
    antt = files("crates/*/specs/**/*.antt") + files("crates/*/proofs/**/*.antt")
    library = of_libraries(antt)
    found = set()
    for path in antt:
        code = "\n".join(a for a, _ in split(read(path)))
        plain = re.sub(r"^use .*$", "", code, flags=re.M)
        for m in DECLARED.finditer(plain):
            found.update(m.group(1).split())
        for word in TOKEN.findall(plain):
            if re.match(r"^[a-z][\w']*[A-Z]", word) and "-" not in word:
                found.add(word)
            elif re.match(r"^[a-z]", word) and "-" in word and not is_function(path):
                found.add(word)
    found -= library
    whole = re.compile(r"^[a-z][\w'-]*$")
    found = {word for word in found if whole.match(word) and ("-" in word or re.search(r"[A-Z]", word))}
    definitions = {snake(word) for word in found if "-" not in word}
    mine = {}
    for word in found:
        new = snake(word)
        if "-" in word and (new in definitions or new in library):
            new += "_law"
        mine[word] = new
    return mine


BOUND = r"(?<![\w'\-·])%s(?![\w'\-·])"


def turner(mine):
    words = sorted(mine, key=len, reverse=True)
    pattern = re.compile(r"(?<![\w'\-·])(" + "|".join(re.escape(w) for w in words) + r")(?![\w'\-·])")

    def turn(text, keep=lambda before, word: False):
        def one(m):
            before = text[:m.start()]
            return m.group(0) if keep(before[-60:], m.group(0)) else mine[m.group(0)]
        return pattern.sub(one, text)

    return turn


# A step of a function's proof, as c.before.loop-test, is Rattle's name.
STEP = re.compile(r"(?:^|[^\w])(?:c|w|p|q|before)\.$")


def step(before, word):
    return "-" in word and bool(STEP.search(before))


def is_dashed_prose(before, word):
    return "-" in word and before.count("`") % 2 == 0


def main():
    mine = names()
    turn = turner(mine)
    for pattern, word in TURNED:
        for path in files(pattern):
            text = read(path)
            out = []
            at = 0
            for m in re.finditer(BOUND % re.escape(word), text):
                out.append(text[at:m.start()])
                out.append(word if KEPT_BEFORE.search(text[:m.start()][-40:]) else word + "_law")
                at = m.end()
            out.append(text[at:])
            with open(path, "w", encoding="utf-8") as file:
                file.write("".join(out))
    for path in files("crates/*/specs/**/*.antt") + files("crates/*/proofs/**/*.antt"):
        pairs = split(read(path))
        old = landed(path)
        comments = [c for _, c in pairs if c]
        before = [c for _, c in split(old) if c] if old is not None else []
        if len(before) == len(comments):
            comments = before
        said = iter(comments)
        lines = []
        in_function = is_function(path)
        for code, comment in pairs:
            code = turn(code, step if in_function else lambda b, w: False)
            if comment:
                comment = turn(next(said), is_dashed_prose)
            lines.append(code + comment)
        with open(path, "w", encoding="utf-8") as file:
            file.write("\n".join(lines))
    for path in files("crates/*/src/**/*.rt"):
        lines = []
        for line in read(path).split("\n"):
            prose = line.lstrip().startswith("//")
            lines.append(turn(line, is_dashed_prose if prose else lambda b, w: False))
        with open(path, "w", encoding="utf-8") as file:
            file.write("\n".join(lines))
    for path in files("docs/*.md") + ["README.md"] + files("tools/**/*.md") + files("tests/**/*.md"):
        text = read(path)
        new = re.sub(r"`[^`\n]+`", lambda m: turn(m.group(0)), text)
        if new != text:
            with open(path, "w", encoding="utf-8") as file:
                file.write(new)
    print(len(mine), "names")


if __name__ == "__main__":
    main()
