#!/usr/bin/env python3
"""Brings the repository's own definitions and lemmas to today's spelling: a name that begins with a small letter is in snake case.

usage: python3 tools/spelling.py      at the top, once, after /opt/rattle/port/port.py
"""
import os
import re
import subprocess

# Lemmas that would have their definition's name.
LEMMAS = {"as_lent", "count_next", "entry_in", "held_all", "held_in", "is_same", "is_state", "no_value", "of_guard", "pair_row", "runs_as", "same_bytes", "sums_at", "text_in", "third_of"}
WORD = re.compile(r"[^\s(){}\[\];,.λ:=|↦«»\"`→×≡]+")
RUST = re.compile(r"[A-Za-z_][A-Za-z0-9_']*(?:-[A-Za-z0-9_']+)*")


def files(root, *ends):
    for folder, dirs, names in os.walk(os.path.join(root, "crates")):
        dirs[:] = sorted(d for d in dirs if d != "out")
        for name in sorted(names):
            if name.endswith(ends):
                yield os.path.join(folder, name)


def read(path):
    with open(path, encoding="utf-8") as f:
        return f.read()


def uncommented(text):
    return re.sub(r"(?m)--.*$", "", text)


def snake_part(part):
    if not re.match(r"[a-zα-ω]", part):
        return part
    part = re.sub(r"(?<=[a-z0-9'])(?=[A-Z])", "_", part)
    part = re.sub(r"(?<=[A-Z])(?=[A-Z][a-z])", "_", part)
    return part.lower()


def snake(word):
    if "_" in word:
        return word
    return "-".join(snake_part(p) for p in word.split("-"))


def names(root):
    own = set(os.listdir(os.path.join(root, "crates")))
    library, found = set(), set()
    for path in files(root, ".antt"):
        text = uncommented(read(path))
        for m in re.finditer(r"use ([\w.+'-]+)\.\{([^}]*)\}", text):
            head = m.group(1).split(".")
            if head[0] != "Rattle" or head[1] not in own:
                library |= set(re.split(r"[\s,]+", m.group(2)))
        for m in WORD.finditer(text):
            word = m.group(0)
            if re.match(r"[a-zα-ω]", word) and re.search(r"[A-Z]", word):
                found.add(word)
    turned = {w: snake(w) for w in found if w not in library}
    return {a: b for a, b in turned.items() if a != b}


def lemmas(line):
    path = re.match(r"use [^{]*", line)
    start = path.end() if path else 0

    def turn(m):
        plain = m.group(0) in LEMMAS and m.start() >= start and line[m.end() : m.end() + 1] != "."
        return m.group(0) + "_lem" if plain else m.group(0)

    return WORD.sub(turn, line)


def main():
    root = "."
    table = names(root)
    for path in files(root, ".antt"):
        text = read(path)
        new = "\n".join(lemmas(line) for line in text.split("\n"))
        new = WORD.sub(lambda m: table.get(m.group(0), m.group(0)), new)
        if new != text:
            with open(path, "w", encoding="utf-8") as f:
                f.write(new)
    for path in files(root, ".rt"):
        text = read(path)
        new = RUST.sub(lambda m: table.get(m.group(0), m.group(0)), text)
        if new != text:
            with open(path, "w", encoding="utf-8") as f:
                f.write(new)
    for crate in sorted(os.listdir("crates")):
        subprocess.run(["rt", "fmt"], cwd=os.path.join("crates", crate), check=True, stdout=subprocess.DEVNULL)


main()
