#!/usr/bin/env python3
"""Gives the repository's own definitions and lemmas the spelling of today's Rattle, by the table beside this script.

usage: python3 tools/respell.py [FOLDER]     once, right after the kit's port.py, at the top of a checkout or in FOLDER

A line of respell.txt is an old name, the new one and, where only one file has it so, that file. Whole names are changed, in .antt files, in what
.rt files say outside of strings, and in what the pages quote. Functions of src/ keep their names: they are in snake case already, and no line names one.
Then the kit lays the files out. What is done twice does nothing the second time but for the lines of one file.
"""
import os
import re
import subprocess
import sys

HERE = os.path.dirname(os.path.realpath(__file__))
NAME = re.compile(r"[^\s(){}\[\],;:.λ`\"]+")
STRING = re.compile(r'("(?:[^"\\]|\\.)*")')
QUOTED = re.compile(r"(`[^`\n]*`)")


def table():
    everywhere, alone = {}, {}
    with open(os.path.join(HERE, "respell.txt"), encoding="utf-8") as lines:
        for line in lines:
            old, new, *where = line.split()
            if where:
                alone.setdefault(where[0], {})[old] = new
            else:
                everywhere[old] = new
    return everywhere, alone


def respelled(text, names):
    return NAME.sub(lambda m: names.get(m.group(0), m.group(0)), text)


def outside_comments(text, names):
    """In a comment only what it quotes is a name, or has a capital within: all else there is English."""
    capital = {old: new for old, new in names.items() if "-" not in old and old != old.lower()}
    lines = []
    for line in text.split("\n"):
        code, dashes, comment = line.partition("--")
        lines.append(respelled(code, names) + dashes + respelled(quoted(comment, names), capital))
    return "\n".join(lines)


def outside_strings(text, names):
    lines = []
    for line in text.split("\n"):
        parts = STRING.split(line)
        lines.append("".join(p if k % 2 else respelled(p, names) for k, p in enumerate(parts)))
    return "\n".join(lines)


def quoted(text, names):
    return "".join(respelled(p, names) if k % 2 else p for k, p in enumerate(QUOTED.split(text)))


def files(root):
    for folder, below, names in os.walk(root):
        below[:] = sorted(b for b in below if b not in ("out", "target", ".git", "must-fail", "landings", "tools"))
        for name in sorted(names):
            if name.endswith((".rt", ".antt", ".md")) and name != "PORT.md":
                yield os.path.join(folder, name)


def main(root):
    everywhere, alone = table()
    for path in files(root):
        with open(path, encoding="utf-8") as f:
            text = f.read()
        inside = os.path.relpath(path, os.path.join(root, "crates"))
        names = everywhere | alone.get(inside, {})
        if path.endswith(".antt"):
            new = outside_comments(text, names)
        elif path.endswith(".rt"):
            new = outside_strings(text, {old: new for old, new in names.items() if "-" not in old})
        else:
            new = quoted(text, {old: new for old, new in names.items() if not old.isalpha() or not old.islower()})
        if new != text:
            with open(path, "w", encoding="utf-8") as f:
                f.write(new)
    for crate in sorted(os.listdir(os.path.join(root, "crates"))):
        subprocess.run(["rt", "fmt"], cwd=os.path.join(root, "crates", crate), check=True, stdout=subprocess.DEVNULL)


if __name__ == "__main__":
    main(os.path.abspath(sys.argv[1] if len(sys.argv) > 1 else "."))
