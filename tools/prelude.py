#!/usr/bin/env python3
"""Takes the words that the kit's Prelude has from there, and from `basis` only what the Prelude has not.

usage: python3 tools/prelude.py [FOLDER]     at the top of a checkout or in FOLDER, after respell.py

The gate wants the library's operators under the library's own name, so no crate can pass them on. Only `use` lines change, in .antt and .rt files.
What is done twice does nothing the second time.
"""
import os
import re
import subprocess
import sys

WORDS = set("""ℕ zero suc ◌+◌ ◌-◌ ◌*◌ ◌/◌ ◌%◌ ◌^◌ min ◌<◌ ◌≤◌ Bool true false not ◌&&◌ ◌||◌ cond eqb leb ltb List [] ◌∷◌ ◌++◌ map
length get_or take drop set replicate ◌≡◌ refl ◌⊎◌ ℤ pos negsuc ◌+ℤ◌ ◌-ℤ◌ ◌*ℤ◌ Float ◌↔◌""".split())
USE = re.compile(r"(?m)^(\s*)((?:ghost )?use) Rattle\.basis\.(specs|proofs)\.Names\.\{([^}]*)\}(;?)$")
PRELUDE = re.compile(r"(?m)^(\s*)((?:ghost )?use) Rattle\.std\.specs\.Prelude\.\{([^}]*)\}(;?)$\n?")


def names(listed):
    return [it.strip() for it in listed.split(",") if it.strip()]


def turned(text):
    taken = []

    def split(m):
        kept = [it for it in names(m[4]) if it.split(" as ")[0] not in WORDS]
        taken.extend(it for it in names(m[4]) if it.split(" as ")[0] in WORDS)
        line = f"{m[1]}{m[2]} Rattle.basis.{m[3]}.Names.{{{', '.join(kept)}}}{m[5]}" if kept else ""
        return f"\0{m[1]}{m[2]}\0{m[5]}\0" + line

    new = USE.sub(split, text)
    if not taken:
        return text
    there = PRELUDE.search(new)
    if there:
        listed = names(there[3])
        listed += [it for it in taken if it not in listed]
        new = new[: there.start()] + f"{there[1]}{there[2]} Rattle.std.specs.Prelude.{{{', '.join(listed)}}}{there[4]}\n" + new[there.end() :]
        first = re.compile(r"\0([^\0]*)\0([^\0]*)\0\n?")
        return first.sub("", new)
    unique = list(dict.fromkeys(taken))
    mark = re.compile(r"\0([^\0]*)\0([^\0]*)\0(.*)\n?")
    done = []

    def put(m):
        line = "" if done else f"{m[1]} Rattle.std.specs.Prelude.{{{', '.join(unique)}}}{m[2]}\n"
        done.append(1)
        return line + (m[3] + "\n" if m[3] else "")

    return mark.sub(put, new)


def main(root):
    top = os.path.join(root, "crates")
    for folder, below, files in os.walk(top):
        below[:] = sorted(b for b in below if b not in ("out", "must-fail"))
        for name in sorted(files):
            path = os.path.join(folder, name)
            if not name.endswith((".rt", ".antt")) or os.sep + "basis" + os.sep in path:
                continue
            with open(path, encoding="utf-8") as f:
                text = f.read()
            new = turned(text)
            if new != text:
                with open(path, "w", encoding="utf-8") as f:
                    f.write(new)
    for crate in sorted(os.listdir(top)):
        subprocess.run(["rt", "fmt"], cwd=os.path.join(top, crate), check=True, stdout=subprocess.DEVNULL)


if __name__ == "__main__":
    main(os.path.abspath(sys.argv[1] if len(sys.argv) > 1 else "."))
