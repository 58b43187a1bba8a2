#!/usr/bin/env python3
"""Respells the repository's own names as today's Rattle spells names, once, after the toolchain's port.py.

usage: python3 tools/respell.py        at the top of the repository

- A definition, a lemma, a field of a record or a constructor in specs/ and proofs/ whose name has dashes gets snake case
  (`level-round`: `level_round`), and upper camel case where it is a type (`Levels-least`: `LevelsLeast`).
- `getD` in a name is `get_or`, as the library calls it.
- The crate `check` is `plan_check`, since the toolchain has a library `check`.

Names that Rattle makes of the code, as those of goals and steps, are left alone, and so are strings.
"""

import os
import re
import sys
from collections import defaultdict

WORD = r"[^\s(){}\[\].,;:\"`λ→×≡≢∙∷∧∨⊎¬|]+"
DECLARED = re.compile(r"^\s*(?:\|\s*)?(?:(?:pub|abbrev|unfoldable|record|data|deriving) )*(" + WORD + r") (?:[({].*)?:(?!=)")
CRATES = {"check": "plan_check"}


def files(*endings):
    for top in ("crates", "docs"):
        for folder, _, names in os.walk(top):
            for name in sorted(names):
                if name.endswith(endings):
                    yield os.path.join(folder, name)
    if "README.md".endswith(endings):
        yield "README.md"


def read(path):
    with open(path, encoding="utf-8") as f:
        return f.read()


def new_name(name):
    name = name.replace("getD", "get_or")
    parts = name.split("-")
    if parts[0][0].isupper():
        return "".join(p[0].upper() + p[1:] for p in parts)
    return "_".join(parts)


def declared():
    """Every name that a file of antt declares, but for the answers to Rattle's own goals."""
    found = set()
    for path in files(".antt"):
        for line in read(path).splitlines():
            m = DECLARED.match(line)
            if m and not line.lstrip().startswith(("--", "let ", "use ")) and not re.search(r":\s*goal\.", line):
                found.add(m.group(1))
    return found


def renamed():
    names = declared()
    new = {n: new_name(n) for n in names if new_name(n) != n and "≢" not in n}
    together = defaultdict(set)
    for n in names:
        together[new.get(n, n)].add(n)
    clash = {k: v for k, v in together.items() if len(v) > 1}
    if clash:
        sys.exit(f"respell: names fall together: {clash}")
    return new


def respell(text, names, within=None):
    """The text with each whole word that is a name respelled; within: only in the parts that this pattern finds."""
    def swap(m):
        return names.get(m.group(0), m.group(0))
    word = re.compile(r"[^\s(){}\[\].,;:\"`|]+")
    if within is None:
        return word.sub(swap, text)
    return re.sub(within, lambda m: word.sub(swap, m.group(0)), text)


def outside_strings(text, names):
    parts = re.split(r'("(?:[^"\\\n]|\\.)*")', text)
    return "".join(p if i % 2 else respell(p, names) for i, p in enumerate(parts))


def crate_names(text, path):
    for old, new in CRATES.items():
        text = text.replace(f"Rattle.{old}.", f"Rattle.{new}.")
        if path.endswith(".rt"):
            text = re.sub(rf"^(\s*(?:pub )?use ){old}::", rf"\g<1>{new}::", text, flags=re.M)
    return text


def main():
    names = renamed()
    for path in files(".antt", ".rt", ".md"):
        old = read(path)
        if path.endswith(".md"):
            new = respell(old, names, r"`[^`\n]*`")
        elif path.endswith(".rt"):
            new = outside_strings(old, names)
        else:
            new = respell(old, names)
        new = crate_names(new, path)
        if new != old:
            with open(path, "w", encoding="utf-8") as f:
                f.write(new)
    with open("crates.txt", encoding="utf-8") as f:
        listed = f.read()
    for old, new in CRATES.items():
        listed = re.sub(rf"\b{old}\b", new, listed)
        if os.path.isdir(f"crates/{old}"):
            os.rename(f"crates/{old}", f"crates/{new}")
    with open("crates.txt", "w", encoding="utf-8") as f:
        f.write(listed)
    print(f"respell: {len(names)} names")


main()
