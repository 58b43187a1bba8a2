#!/usr/bin/env python3
"""Lists places in crates/*/src that today's Rattle can say more plainly.

usage: python3 tools/count_places.py [ROOT]      ROOT is a checkout; here by default

Each point is a handful of patterns: what they find is to be read, and what they miss is to be found by reading.
"""
import re
import sys
from collections import Counter, defaultdict
from pathlib import Path

root = Path(sys.argv[1] if len(sys.argv) > 1 else ".")
files = {p: p.read_text().split("\n") for p in sorted(root.glob("crates/*/src/*.rt"))}
found = defaultdict(list)


def note(point, path, line, text):
    found[point].append(f"{path.relative_to(root)}:{line}: {text.strip()[:110]}")


def code(line):
    return line.split("//")[0]


def block(lines, start):
    """The lines of the block that opens at or after a line."""
    depth, out = 0, []
    for line in lines[start:]:
        text = re.sub(r"ghost .*|b?'.'|\"[^\"]*\"", "", code(line))
        depth += text.count("{") - text.count("}")
        out.append(line)
        if depth <= 0 and "{" in "".join(out):
            break
    return out


def heads(lines):
    """Each function: its line, its signature and its clauses."""
    for i, line in enumerate(lines):
        if re.match(r"\s*(pub(\(crate\))? )?(const )?fn ", line):
            j, text = i, ""
            while j < len(lines) and not re.match(r"\s*\{|.*;\s*$", lines[j]) and not (j > i and lines[j].endswith(" {}")):
                text += " " + lines[j].strip()
                if lines[j].rstrip().endswith(" {"):
                    break
                j += 1
            yield i, text


line_patterns = {
    "1 numbers for kinds": [r"\.number\(\)( \{)?$", r"match call\[", r"-> \[u8; 4\]", r"\[\[u8; 5\]; 60\]"],
    "1 results by hand": [
        r"Ok\((\w+|\(\))\) => (return )?(Ok\(|\w+,)",
        r"Err\(\w+\) => (return )?(Err\(|Some\(|false|\w+::\w+,)",
        r"if let (Err|Some)\(fault\) =",
        r"let Ok\(.*\) =",
        r"let Some\(\w+\) = .* else \{",
        r"Some\(fault\) => ",
    ],
    "4 by hand": [
        r"impl .*\b(PartialEq|Eq|PartialOrd|Ord|Clone|Copy|Debug)\b.* for ",
        r"fn (at_most|is_sooner|comes_sooner|wins_tie|byte|letter|judgement|outcome|told|cell_bytes|moved)\b",
        r"Some\(Section::|b'[LNVP]' =>|Letter::\w+ => b'",
    ],
    "6 lengths beside buffers": [r"^\s*(pub(\(crate\))? )?(count|len|begins|stack|seen|gone): "],
    "7 switches and tables": [r"match (step|call|kind|which)\b", r": fn\(", r"\[fn\("],
}

clauses = Counter()
parameters = defaultdict(set)
where = defaultdict(set)
for path, lines in files.items():
    for i, line in enumerate(lines):
        text = code(line)
        for point, patterns in line_patterns.items():
            if any(re.search(p, text) for p in patterns):
                note(point, path, i + 1, line)
        if re.match(r"\s*(pub(\(crate\))? )?enum ", text):
            body = "".join(block(lines, i)[1:-1])
            body = re.sub(r"///[^\n]*?(?=\s{2,}|$)|\{[^}]*\}|\([^)]*\)", "*", body)
            variants = [v.strip() for v in body.split(",") if v.strip()]
            if len(variants) == 2 and sum("*" in v for v in variants) in (1, 2):
                note("1 like Option or Result", path, i + 1, line)
        loop = re.match(r"\s*for &?(\w+) in \(?0(u8|usize)?\.\.", text)
        if loop:
            name = loop.group(1)
            used = "\n".join(block(lines, i)[1:])
            if re.search(rf"\[(\d+ \* )?{name}( as usize)?( \+ 1)?\]|\({name} [%/]|{name} [%/]", used):
                note("3 index counted by hand", path, i + 1, line)
        if re.match(r"\s*(while|loop)\b", text):
            note("3 index counted by hand", path, i + 1, line)
    for i, head in heads(lines):
        signature = head.split(" requires ")[0].split(" ensures ")[0]
        result = signature.split("->")[1] if "->" in signature else ""
        if "&mut" in signature and re.search(r"\bbool\b", result):
            note("1 flags", path, i + 1, lines[i])
        if "Option<Fault>" in signature:
            note("1 faults as Option", path, i + 1, lines[i])
        name = re.search(r"fn (\w+)", head).group(1)
        here = f"{path.parent.parent.name}::{name}"
        for fact in re.findall(r"(?:requires|ensures)(?: \w+)? \{ (.*?) \}(?= requires| ensures|$| \{)", head):
            for part in re.split(r" × ", fact.strip()):
                part = re.sub(r"\b(self|marks|gone|ranks|links|run|held|wiring|network|result)\.(old|now|new)\b", r"\1", part.strip(" ()"))
                if len(part) > 12 and not part.startswith("result"):
                    where[(path.parent.parent.name, part)].add(here)
        names = [p.strip() for p in re.findall(r"[(,] ?(\w+: [^,)]+)", signature)]
        for a in range(len(names)):
            for b in range(a + 1, len(names)):
                parameters[(path.parent.parent.name, names[a], names[b])].add(here)

for (crate, fact), functions in sorted(where.items()):
    if len(functions) >= 3:
        found["5 facts in three contracts"].append(f"{crate}: {fact[:80]}: {len(functions)} functions")
for (crate, a, b), functions in sorted(parameters.items()):
    if len(functions) >= 3:
        found["5 parameters that travel together"].append(f"{crate}: {a}, {b}: {len(functions)} functions")

answers = sorted(root.glob("crates/*/proofs/**/Answers.antt"))
total = sum(len(p.read_text().split("\n")) - 1 for p in answers)
lemmas = sum(len(p.read_text().split("\n")) - 1 for p in root.glob("crates/*/proofs/*.antt"))
for point in sorted(found):
    print(f"{point}: {len(found[point])}")
    for place in found[point]:
        print(f"    {place}")
print(f"8 answers: {len(answers)} files, {total} lines; lemma files: {lemmas} lines")
