#!/usr/bin/env python3
"""Brings this repository's own names in antt to one spelling: snake case for definitions, lemmas,
fields and ghost members, and a dash only beside a name that begins with a capital (a type or a fact).

Run once, at the top, right after the kit's port.py. Names of the library, of src/ and of what the
check itself makes (goals, steps) keep their spelling. Prints each new name that already stood in a file.
"""
import glob
import os
import re
import sys

WORD = r"[\w'′\-]"
NAME = re.compile(r"(?<!" + WORD + r")([a-zA-Z_]" + WORD + r"*)")
DECLARED = re.compile(
    r"^\s*(?:(?:abbrev|unfoldable|pub|record|data|ruleset|mutual|ghost)\s+)*([a-zA-Z_]" + WORD + r"*)\s*"
    r"(?:\s(?:\{[^}]*\}|\([^)]*\))\s*)*:(?!=)\s*(\S*)"
)


# names that would otherwise fall together with another one, or with a function of src/
APART = {
    "atMost": "key_le",
    "slopeAtMost": "slope_le",
    "shotIn": "shot_of_bytes",
    "shotsIn": "shots_of_bytes",
    "riseTerm": "rise_part",
    "fallTerm": "fall_part",
    "count-on": "count_on_lem",
    "turn-exists": "turn_exists_lem",
    "rates-add-up": "rates_add_up_lem",
    "one-speed": "one_speed_lem",
    "p-above": "p_above_lem",
    "u-above": "u_above_lem",
}


def new_spelling(name):
    """`fooBar` and `foo-bar` become `foo_bar`; `Eq-both` and `to-Eq` keep their dash."""
    if name in APART:
        return APART[name]
    parts = name.split("-")
    parts = [p if p[:1].isupper() else re.sub(r"(?<=[a-z0-9])([A-Z])", lambda m: "_" + m.group(1).lower(), p) for p in parts]
    out = parts[0]
    for before, after in zip(parts, parts[1:]):
        plain = not before[:1].isupper() and not after[:1].isupper()
        out += ("_" if plain else "-") + after
    return out


def imported(text):
    """Names that a file takes from outside this repository's specs and proofs, or from generated modules."""
    names = set()
    for path, inner in re.findall(r"use (Rattle\.[^\s{;]*|[\w.]+)\.\{([^}]*)\}", text):
        own = any(path.startswith("Rattle." + c + ".") for c in CRATES)
        made = re.search(r"\.(Goals|Given|declared)(\.|$)", path)
        if not own or made:
            names.update(n.strip().split(" as ")[0] for n in inner.split(","))
    return names


def main():
    global CRATES
    CRATES = sorted(os.listdir("crates"))
    antt = sorted(glob.glob("crates/*/specs/*.antt") + glob.glob("crates/*/proofs/**/*.antt", recursive=True))
    rust = sorted(glob.glob("crates/*/src/*.rt"))
    edits = sorted(glob.glob("crates/*/must-fail/*.edit"))
    text = {f: open(f).read() for f in antt + rust + edits}

    foreign, declared, fields = set(), set(), set()
    for f in antt + rust:
        foreign |= imported(text[f])
    for f in antt:
        for line in text[f].split("\n"):
            if line.lstrip().startswith("--"):
                continue
            m = DECLARED.match(line)
            if m and not m.group(2).startswith(("goal.", "need.")):
                declared.add(m.group(1))
                if line[:1] == " " and "(" not in line.split(":")[0]:
                    fields.add(m.group(1))
    for f in rust:
        for m in re.finditer(r"^\s*ghost ([a-z]\w*)\s*[:=]", text[f], re.M):
            declared.add(m.group(1))
            fields.add(m.group(1))
    table = {n: new_spelling(n) for n in declared - foreign if new_spelling(n) != n}

    def line_of(line, f):
        if f.endswith(".rt") and line.lstrip().startswith("//"):
            return line

        def put(m):
            n = m.group(1)
            if n not in table:
                return n
            if m.start() and line[m.start() - 1] == "." and n not in fields:
                return n
            return table[n]

        return NAME.sub(put, line)

    for f, was in text.items():
        now = "\n".join(line_of(line, f) for line in was.split("\n"))
        if f.endswith(".antt"):
            now = aligned(now)
        if now != was:
            before = set(NAME.findall(was))
            olds = sorted(before & set(table))
            for i, old in enumerate(olds):
                if table[old] in before:
                    print(f"falls together: {f}: {old} and {table[old]}")
                for other in olds[i + 1:]:
                    if table[old] == table[other]:
                        print(f"falls together: {f}: {old} and {other}")
            open(f, "w").write(now)
    for n in sorted(table):
        print(n, table[n])


def aligned(text):
    """The list of names at a file's head, with its explanations in one column again."""
    lines = text.split("\n")
    rows = []
    for i, line in enumerate(lines):
        if not line.startswith("--"):
            break
        m = re.match(r"^--   (\S+(?:,? \S+)*?)  +(\S.*)$", line) or re.match(r"^--   (\S+) (\S.*)$", line)
        if m:
            rows.append((i, m.group(1), m.group(2)))
    wide = max((len(r[1]) for r in rows), default=0)
    for i, name, words in rows:
        lines[i] = "--   " + name.ljust(wide) + "   " + words
    return "\n".join(lines)


if __name__ == "__main__":
    sys.exit(main())
