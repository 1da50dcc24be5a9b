#!/usr/bin/env python3
"""Counts, in crates/*/src at a commit, the places that an older form of the language left behind.

    tools/count_places.py [COMMIT]      the working tree where no commit is given

It prints each place under its point, then one line of counts. What no pattern can tell (which functions are
twins, which parameters belong together) is listed by hand in docs/DESIGN-PASS.md.
"""
import glob
import re
import subprocess
import sys

POINTS = {
    "1 passing an Option or a Result on by hand": [
        r"(?:None|Err\(\w+\)) => (?:return )?(?:None|Err\()[^\n]*",
        r"Err\(\w+\) => Reply::Refused\(\w+\)",
        r"let \w+\(\w+\) = [^;]*? else \{\s*return None;",
    ],
    "1 an enum of the shape of an Option or a Result": [
        r"enum \w+ \{(?:\s*///[^\n]*)*\s*\w+(?:\(\w+\))?,(?:\s*///[^\n]*)*\s*\w+\(\w+\),?\s*\}",
        r"enum \w+ \{(?:\s*///[^\n]*)*\s*\w+\(\w+\),(?:\s*///[^\n]*)*\s*\w+,?\s*\}",
    ],
    "1 a number that means nothing": [r"-> u8\n\s*ensures[^\n]*(?:\n\s*ensures[^\n]*)*\n\{\n\s*0\n\}"],
    "3 a loop over indices, or a count by hand": [
        r"for \w+ in [^\n{]*\.\.[^\n{]*\{",
        r"while [^\n{]*[<>!]=? ?\w+ \{",
        r"\b(?:count|left|len|n) [+-]= 1;",
        r"for \(i, \w+\) in [^\n{]*enumerate\(\) \{",
    ],
    "4 order, conversion or printing by hand": [
        r"fn at_most\(",
        r"pub fn (?:number|word|text|image|from_image)\((?:self|image)[^\n]*",
        r"impl fmt::Display for [^\n]*",
        r"fn (?:digit_count|text_length|put_natural|put_signed|put_number|natural|negated|number)\(",
    ],
    "5 parameters that travel together": [
        r"rack: &R,\s*rule: &P",
        r"rack: &mut R,\s*rule: &P",
        r"low: Option<K>, high: K",
        r"rule: &P,(?:\s*\w+: \w+,)* a: i32, b: i32|\(a: i32, b: i32, shot",
        r"(?:fn \w+(?:<[^\n]*>)?\([^)]*?)speed: i32,\s*lead: i32,\s*weight: i32,\s*stuff: i32",
    ],
    "6 a buffer with a length beside it": [
        r"let mut \w+ = \[[^;]*; (?:512|MOST_SHOTS)\]",
        r"&mut \[\w+\],\n\s*count: usize",
        r"\w+\[count\] = ",
    ],
    "7 a switch on the step, a table of functions": [r"\[fn\(", r"step: u8"],
}


def sources(commit):
    if commit is None:
        for path in sorted(glob.glob("crates/*/src/*.rt")):
            yield path, open(path, encoding="utf-8").read()
    else:
        names = subprocess.run(
            ["git", "ls-tree", "-r", "--name-only", commit, "crates"], capture_output=True, text=True, check=True
        ).stdout.split()
        for path in names:
            if re.fullmatch(r"crates/\w+/src/\w+\.rt", path):
                yield path, subprocess.run(
                    ["git", "show", f"{commit}:{path}"], capture_output=True, text=True, check=True
                ).stdout


def main():
    files = list(sources(sys.argv[1] if len(sys.argv) > 1 else None))
    counts = {}
    for point, patterns in POINTS.items():
        found = set()
        for path, text in files:
            for pattern in patterns:
                for match in re.finditer(pattern, text):
                    line = text.count("\n", 0, match.start()) + 1
                    words = " ".join(match.group(0).split())
                    found.add((path, line, words[:90]))
        counts[point] = len(found)
        print(f"\n{point}: {len(found)}")
        for path, line, words in sorted(found):
            print(f"  {path}:{line}: {words}")
    print("\n" + "; ".join(f"{point}: {count}" for point, count in counts.items()))


main()
