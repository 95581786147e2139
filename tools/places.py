#!/usr/bin/env python3
"""Counts the places of docs/DESIGN-PASS.md in crates/*/src: python3 tools/places.py [COMMIT], or of the working tree.

Each point has patterns over lines, or over the heads of functions. A match is a candidate: the page says which of them are
places, and what became of each. With -v every candidate is printed with its file and line."""
import re
import subprocess
import sys

LINES = {
    "1a an answer that says nothing": r"\(\) -> u8$",
    "1b an Option or Result taken apart and made again":
        r"None => (Err|return Err|None\b|false|true|0,|at,)|Err\(_\) =>|Err\((\w+)\) => (return )?(Err|Ok)|Ok\((\w+)\) => Ok\(\4\)|Some\(\w+\) => Ok\(|let Ok\(\w+\) =",
    "1c a number for a kind or a rule": r"(mode|rule): (u8|\d)|\.mode == \d|match (step\.mode|symbol|split\.tag|tag) |^\s+\d+ => |Some\([2-5]\)|_ => return Some\(2\)",
    "1d an own case for none": r"Nowhere",
    "3 a loop": r"^\s+(for|while|loop)\b",
    "4a a conversion of numbers by hand": r"\* 256|/ 256|% 256|\* 65536",
    "4b a conversion, comparison or text by a function": r"fn (same|code|from_code|number|of|at|kind_of|tag_of|digit|blank|is_granted|wrote|equated|compared|passed|refused|fit|put|is_node)\b|fn \w+_(text|line|message)\b",
    "6 an array with its length beside": r"^\s+(pub )?(cells|marks|arguments): \[",
    "7 a switch on what to do": r"^(pub )?enum Shape|^\s+open_joins: bool",
}


def sources(commit):
    if commit:
        names = subprocess.run(["git", "ls-tree", "-r", "--name-only", commit], capture_output=True, text=True).stdout
    else:
        names = subprocess.run(["git", "ls-files"], capture_output=True, text=True).stdout
    for name in names.split():
        if re.match(r"crates/\w+/src/.*\.rt$", name):
            if commit:
                text = subprocess.run(["git", "show", commit + ":" + name], capture_output=True, text=True).stdout
            else:
                text = open(name).read()
            yield name, text


def heads(text):
    for m in re.finditer(r"\bfn (\w+)(?:<[^(]*>)?\(([^)]*)\)( -> [^{;]*?)?(?=\n|\s*\{|;)", text):
        yield text.count("\n", 0, m.start()) + 1, m.group(1), m.group(2), m.group(3) or ""


def main():
    words = [w for w in sys.argv[1:] if w != "-v"]
    verbose = "-v" in sys.argv
    found = {}
    for name, text in sources(words[0] if words else None):
        for point, pattern in LINES.items():
            for number, line in enumerate(text.split("\n"), 1):
                if re.search(pattern, line) and not line.lstrip().startswith("//"):
                    found.setdefault(point, []).append((name, number, line.strip()))
        for number, fn, params, answer in heads(text):
            many = [p for p in params.split(",") if p.strip()]
            if len(many) >= 6:
                found.setdefault("5 six parameters or more", []).append((name, number, fn))
            if "bool" in answer and re.search(r"&mut (usize|Extent|Standing|Moment|\[)", params):
                found.setdefault("1e a flag beside a place that is written", []).append((name, number, fn))
    for point in sorted(found):
        print(f"{point}: {len(found[point])}")
        if verbose:
            for name, number, line in found[point]:
                print(f"    {name}:{number}: {line}")


if __name__ == "__main__":
    main()
