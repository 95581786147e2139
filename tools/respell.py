#!/usr/bin/env python3
"""Brings this repository's own definitions and lemmas to snake case: `step-of` becomes `step_of`.

usage: tools/respell.py [--check]      at the top of a checkout, after the kit's port.py

Own is a name with a dash that a text below crates/ declares: a definition, a lemma, a constructor, a field, a binder or a name of a
`let`. A type gets camel case, all else snake case. A name of the library, and a label that Rattle makes (`loop-i-init`), keeps its
dashes. Comments turn in code spans alone, and strings never. Two names that would fall together in a file are reported, and nothing
is written then; OTHER and BROUGHT_IN give those that would another name.
"""
import collections
import os
import re
import sys

NAME = r"[A-Za-z_][A-Za-z0-9_']*(?:-[A-Za-z0-9_']+)+"
WORD = re.compile(r"(?<![A-Za-z0-9_'\-])" + NAME)
PLAIN = re.compile(r"(?<![A-Za-z0-9_'\-])[A-Za-z_][A-Za-z0-9_']*(?![A-Za-z0-9_'\-])")
QUIET = re.compile(r'"(?:[^"\\\n]|\\.)*"|(?:(?<=\s)|(?<=^))--(?=\s|$)[^\n]*', re.M)
RUST_QUIET = re.compile(r'"(?:[^"\\]|\\.)*"|//[^\n]*')
SPAN = re.compile(r"`[^`\n]+`")
USE = re.compile(r"\buse ([A-Za-z0-9_.'\-]+?)\.?(\{[^}]*\})?(?: as ([^\s;]+))?\s*(?:;|$)", re.M)
MADE = re.compile(r"/proofs/(?:.*/)?(?:Answers|Invariants)(?:/.*)?\.antt$")
# Labels that Rattle makes, which some lemma of ours is called too.
HEADS = re.compile(r"(?:loop|invariant|decreases|returns|if|in|then|else|from-residual|overflow|index)-")

# Definitions that would have the name of a Rust function of a file that cites them.
OTHER = {
    "answer-line": "line_of_answer",
    "carried-text": "text_carried",
    "granted-line": "line_of_granted",
    "is-granted": "ends_granted",
    "refusal-line": "line_of_refusal",
    "step-text": "text_of_step",
    "steps-text": "text_of_steps",
    "turns-suffice": "turns_are_enough",
}
# A definition that is brought into one file under another name.
BROUGHT_IN = {("crates/wire/src/read_entry.rt", "kind-of"): "kind_meant"}
# These meet there under one name and are no clash: one is a Rust function, the other is brought in by another name.
NO_CLASH = {"meet-arguments"}

DECLARE = [
    re.compile(r"^[ \t]*(?:(?:abbrev|pub|rec|private|unfoldable|opaque|data|record|instance|irreducible|mutual) +)*(" + NAME + r")(?= *(?:\{[^}\n]*\} *)*:)", re.M),
    re.compile(r"^[ \t]*(?:abbrev +)?(?:pub +)?(?:data|record) +(" + NAME + r")", re.M),
    re.compile(r"\blet +(" + NAME + r")(?= *[:=])"),
    re.compile(r"\bas +(" + NAME + r")"),
]
BINDER = re.compile(r"[({]((?:[A-Za-z_ρσμτφψαβ][A-Za-z0-9_'\-]* +)*)(" + NAME + r")((?: +[A-Za-z_][A-Za-z0-9_'\-]*)*) *:")
LAMBDA = re.compile(r"λ ((?:\(?[^\s().]+\)? ?)+)\.")
ROW = re.compile(r"^[ \t]*((?:[A-Za-z][A-Za-z0-9_'\-]* +)+):", re.M)


def files(root):
    for folder, dirs, names in os.walk(os.path.join(root, "crates")):
        dirs[:] = sorted(d for d in dirs if d != "out")
        for name in sorted(names):
            if name.endswith((".antt", ".rt")):
                yield os.path.join(folder, name)


def bare(path, text):
    quiet = RUST_QUIET if path.endswith(".rt") else QUIET
    return quiet.sub(lambda m: re.sub(r"[^\n]", " ", m[0]), text)


def declared(path, text):
    """The names with a dash that a text declares."""
    t, found = bare(path, text), set()
    made = bool(MADE.search(path))
    if path.endswith(".rt"):
        for m in re.finditer(r"ghost use ([^;]*);", t):
            found |= {a for a in re.findall(r" as (" + NAME + r")", m[1])}
        return found
    for pattern in DECLARE if not made else DECLARE[2:3]:
        found |= set(pattern.findall(t))
    for m in BINDER.finditer(t):
        found |= {w for w in (m[1] + m[2] + m[3]).split() if "-" in w}
    if not made:
        for m in ROW.finditer(t):
            found |= {w for w in m[1].split() if re.fullmatch(NAME, w)}
    for m in LAMBDA.finditer(t):
        found |= {w.strip("()") for w in m[1].split() if re.fullmatch(NAME, w.strip("()"))}
    return found


def imported(path, text):
    """The names with a dash that a text takes from a library."""
    found = set()
    for m in USE.finditer(bare(path, text)):
        if m[1].startswith(("Rattle.std", "Rattle.core", "mathlib", "Prim", "lib.")):
            found |= set(WORD.findall(m[2] or ""))
    return found


def snake(name):
    if name in OTHER:
        return OTHER[name]
    if name[0].isupper() and len(name.split("-")[0]) > 1:
        return "".join(w[0].upper() + w[1:] for w in name.split("-"))
    return name.replace("-", "_")


def turned(path, text, new, keep):
    """The text with its own names respelled."""
    made = bool(MADE.search(path))
    quiet = RUST_QUIET if path.endswith(".rt") else QUIET

    def word(m):
        w = m[0]
        if w not in new or w in keep or (made and HEADS.match(w)):
            return w
        return BROUGHT_IN.get((path, w), new[w])

    def code(t):
        return WORD.sub(word, t)

    out, at = [], 0
    for m in quiet.finditer(text):
        out.append(code(text[at : m.start()]))
        out.append(m[0] if m[0].startswith('"') else SPAN.sub(lambda s: code(s[0]), m[0]))
        at = m.end()
    out.append(code(text[at:]))
    t = "".join(out)
    for (p, w), other in BROUGHT_IN.items():
        if p == path:
            t = re.sub(r"(ghost use [^;]*\{[^}]*)\b" + other + r"\b", r"\1" + f"{new[w]} as {other}", t, count=1)
    # `x as x` says nothing
    return re.sub(r"\b([A-Za-z][\w']*) as \1\b(?!['-])", r"\1", t)


def main():
    root = os.getcwd()
    texts = {os.path.relpath(p, root): open(p, encoding="utf-8").read() for p in files(root)}
    own = set().union(*(declared(p, t) for p, t in texts.items()))
    foreign = {p: imported(p, t) for p, t in texts.items()}
    new = {n: snake(n) for n in own}
    bad = 0
    for p, t in texts.items():
        plain = set(PLAIN.findall(bare(p, t)))
        for w in sorted({w for w in WORD.findall(bare(p, t)) if w in own} - foreign[p]):
            if BROUGHT_IN.get((p, w), new[w]) in plain and w not in NO_CLASH:
                print(f"falls together: {w} in {p}")
                bad += 1
    same = collections.defaultdict(set)
    for w, n in new.items():
        same[n].add(w)
    for n, ws in sorted(same.items()):
        if len(ws) > 1:
            print(f"falls together: {', '.join(sorted(ws))}")
            bad += 1
    print(len(own), "names of the repository's own")
    if bad or "--check" in sys.argv:
        raise SystemExit(bool(bad))
    for p, t in texts.items():
        u = turned(p, t, new, foreign[p])
        if u != t:
            with open(os.path.join(root, p), "w", encoding="utf-8") as f:
                f.write(u)


if __name__ == "__main__":
    main()
