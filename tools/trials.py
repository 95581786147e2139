#!/usr/bin/env python3
"""A second implementation of the book format, from docs/BOOK-FORMAT.md, in plain Python.

It makes the input of the crate `trials` (a book a line) and what the program must print of it:
    tools/trials.py crates/trials
Nothing of it is used by the proved code.
"""
import random
import sys

WIDTHS = {"number": 4, "mark": 3}  # accession numbers and shelf marks
MOST_BYTES, MOST_ENTRIES, MOST_CELLS = 65535, 1024, 64


class Fault(Exception):
    def __init__(self, number, place, entry, layer):
        super().__init__(number)
        self.line = f"fault {number} place {place} entry {entry} layer {layer}"


def field(tag, contents):
    return bytes([tag, len(contents) >> 8, len(contents) & 255]) + bytes(contents)


def first_field(data, fail):
    """The tag, the length and the contents of the field that the bytes begin with."""
    if len(data) < 3:
        fail(7)
    tag, size = data[0], data[1] * 256 + data[2]
    if len(data) < 3 + size:
        fail(7)
    return tag, size, data[3:3 + size]


def contents_of(kind, data, place, entry):
    """The kinds of the cells, the head and the body of an entry, or a Fault."""
    nodes, at = [], 0
    goals = None
    while at < len(data):
        here = place + at

        def fail(number, layer="entry"):
            raise Fault(number, here, entry, layer)

        if goals is not None:
            fail(12)
        tag, size, inner = first_field(data[at:], fail)
        if tag not in (16, 17, 18, 19):
            fail(8)
        low, high = {16: (0, 0), 17: (WIDTHS[kind], WIDTHS[kind]), 18: (2, 6), 19: (1, 9)}[tag]
        if not low <= size <= high:
            fail(9)
        if tag != 19 and len(nodes) >= MOST_CELLS:
            fail(13)
        if tag == 18 and any(a >= len(nodes) for a in inner[2:]):
            fail(10)
        if tag == 19 and any(g >= len(nodes) or not nodes[g] for g in inner):
            fail(10)
        if tag == 17 and kind == "mark" and not 65 <= inner[0] <= 90:
            fail(11, "leaf")
        if tag == 19:
            goals = inner
        else:
            nodes.append(tag == 18)
        at += 3 + size
    return nodes, goals


def listing(kind, data):
    """The lines of the listing."""
    if len(data) > MOST_BYTES:
        return ["fault 13 place 0 entry 0 layer book"]
    lines, at = [], 0
    try:
        while at < len(data):
            entry = len(lines)

            def fail(number):
                raise Fault(number, at, entry, "book")

            tag, size, inner = first_field(data[at:], fail)
            if tag not in (1, 2):
                fail(8)
            if entry >= MOST_ENTRIES:
                fail(13)
            nodes, goals = contents_of(kind, inner, at + 3, entry)
            if goals is None or (tag == 2 and len(goals) > 1):
                fail(12)
            lines.append(f"{entry} {'clause' if tag == 1 else 'cofact'} {len(nodes)} {len(goals) - 1}")
            at += 3 + size
    except Fault as fault:
        return lines + [fault.line]
    return lines + [f"entries {len(lines)}"]


VAR = field(16, [])
LEAF = field(17, [0, 0, 1, 2])


def node(symbol, *args):
    return field(18, [symbol >> 8, symbol & 255, *args])


def goals(head, *body):
    return field(19, [head, *body])


def clause(*parts):
    return field(1, b"".join(parts))


def cofact(*parts):
    return field(2, b"".join(parts))


FACT = clause(node(1), goals(0))


def by_hand():
    """Every cause in each layer where it can come, and the limits."""
    sample = bytes.fromhex("02000D10000012000300010013000101")
    yield b""
    yield sample
    yield sample[:15]
    # 7: a field that runs past what encloses it
    yield FACT + b"\x01"
    yield FACT + b"\x01\x00"
    yield FACT + b"\x01\x00\x01"
    yield clause(b"\x10\x00\x01")
    yield clause(VAR, b"\x12\x00")
    yield FACT + clause(VAR, b"\x12\x00\x03\x00\x01") + FACT
    # 8: a wrong tag
    yield b"\x03\x00\x00"
    yield FACT + b"\x00\x00\x00"
    yield clause(field(15, []))
    yield clause(field(20, []), goals(0))
    yield FACT + clause(VAR, field(1, []))
    # 9: a wrong length
    yield clause(field(16, [0]))
    yield clause(field(17, [0, 0, 0]))
    yield clause(field(17, [0, 0, 0, 0, 0]))
    yield clause(field(18, [0]))
    yield clause(VAR, field(18, [0, 1, 0, 0, 0, 0, 0]))
    yield clause(node(1), field(19, []))
    yield clause(node(1), field(19, [0] * 10))
    # 10: an argument that is no lower cell, a head or goal that is no node
    yield clause(node(1, 0), goals(0))
    yield clause(VAR, node(1, 1), goals(1))
    yield FACT + clause(VAR, node(1, 0, 2), goals(1))
    yield clause(VAR, goals(0))
    yield clause(node(1), goals(1))
    yield clause(LEAF, node(1, 0), goals(1, 0))
    yield clause(node(1), goals(0, 0, 7))
    # 12: a field after goals, no goals, a co-fact with a body
    yield clause(node(1), goals(0), VAR)
    yield clause(node(1), goals(0), b"\x63")
    yield clause()
    yield FACT + clause(VAR, node(1, 0)) + FACT
    yield cofact(node(1), goals(0, 0))
    # limits: cells, body goals, entries, bytes
    yield clause(node(1), *[VAR] * 63, goals(0))
    yield clause(node(1), *[VAR] * 64, goals(0))
    yield clause(*[VAR] * 64, node(1, 63), goals(64))
    yield clause(node(1), goals(0, *[0] * 8))
    yield clause(VAR, VAR, VAR, VAR, node(65535, 0, 1, 2, 3), goals(4, 4))
    yield FACT * 1024
    yield FACT * 1025
    yield FACT * 1024 + b"\x03"
    yield FACT * 1024 + b"\x03\x00\x00"
    yield (FACT * 5462)[:65535]
    yield (FACT * 5462)[:65536]
    yield bytes(65535)
    yield bytes(65536)
    wide = clause(*[LEAF] * 63, node(7, 0, 1, 2), goals(63, 63))
    yield wide * (65535 // len(wide))


def marks():
    """Shelf marks: letters, other first bytes, and the order of the tests."""
    for first in (64, 65, 90, 91, 0, 255):
        yield clause(field(17, [first, 1, 2]), node(1, 0), goals(1))
    yield clause(field(17, [65, 1]), node(1, 0), goals(1))
    yield clause(field(17, [0, 0, 0, 0]), node(1, 0), goals(1))
    yield FACT + clause(node(1), field(17, [97, 0, 0]), goals(0)) + FACT
    yield clause(node(1), *[VAR] * 63, field(17, [0, 0, 0]), goals(0))
    yield clause(node(1), *[VAR] * 62, field(17, [0, 0, 0]), goals(0))


def damaged(seed, count):
    """Good books with a few bytes changed, cut, doubled or left out."""
    rng = random.Random(seed)
    for _ in range(count):
        book = b""
        for _ in range(rng.randint(1, 4)):
            parts, cells = [], rng.randint(1, 6)
            kinds = []
            for cell in range(cells):
                kind = rng.choice("vln") if cell + 1 < cells else "n"
                kinds.append(kind)
                if kind == "v":
                    parts.append(VAR)
                elif kind == "l":
                    parts.append(field(17, [rng.randrange(256) for _ in range(4)]))
                else:
                    args = [rng.randrange(cell) for _ in range(rng.randint(0, min(4, cell)))] if cell else []
                    parts.append(node(rng.randrange(65536), *args))
            heads = [c for c in range(cells) if kinds[c] == "n"]
            if rng.random() < 0.3:
                book += cofact(*parts, goals(rng.choice(heads)))
            else:
                book += clause(*parts, goals(*[rng.choice(heads) for _ in range(rng.randint(1, 5))]))
        book = bytearray(book)
        for _ in range(rng.randint(0, 3)):
            at = rng.randrange(len(book)) if book else 0
            what = rng.randrange(4)
            if what == 0 and book:
                book[at] = rng.choice([0, 1, 2, 3, 16, 17, 18, 19, 20, rng.randrange(256)])
            elif what == 1:
                del book[at:]
            elif what == 2 and book:
                del book[at]
            elif book:
                book.insert(at, rng.choice([0, 1, 16, 19, rng.randrange(256)]))
        yield bytes(book)


def tokens(data):
    """The book as words: hexadecimal bytes, and WORD*N for N of them in a row."""
    for size in (12, 457):
        if len(data) > 4 * size and data[:size] * (len(data) // size) == data[:len(data) // size * size]:
            rest = data[len(data) // size * size:]
            return f"{data[:size].hex()}*{len(data) // size}" + (f" {rest.hex()}" if rest else "")
    if len(data) > 64 and data == data[:1] * len(data):
        return f"{data[:1].hex()}*{len(data)}"
    return data.hex()


def main(folder):
    books = [("number", b) for b in by_hand()] + [("mark", b) for b in marks()]
    books += [("number", b) for b in damaged(7, 400)]
    with open(f"{folder}/stdin", "w") as f:
        for kind, book in books:
            f.write(f"{kind} {tokens(book)}\n")
    with open(f"{folder}/stdout", "w") as f:
        for number, (kind, book) in enumerate(books):
            lines = listing(kind, book)
            f.write(f"{number}: {len(lines) - 1} lines, {lines[-1]}\n")
        f.write(f"books {len(books)}\n")


main(sys.argv[1])
