#!/usr/bin/env python3
"""Sheets for people: writes one from a readable text, prints one as such a text, and draws a night. Standard library alone.

    tools/sheet.py write NIGHT.txt OUT.sheet
    tools/sheet.py show IN.sheet
    tools/sheet.py draw IN.sheet OUT.svg [ANSWER]

NIGHT.txt has a line for each thing; '#' begins a remark, and order matters only where it is said:

    tolerance 1e-12                relative tolerance of a pivot
    block 2                        a block of dimension 2; blocks are numbered from 0 as they come
    block 1 late                   a block that is moved behind the others
    order 1 0                      the old number of each new block (0 1 2 .. where there is no such line)
    stored 1 0: 2 3                the block in row 1 and column 0: its numbers row by row, rows parted by ';'
    right 8 8 1                    the right side, in old order

A number is written as Python writes it, or as its sixteen hexadecimal digits after 0x. Of a diagonal block all numbers are
written, though only those from the diagonal down are read. `show` prints a text that `write` turns into the same bytes; it
prints no text of a sheet whose tables do not fit together, and says what is wrong. Neither tests what `fit` tests: a sheet with a
dimension of 17 can be written and shown.

`draw` shows A as it is stored, by old numbers, and L in the order of elimination: blocks of A dark, blocks that only elimination
makes light. ANSWER is a file with the lines of `fit`; with it the scalars marked silent are drawn.
"""
import math
import pathlib
import struct
import sys

HEAD, PAIR, ENTRY = 16, 8, 12


class Bad(Exception):
    """What is wrong with a text or a sheet, in words."""


class Sheet:
    """The parts of a sheet. Floats are kept as their 64 bits, so that every NaN stays what it is."""

    def __init__(self):
        self.tolerance = 0
        self.dims, self.late, self.perm = [], [], []
        # (row, column, offset) of each stored block, and its numbers column by column
        self.contents, self.bodies = [], []
        self.right = []

    def scalars(self):
        return sum(self.dims)


# ---- numbers


def bits_of(word):
    """The 64 bits of a number as it is written."""
    try:
        if word.lower().startswith("0x"):
            bits = int(word, 16)
            if bits >> 64:
                raise Bad(f"{word} has more than sixteen digits")
            return bits
        return struct.unpack("<Q", struct.pack("<d", float(word)))[0]
    except ValueError:
        raise Bad(f"{word} is no number") from None


def word_of(bits):
    """A number as it is written: the shortest text that is read as the same bits."""
    number = struct.unpack("<d", struct.pack("<Q", bits))[0]
    if math.isnan(number):
        return f"0x{bits:016X}"
    return repr(number)


def count_of(word, what):
    if not word.isascii() or not word.isdigit() or int(word) >> 32:
        raise Bad(f"{what}: {word} is not a number from 0 to 4294967295")
    return int(word)


# ---- the readable text


def parse(text):
    """The sheet that a readable text describes."""
    sheet, order, stored = Sheet(), None, {}
    seen = set()
    for number, line in enumerate(text.splitlines(), 1):
        words = line.split("#")[0].replace(":", " : ").replace(";", " ; ").split()
        if not words:
            continue
        try:
            key, rest = words[0], words[1:]
            if key in ("tolerance", "order", "right"):
                if key in seen:
                    raise Bad(f"a second line '{key}'")
                seen.add(key)
            if key == "tolerance" and len(rest) == 1:
                sheet.tolerance = bits_of(rest[0])
            elif key == "block" and (len(rest) == 1 or len(rest) == 2 and rest[1] == "late"):
                sheet.dims.append(count_of(rest[0], "dimension"))
                sheet.late.append(len(rest) - 1)
            elif key == "order":
                order = [count_of(w, "order") for w in rest]
            elif key == "right":
                sheet.right = [bits_of(w) for w in rest]
            elif key == "stored" and len(rest) > 2 and rest[2] == ":":
                place = (count_of(rest[1], "column"), count_of(rest[0], "row"))
                if place in stored:
                    raise Bad(f"the block ({place[1]}, {place[0]}) a second time")
                stored[place] = rows_of(rest[3:])
            else:
                raise Bad("this line is not understood: " + line.strip())
        except Bad as why:
            raise Bad(f"line {number}: {why}") from None
    if "tolerance" not in seen:
        raise Bad("there is no line 'tolerance'")
    sheet.perm = list(range(len(sheet.dims))) if order is None else order
    if len(sheet.perm) != len(sheet.dims):
        raise Bad(f"'order' has {len(sheet.perm)} numbers, and there are {len(sheet.dims)} blocks")
    if len(sheet.right) != sheet.scalars():
        raise Bad(f"'right' has {len(sheet.right)} numbers, and there are {sheet.scalars()} scalars")
    lay_out(sheet, stored)
    return sheet


def rows_of(words):
    rows = [[]]
    for word in words:
        if word == ";":
            rows.append([])
        else:
            rows[-1].append(bits_of(word))
    return rows


def lay_out(sheet, stored):
    """Contents by column, then row, and the bodies back to back."""
    n = len(sheet.dims)
    offset = HEAD + (PAIR + 4) * n + ENTRY * len(stored)
    for (column, row), rows in sorted(stored.items()):
        if row >= n or column >= n:
            raise Bad(f"the block ({row}, {column}) is stored, and there are {n} blocks")
        height, width = sheet.dims[row], sheet.dims[column]
        if len(rows) != height or any(len(r) != width for r in rows):
            raise Bad(f"the block ({row}, {column}) has not {height} rows of {width} numbers")
        body = [rows[r][c] for c in range(width) for r in range(height)]
        sheet.contents.append((row, column, offset))
        sheet.bodies.append(body)
        offset += 8 * len(body)


def text_of(sheet):
    lines = [f"tolerance {word_of(sheet.tolerance)}"]
    for dim, late in zip(sheet.dims, sheet.late):
        lines.append(f"block {dim}" + (" late" if late else ""))
    lines.append(" ".join(["order"] + [str(p) for p in sheet.perm]))
    for (row, column, _), body in zip(sheet.contents, sheet.bodies):
        height, width = sheet.dims[row], sheet.dims[column]
        rows = [" ".join(word_of(body[r + c * height]) for c in range(width)) for r in range(height)]
        lines.append(f"stored {row} {column}: " + "; ".join(rows))
    lines.append(" ".join(["right"] + [word_of(b) for b in sheet.right]))
    return "\n".join(lines) + "\n"


# ---- the bytes


def to_bytes(sheet):
    words = [w for pair in zip(sheet.dims, sheet.late) for w in pair] + sheet.perm + [w for e in sheet.contents for w in e]
    numbers = [b for body in sheet.bodies for b in body] + sheet.right
    head = struct.pack("<IIQ", len(sheet.dims), len(sheet.contents), sheet.tolerance)
    return head + struct.pack(f"<{len(words)}I", *words) + struct.pack(f"<{len(numbers)}Q", *numbers)


def from_bytes(data):
    if len(data) < HEAD:
        raise Bad(f"{len(data)} bytes are shorter than a sheet's first {HEAD}")
    sheet = Sheet()
    n, m, sheet.tolerance = struct.unpack_from("<IIQ", data)
    first = HEAD + (PAIR + 4) * n + ENTRY * m
    if len(data) < first:
        raise Bad(f"{n} blocks and {m} stored blocks take {first} bytes before the first body, and the sheet has {len(data)}")
    pairs = struct.unpack_from(f"<{2 * n}I", data, HEAD)
    sheet.dims, sheet.late = list(pairs[0::2]), list(pairs[1::2])
    sheet.perm = list(struct.unpack_from(f"<{n}I", data, HEAD + PAIR * n))
    offset = first
    for e in range(m):
        row, column, told = struct.unpack_from("<III", data, HEAD + (PAIR + 4) * n + ENTRY * e)
        if row >= n or column >= n:
            raise Bad(f"entry {e} of the contents is the block ({row}, {column}), and there are {n} blocks")
        if told != offset:
            raise Bad(f"entry {e} of the contents has the offset {told}, and its body lies at {offset}")
        area = sheet.dims[row] * sheet.dims[column]
        if offset + 8 * area > len(data):
            raise Bad(f"the body of entry {e} of the contents goes past the sheet's end")
        sheet.contents.append((row, column, told))
        sheet.bodies.append(list(struct.unpack_from(f"<{area}Q", data, offset)))
        offset += 8 * area
    if len(data) != offset + 8 * sheet.scalars():
        raise Bad(f"behind the bodies stand {len(data) - offset} bytes, and the right side takes {8 * sheet.scalars()}")
    sheet.right = list(struct.unpack_from(f"<{sheet.scalars()}Q", data, offset))
    # what has no place in the readable text
    if any(late > 1 for late in sheet.late):
        raise Bad("a late flag is neither 0 nor 1")
    if [e[:2] for e in sheet.contents] != sorted({e[:2] for e in sheet.contents}, key=lambda e: (e[1], e[0])):
        raise Bad("the contents are not by column, then row, each block once")
    return sheet


# ---- the picture


def eliminated(sheet):
    """The order after the late move, the links by new numbers, and the rows of each column of L."""
    n = len(sheet.dims)
    if sorted(sheet.perm) != list(range(n)):
        raise Bad("'order' is no permutation of the blocks")
    order = [o for o in sheet.perm if not sheet.late[o]] + [o for o in sheet.perm if sheet.late[o]]
    new = {old: k for k, old in enumerate(order)}
    links = {(max(new[r], new[c]), min(new[r], new[c])) for r, c, _ in sheet.contents if r != c}
    columns = [{i for i, j in links if j == k} for k in range(n)]
    for k in range(n):
        if columns[k]:
            parent = min(columns[k])
            columns[parent] |= columns[k] - {parent}
    return order, links, columns


def silent_of(sheet, lines):
    """The scalars that an answer marks silent."""
    lines = lines.splitlines()
    if not lines or not lines[0].startswith("blocks "):
        raise Bad("the answer is no accepted night: " + (lines[0] if lines else "it is empty"))
    marks = [line.split() for line in lines[1:]]
    if [m[0] for m in marks] != [str(k) for k in range(sheet.scalars())]:
        raise Bad(f"the answer has not a line for each of the {sheet.scalars()} scalars")
    return {k for k, m in enumerate(marks) if m[2] == "silent"}


def starts_of(sizes):
    starts = [0]
    for size in sizes:
        starts.append(starts[-1] + size)
    return starts


def draw(sheet, silent):
    order, links, columns = eliminated(sheet)
    n, scalars = len(sheet.dims), max(sheet.scalars(), 1)
    cell = max(4.0, min(26.0, 380.0 / scalars))
    side, top, gap = cell * scalars, 64.0, 56.0
    left = [24.0, 24.0 + side + gap]
    width, height = max(left[1] + side + 24.0, 620.0), top + side + 96.0
    out = [
        f'<svg xmlns="http://www.w3.org/2000/svg" width="{width:.0f}" height="{height:.0f}" viewBox="0 0 {width:.0f} {height:.0f}"'
        ' font-family="sans-serif" font-size="13">',
        f'<rect width="{width:.0f}" height="{height:.0f}" fill="white"/>',
    ]

    def text(x, y, words, extra=""):
        out.append(f'<text x="{x:.1f}" y="{y:.1f}" {extra}>{words}</text>')

    def box(panel, rows, columns_, kind):
        fill = {"stored": "#2f5d8a", "fill": "#a9c6e3", "own": "#17324d", "absent": "#ffffff"}[kind]
        x, y = left[panel] + cell * columns_[0], top + cell * rows[0]
        w, h = cell * (columns_[1] - columns_[0]), cell * (rows[1] - rows[0])
        out.append(f'<rect x="{x:.1f}" y="{y:.1f}" width="{w:.1f}" height="{h:.1f}" fill="{fill}" stroke="#8899aa" stroke-width="0.7"/>')

    def mark(panel, place):
        x, y = left[panel] + cell * place, top + cell * place
        out.append(
            f'<rect class="silent" x="{x:.1f}" y="{y:.1f}" width="{cell:.1f}" height="{cell:.1f}" fill="#ffd23f" stroke="#b3261e" stroke-width="1.5"/>'
        )

    def panel(which, title, sizes, names, blocks):
        text(left[which], 26, title, 'font-weight="bold"')
        starts = starts_of(sizes)
        out.append(f'<rect x="{left[which]:.1f}" y="{top:.1f}" width="{side:.1f}" height="{side:.1f}" fill="none" stroke="#445566"/>')
        for (i, j), kind in sorted(blocks.items()):
            box(which, starts[i:i + 2], starts[j:j + 2], kind)
        if n <= 40:
            for k, name in enumerate(names):
                middle = left[which] + cell * (starts[k] + starts[k + 1]) / 2
                text(middle, top - 6, name, 'text-anchor="middle" font-size="10"')
        return starts

    a_blocks = {(k, k): "absent" for k in range(n)}
    a_blocks.update({(r, c): "own" if r == c else "stored" for r, c, _ in sheet.contents})
    l_blocks = {(k, k): "own" for k in range(n)}
    l_blocks.update({(i, k): "stored" if (i, k) in links else "fill" for k in range(n) for i in columns[k]})
    old = panel(0, f"A as stored: {n} blocks, {sheet.scalars()} scalars", sheet.dims, [str(k) for k in range(n)], a_blocks)
    sizes = [sheet.dims[o] for o in order]
    count = sum(len(c) for c in columns)
    new = panel(1, f"L in the order of elimination: {count} blocks", sizes, [str(o) for o in order], l_blocks)
    for k, block in enumerate(order):
        for s in range(sheet.dims[block]):
            if old[block] + s in silent:
                mark(0, old[block] + s)
                mark(1, new[k] + s)
    legend = [("#17324d", "diagonal"), ("#2f5d8a", "stored in A"), ("#a9c6e3", "made by elimination"), ("#ffd23f", f"silent scalar ({len(silent)})")]
    x = 24.0
    for colour, words in legend:
        out.append(f'<rect x="{x:.1f}" y="{top + side + 28:.1f}" width="14" height="14" fill="{colour}" stroke="#445566"/>')
        text(x + 20, top + side + 40, words)
        x += 36 + 7.2 * len(words)
    text(24, top + side + 72, "numbers above a column: the block by its old number", 'fill="#556677"')
    out.append("</svg>")
    return "\n".join(out) + "\n"


# ---- the commands


def main(words):
    try:
        if len(words) == 3 and words[0] == "write":
            data = to_bytes(parse(pathlib.Path(words[1]).read_text(encoding="utf-8")))
            pathlib.Path(words[2]).write_bytes(data)
            print(f"{words[2]}: {len(data)} bytes")
        elif len(words) == 2 and words[0] == "show":
            sys.stdout.write(text_of(from_bytes(pathlib.Path(words[1]).read_bytes())))
        elif len(words) in (3, 4) and words[0] == "draw":
            sheet = from_bytes(pathlib.Path(words[1]).read_bytes())
            silent = silent_of(sheet, pathlib.Path(words[3]).read_text(encoding="utf-8")) if len(words) == 4 else set()
            pathlib.Path(words[2]).write_text(draw(sheet, silent), encoding="utf-8")
        else:
            sys.stderr.write(__doc__)
            return 2
    except Bad as why:
        sys.stderr.write(f"sheet.py: {words[1]}: {why}\n")
        return 1
    except (OSError, UnicodeDecodeError) as why:
        sys.stderr.write(f"sheet.py: {why}\n")
        return 1
    return 0


if __name__ == "__main__":
    sys.exit(main(sys.argv[1:]))
