#!/usr/bin/env python3
"""The face for Python beside the program fit on nights that are drawn: the same lines, or a refusal by the same number."""
import collections
import math
import random
import subprocess
import sys

from python_face import REPOSITORY, Builder, Error, answer, float_of, sheets

NIGHTS = 400
SPECIAL = [0.0, -0.0, math.nan, math.inf, 1e308, -1e-11]


def drawn_body(draw, high, wide, diagonal):
    """The rows of a body: now and then all zeros, or with a number that is refused; a diagonal of either sign."""
    if draw.random() < 0.15:
        return [[0.0] * wide for _ in range(high)]
    rows = [[draw.choice(SPECIAL) if draw.random() < 0.004 else draw.uniform(-1, 1) for _ in range(wide)] for _ in range(high)]
    for k in range(high if diagonal else 0):
        rows[k][k] += draw.choice([1, 1, 1, -1]) * draw.uniform(0, 30)
    return rows


def drawn(seed):
    """The text of a night within fit's room, at times with a fault."""
    draw = random.Random(seed)
    dims = [draw.randrange(1, 6) if draw.random() > 0.01 else 17 for _ in range(draw.randrange(12))]
    n = len(dims)
    lines = ["tolerance " + draw.choice(["1e-12"] * 12 + ["0", "1e-9", "-0.0", "0.5", "-1", "nan"])]
    lines += [f"block {dim}" + (" late" if draw.random() < 0.2 else "") for dim in dims]
    perm = draw.sample(range(n), n)
    if n > 1 and draw.random() < 0.03:
        perm[0] = perm[1]
    lines.append("order " + " ".join(map(str, perm)))
    for column in range(n):
        for row in range(column, n):
            if draw.random() < (0.9 if row == column else 0.3):
                # at times above the diagonal
                i, j = (column, row) if draw.random() < 0.004 else (row, column)
                body = drawn_body(draw, dims[i], dims[j], i == j)
                lines.append(f"stored {i} {j}: " + "; ".join(" ".join(map(repr, numbers)) for numbers in body))
    right = [draw.choice(SPECIAL) if draw.random() < 0.02 else draw.uniform(-9, 9) for _ in range(sum(dims))]
    return "\n".join(lines + ["right " + " ".join(map(repr, right))])


def ours(made):
    night = Builder(float_of(made.tolerance))
    for dim, late in zip(made.dims, made.late):
        night.block(dim, late)
    for (row, column, _), body in zip(made.contents, made.bodies):
        night.store(row, column, [float_of(word) for word in body])
    try:
        return answer(night.order(made.perm).build(), [float_of(word) for word in made.right])
    except Error as why:
        return [f"refused {why.number}"]


def main():
    tally = collections.Counter()
    # builds fit where it is not there yet, or older than a source
    subprocess.run([REPOSITORY / "tools" / "night"], stdin=subprocess.DEVNULL, stdout=subprocess.DEVNULL, check=True)
    for seed in range(NIGHTS):
        made = sheets.parse(drawn(seed))
        fit = subprocess.run([REPOSITORY / "crates" / "fit" / "out" / "fit"], input=sheets.to_bytes(made), stdout=subprocess.PIPE, check=True)
        theirs = fit.stdout.decode().splitlines()
        if ours(made) != theirs:
            sys.exit(f"night {seed}: the face says\n{ours(made)}\nand fit\n{theirs}")
        tally[theirs[0] if theirs[0].startswith("refused") else "accepted"] += 1
    print(f"beside fit: {NIGHTS} nights, the same lines:", ", ".join(f"{count} {what}" for what, count in sorted(tally.items())))


if __name__ == "__main__":
    main()
