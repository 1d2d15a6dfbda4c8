"""Lines `fit` and `lines` of crates/vx_calls: regions that make up a frame or don't, with the results that the definitions of vx_fit give.

It applies the definitions to sets: a region is the set of its positions or of its CTUs, a line is a number, and each rule is checked for
each element. It shares nothing with the crate. Hand-made rows come first, then random small ones.
"""
import random
from math import gcd

GREATEST = 16384


# ---- whether regions fit together; a region is (x, y, w, h) in luma samples

def positions(region, unit):
    """Returns the positions of a region, in units of `unit` by `unit` samples."""
    x, y, w, h = (n // unit for n in region)
    return {(i, j) for i in range(x, x + w) for j in range(y, y + h)}


def ctus(region, ctb):
    """Returns the CTUs in which a region has a sample."""
    unit = gcd(ctb, *region)
    return {(i * unit // ctb, j * unit // ctb) for i, j in positions(region, unit)}


def fit(placed, ctb):
    width = max(x + w for x, y, w, h in placed)
    height = max(y + h for x, y, w, h in placed)
    if width > GREATEST or height > GREATEST:
        return "Err(TooLarge)"
    for k, (x, y, w, h) in enumerate(placed):
        if x % ctb or y % ctb:
            return f"Err(Geometry({k}))"
    unit = gcd(ctb, *(n for region in placed for n in region))
    cells = [positions(region, unit) for region in placed]
    for k in range(len(placed)):
        if any(cells[j] & cells[k] for j in range(k)):
            return f"Err(Geometry({k}))"
    frame = positions((0, 0, width, height), unit)
    if frame - set().union(*cells):
        return "Err(Geometry(0))"
    units = [ctus(region, ctb) for region in placed]
    for k in range(len(placed)):
        later = set().union(*units[k + 1:])
        if any((i - 1, j) in later or (i, j - 1) in later for i, j in units[k]):
            return f"Err(Order({k}))"
    return f"Ok(({width}, {height}))"


# ---- the lines; a region is (x, y, w, h, widths, heights) in CTUs, with the sizes of its tile columns and rows

def bounds(sizes):
    sums = [0]
    for size in sizes:
        sums.append(sums[-1] + size)
    return sums


def lines(regions):
    corners = [region[:4] for region in regions]
    columns = [{x + c for c in bounds(widths)} for x, y, w, h, widths, heights in regions]
    rows = [{y + r for r in bounds(heights)} for x, y, w, h, widths, heights in regions]
    vertical = set().union(*columns)
    full = set().union(*rows)
    one_tile = [len(region[4]) == 1 and len(region[5]) == 1 for region in regions]

    def inside(k, n):
        return corners[k][1] < n < corners[k][1] + corners[k][3]

    def is_dropped(n):
        count = range(len(regions))
        crosses = any(inside(k, n) and n not in rows[k] for k in count)
        inner = any(inside(k, n) and n in rows[k] for k in count)
        borders = [k for k in count if n in (corners[k][1], corners[k][1] + corners[k][3])]
        return crosses and not inner and all(one_tile[k] for k in borders)

    dropped = {n for n in full if is_dropped(n)}
    horizontal = full - dropped
    for k, (x, y, w, h) in enumerate(corners):
        own = {n for n in columns[k] if x < n < x + w}
        if {n for n in vertical if x < n < x + w} != own:
            return f"Lines({k})"
        own = {n for n in rows[k] if y < n < y + h}
        if {n for n in horizontal if y < n < y + h} != own:
            return f"Lines({k})"
        if y in dropped:
            before = corners[k - 1] if k else None
            if before is None or before[0] != x or before[2] != w or before[1] + before[3] != y:
                return f"Lines({k})"
    return f"{numbers(sorted(vertical))} {numbers(sorted(horizontal))}"


# ---- random frames

def cut(rng, rect, depth):
    """Returns the parts of a rectangle that is cut straight through again and again, or once like a wheel."""
    x, y, w, h = rect
    if w >= 3 and h >= 3 and rng.random() < 0.25:
        a, b = rng.randint(1, w - 2), rng.randint(1, h - 2)
        return [(x, y, a, b + 1), (x + a, y, w - a, b), (x + a + 1, y + b, w - a - 1, h - b), (x, y + b + 1, a + 1, h - b - 1), (x + a, y + b, 1, 1)]
    if depth == 0 or w * h == 1 or rng.random() < 0.15:
        return [rect]
    if w > 1 and (h == 1 or rng.random() < 0.5):
        a = rng.randint(1, w - 1)
        return cut(rng, (x, y, a, h), depth - 1) + cut(rng, (x + a, y, w - a, h), depth - 1)
    a = rng.randint(1, h - 1)
    return cut(rng, (x, y, w, a), depth - 1) + cut(rng, (x, y + a, w, h - a), depth - 1)


def in_some_order(rng, rects):
    """Returns the rectangles in an order in which no neighbour to the left or above comes later."""
    left, done = list(rects), []
    cells = {rect: positions(rect, 1) for rect in rects}
    while left:
        ready = [r for r in left if not any(
            (i - 1, j) in cells[s] or (i, j - 1) in cells[s] for s in left if s != r for i, j in cells[r])]
        chosen = rng.choice(ready)
        left.remove(chosen)
        done.append(chosen)
    return done


def spread(rng, rect, ctb, w, h):
    """Returns a rectangle of CTUs in samples, with the last CTUs of the frame cut off."""
    x, y, a, b = (n * ctb for n in rect)
    return (x, y, a - (w if rect[0] + rect[2] == 3 else 0), b - (h if rect[1] + rect[3] == 3 else 0))


def some_placement(rng):
    ctb = 32
    rects = cut(rng, (0, 0, 3, 3), 3)
    rects = in_some_order(rng, rects) if rng.random() < 0.75 else rng.sample(rects, len(rects))
    w, h = rng.choice([0, 8, 24]), rng.choice([0, 8, 24])
    placed = [spread(rng, rect, ctb, w, h) for rect in rects]
    if rng.random() < 0.5:
        k = rng.randrange(len(placed))
        x, y, a, b = placed[k]
        placed[k] = rng.choice([(x + 8, y, a, b), (x, y + ctb, a, b), (x, y, a + 8, b), (x, y, a, max(8, b - 8)), (x, y, a, b + ctb)])
    if len(placed) > 1 and rng.random() < 0.1:
        placed.pop()
    return placed, ctb


def parted(rng, size):
    """Returns the sizes of tile columns or rows."""
    if size > 1 and rng.random() < 0.2:
        a = rng.randint(1, size - 1)
        return [a, size - a]
    return [size]


def some_lines(rng):
    width, height = rng.choice([(2, 2), (3, 3), (3, 4), (2, 4)])
    if rng.random() < 0.5:
        a = rng.randint(1, width - 1)
        sides = [(0, a), (a, width - a)]
        rects = [(x, y, w, h) for x, w in sides for y, h in stacked(rng, height)]
        if rng.random() < 0.5:
            rects = in_some_order(rng, rects)
    else:
        rects = in_some_order(rng, cut(rng, (0, 0, width, height), 3))
    return [(x, y, w, h, parted(rng, w), parted(rng, h)) for x, y, w, h in rects]


def stacked(rng, height):
    a = rng.randint(1, height)
    return [(0, height)] if a == height else [(0, a), (a, height - a)]


# ---- the tables

SQUARE = [(64, 64)] * 2


def made(sizes, corners):
    return [(x, y, w, h) for (x, y), (w, h) in zip(corners, sizes)]


PLACEMENTS = [
    (made(SQUARE, [(0, 0), (64, 0)]), 64),
    (made(SQUARE, [(0, 0), (0, 64)]), 64),
    (made(SQUARE, [(0, 0), (32, 0)]), 64),
    (made(SQUARE, [(0, 0), (128, 0)]), 64),
    (made(SQUARE, [(64, 0), (0, 0)]), 64),
    (made(SQUARE, [(64, 0), (96, 0)]), 64),
    (made(SQUARE, [(64, 0), (64, 0)]), 64),
    (made([(1280, 640), (1288, 640)], [(0, 0), (1280, 0)]), 128),
    (made([(1288, 640), (1280, 640)], [(0, 0), (1288, 0)]), 128),
    (made([(1288, 640), (1280, 640)], [(0, 0), (1408, 0)]), 128),
    (made([(1280, 640)] * 4, [(0, 0), (1280, 0), (0, 640), (1280, 640)]), 128),
    (made([(64, 128), (64, 64)], [(0, 0), (64, 0)]), 64),
    (made([(8, 8)] * 64, [(16383, 16383)] * 64), 32),
    (made([(64, 64)], [(16320, 0)]), 32),
    (made([(16384, 16384)], [(0, 0)]), 128),
    (made([(16384, 256)] * 64, [(0, 256 * k) for k in range(64)]), 32),
]

TALL = (0, 0, 1, 2, [1], [2])
ONE = [1], [1]
LINES = [
    [(0, 0, 10, 5, [10], [5]), (10, 0, 10, 5, [10], [5]), (0, 5, 10, 5, [10], [5]), (10, 5, 10, 5, [10], [5])],
    [(0, 0, 2, 2, [1, 1], [1, 1]), (2, 0, 2, 2, [2], [2])],
    [TALL, (1, 0, 1, 1) + ONE, (1, 1, 1, 1) + ONE],
    [TALL, (1, 0, 1, 1) + ONE, (2, 0, 1, 1) + ONE, (1, 1, 1, 1) + ONE, (2, 1, 1, 1) + ONE],
    [TALL, (1, 0, 1, 1) + ONE, (1, 1, 1, 1) + ONE, (2, 0, 1, 1) + ONE, (2, 1, 1, 1) + ONE],
    [(64 * (k % 8), 64 * (k // 8), 64, 64, [64], [64]) for k in range(64)],
    [(8 * k, 0, 8, 512, [1] * 8, [1] * 512) for k in range(64)],
]


def numbers(ns):
    return ",".join(str(n) for n in ns)


def explicit(sizes):
    """Returns sizes as they are coded: the last one stands for all equal ones at the end."""
    count = len(sizes)
    while count > 1 and sizes[count - 1] == sizes[count - 2]:
        count -= 1
    return numbers(sizes[:count])


def asked_and_answered():
    """Returns the lines of all placements and then those of all frames, each with its expected output."""
    rng = random.Random(17)
    placements = PLACEMENTS + [some_placement(rng) for _ in range(80)]
    frames = LINES + [some_lines(rng) for _ in range(80)]
    for placed, ctb in placements:
        yield f"fit {ctb} {' '.join(numbers(region) for region in placed)}", fit(placed, ctb)
    for regions in frames:
        text = " ".join(f"{numbers(r[:4])}:{explicit(r[4])}:{explicit(r[5])}" for r in regions)
        yield f"lines {text}", lines(regions)
