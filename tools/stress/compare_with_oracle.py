#!/usr/bin/python3
# Debian's own python3, as its packages python3-numpy and python3-scipy are only for that one.
"""Compares the built program with a plain minimum written here, on random small maps.

Maps of all small sizes and densities, in both forms of PBM with comments and odd whitespace, every
metric, with an open border and with a wall, with and without `--nearest`, or with a query line,
good or bad; and the same images damaged at one place, which are judged by a reader written here
from the format's description alone. The program is called directly, so build it first (`./clearmap
--version`).

    tools/stress/compare_with_oracle.py [--seed N] [--maps N]

The seed stands on the first line, the count and the disagreements on the last. Where Debian's
python3-scipy is installed, its exact Euclidean transform is asked as well.
"""
import argparse
import pathlib
import random
import subprocess
import sys

TOP = pathlib.Path(__file__).resolve().parents[2]
PROGRAM = TOP / "crates" / "clearmap" / "out" / "clearmap"
SPACE = b" \t\r\n"
METRICS = {
    "euclid2": lambda dx, dy: dx * dx + dy * dy,
    "city": lambda dx, dy: dx + dy,
    "chess": max,
}


class Fault(Exception):
    """The first fault of an image."""


def nearest(cells, distance, x, y):
    """The key of the nearest obstacle: distance, column, row difference, row."""
    return min(((distance(abs(x - a), abs(y - b)), a, abs(y - b), b) for a, b in cells), default=None)


def frame(width, height):
    """The cells around a map, which are obstacles if its edge is a wall."""
    columns, rows = range(-1, width + 1), range(-1, height + 1)
    return {(x, y) for x in columns for y in (-1, height)} | {(x, y) for x in (-1, width) for y in rows}


def table(width, height, cells, metric, tell):
    """The lines that `dist` has to print."""
    lines = []
    for y in range(height):
        keys = [nearest(cells, METRICS[metric], x, y) for x in range(width)]
        entries = ["-" if k is None else f"{k[0]}/{k[1]}/{k[3]}" if tell else str(k[0]) for k in keys]
        lines.append(" ".join(entries) + "\n")
    return "".join(lines).encode()


def gap(data, at):
    """The place after a gap that begins here: whitespace, then whitespace and comments."""
    if at == len(data):
        raise Fault("Truncated")
    if data[at] == ord("#"):
        raise Fault("BadComment")
    if data[at] not in SPACE:
        raise Fault("MissingSpace")
    return filling(data, at + 1)


def filling(data, at):
    """The place after any mix of whitespace and comments."""
    while at < len(data):
        if data[at] in SPACE:
            at += 1
        elif data[at] == ord("#"):
            while at < len(data) and data[at] not in b"\r\n":
                at += 1
            if at == len(data):
                raise Fault("Truncated")
        else:
            return at
    raise Fault("Truncated")


def side(data, at):
    """A side of the map, and the place after it."""
    if not data[at:at + 1].isdigit():
        raise Fault("BadNumber")
    end = at
    while data[end:end + 1].isdigit():
        end += 1
    value = int(data[at:end])
    if value == 0:
        raise Fault("ZeroSize")
    if value > 4096:
        raise Fault("TooLarge")
    return value, end


def read(data):
    """The width, the height and the obstacles of the image at the front; or its first fault."""
    if data[:2] not in (b"P1", b"P4"):
        raise Fault("Truncated" if data in (b"", b"P") else "BadMagic")
    width, at = side(data, gap(data, 2))
    height, at = side(data, gap(data, at))
    if data[:2] == b"P4":
        if at == len(data):
            raise Fault("Truncated")
        if data[at] not in SPACE:
            raise Fault("BadComment" if data[at] == ord("#") else "MissingSpace")
        return width, height, raw(data[at + 1:], width, height)
    return width, height, plain(data, gap(data, at), width, height)


def raw(raster, width, height):
    across = (width + 7) // 8
    if len(raster) < across * height:
        raise Fault("Truncated")
    return {(x, y) for y in range(height) for x in range(width) if raster[y * across + x // 8] >> (7 - x % 8) & 1}


def plain(data, at, width, height):
    cells = set()
    for k in range(width * height):
        if at < len(data) and data[at] in SPACE:
            at = filling(data, at)
        if at == len(data):
            raise Fault("Truncated")
        if data[at] == ord("#"):
            raise Fault("BadComment")
        if data[at] not in b"01":
            raise Fault("BadPixel")
        if data[at] == ord("1"):
            cells.add((k % width, k // width))
        at += 1
    if at < len(data) and data[at] not in SPACE:
        raise Fault("JunkNotSpaced")
    return cells


def random_gap(rng):
    text = bytes([rng.choice(SPACE)])
    while rng.random() < 0.3:
        text += rng.choice([b" ", b"\n", b"\t", b"# a comment\n", b"#\r", b"#P1 3 3\n"])
    return text


def random_image(rng):
    width, height = rng.randint(1, rng.choice([3, 9, 20])), rng.randint(1, rng.choice([3, 9, 12]))
    share = rng.choice([0.0, 0.02, 0.2, 0.5, 0.9, 1.0])
    bits = [[int(rng.random() < share) for _ in range(width)] for _ in range(height)]
    zeros = "0" * rng.choice([0, 0, 2, 12])
    sides = random_gap(rng) + f"{zeros}{width}".encode() + random_gap(rng) + f"{zeros}{height}".encode()
    if rng.random() < 0.5:
        fill = rng.randint(0, 1)
        rows = [sum(bit << (7 - x) for x, bit in enumerate(row[k:k + 8])) |
                (fill * (0xff >> len(row[k:k + 8])) & 0xff) for row in bits for k in range(0, width, 8)]
        return b"P4" + sides + bytes([rng.choice(SPACE)]) + bytes(rows) + rng.choice([b"", b"more", b"\n"])
    pixels = b"".join(b"%d" % bit + (random_gap(rng) if rng.random() < 0.2 else b"") for row in bits for bit in row)
    pixels = pixels[:pixels.rindex(b"%d" % bits[-1][-1]) + 1] if b"#" not in pixels else pixels
    return b"P1" + sides + random_gap(rng) + pixels + rng.choice([b"", b"\n", b" more"])


def damaged(rng, image):
    at = rng.randrange(len(image) + 1)
    kind = rng.randrange(4)
    if kind == 0:
        return image[:at]
    byte = bytes([rng.choice(b"#0129 \n\r\tPx\x0b\xff")])
    return image[:at] + byte + image[at + (kind == 1):] if kind < 3 else image[:at] + image[at + 1:]


def numbers(words):
    """The numbers that these words spell; None if one isn't a number of a line."""
    for word in words:
        if not (word.isdigit() and len(word) <= 10 and int(word) < 2**32):
            return None
    return [int(word) for word in words]


def walked(points):
    """The cells of a path, in order; or the index of the first crooked point."""
    cells = points[:1]
    for index, ((x, y), (a, b)) in enumerate(zip(points, points[1:]), 1):
        if x != a and y != b:
            return index
        count = max(abs(a - x), abs(b - y))
        cells += [(x + (a - x) * k // count, y + (b - y) * k // count) for k in range(1, count + 1)]
    return cells


def least(places, cells, distance):
    """The reply of the first of these places with the least distance."""
    found = [(nearest(cells, distance, x, y), (x, y)) for x, y in places]
    key, (x, y) = min(found, key=lambda pair: pair[0][0])
    return f"OK {key[0]} {x} {y} {key[1]} {key[3]}"


def reply(width, height, cells, line):
    """The reply to a query line."""
    words = line.split(" ")
    if words[0] not in ("AT", "RECT", "PATH", "CLEAROF"):
        return "ERR 11 UnknownCommand"
    given = numbers(words[2:])
    if words[1:2] == [] or words[1] not in METRICS or given is None:
        return "ERR 12 BadArguments"
    distance = METRICS[words[1]]
    if words[0] == "AT":
        if len(given) != 2:
            return "ERR 12 BadArguments"
        if given[0] >= width or given[1] >= height:
            return "ERR 1 OutOfRange"
        key = nearest(cells, distance, *given)
        return f"OK {key[0]} {key[1]} {key[3]}" if key else "NONE"
    if words[0] == "RECT":
        if len(given) != 4 or not (given[0] < given[2] <= 4096 and given[1] < given[3] <= 4096):
            return "ERR 12 BadArguments"
        if given[2] > width or given[3] > height:
            return "ERR 1 OutOfRange"
        places = [(x, y) for y in range(given[1], given[3]) for x in range(given[0], given[2])]
        return least(places, cells, distance) if cells else "NONE"
    within = None
    if words[0] == "CLEAROF":
        if not given:
            return "ERR 12 BadArguments"
        within = given.pop(0)
    if len(given) % 2:
        return "ERR 12 BadArguments"
    return along(width, height, cells, distance, within, list(zip(given[::2], given[1::2])))


def along(width, height, cells, distance, within, points):
    """The reply to a path: its least distance, or its first cell that is nearer than `within`."""
    if not 1 <= len(points) <= 1000:
        return "ERR 8 BadPath"
    if any(x >= width or y >= height for x, y in points):
        return "ERR 1 OutOfRange"
    places = walked(points)
    if isinstance(places, int):
        return f"ERR 9 Crooked {places}"
    if within is None:
        return least(places, cells, distance) if cells else "NONE"
    for x, y in places:
        key = nearest(cells, distance, x, y)
        if key and key[0] < within:
            return f"OK {key[0]} {x} {y} {key[1]} {key[3]}"
    return "OK CLEAR"


def random_line(rng):
    """A query line, most often a good one for a map of this size or a little less."""
    side_of = rng.choice([3, 9, 20])
    metric = rng.choice(list(METRICS))
    x, y = rng.randrange(side_of), rng.randrange(side_of)
    kind = rng.choice(["AT", "RECT", "PATH", "CLEAROF"])
    if kind == "AT":
        said = [x, y]
    elif kind == "RECT":
        said = [x, y, x + rng.randint(1, 4), y + rng.randint(1, 4)]
    else:
        said = [x, y]
        for _ in range(rng.choice([0, 1, 2, 5])):
            x, y = (rng.randrange(side_of), y) if rng.random() < 0.5 else (x, rng.randrange(side_of))
            if rng.random() < 0.05:
                x, y = y, x
            said += [x, y]
        if kind == "CLEAROF":
            said.insert(0, rng.choice([0, 1, 2, 3, 5, 9, 30, 2**32 - 1]))
    words = [kind, metric] + [str(number) for number in said]
    harm = rng.randrange(12)
    if harm == 0:
        words[rng.randrange(len(words))] = rng.choice(["", "x", "-1", "4097", "70000", "4294967296", "00000000001", "at", "007"])
    elif harm == 1:
        words.pop(rng.randrange(len(words)))
    return " ".join(words)


def wanted(image, metric, walled, tell, line):
    """What the program has to print, and its status."""
    try:
        width, height, cells = read(image)
    except Fault as fault:
        return f"ERR 15 BadImage {fault}\n".encode(), 1
    if walled:
        cells = cells | frame(width, height)
    if line is None:
        return table(width, height, cells, metric, tell), 0
    text = reply(width, height, cells, line)
    return text.encode() + b"\n", int(text.startswith("ERR"))


def scipy_disagrees(image):
    """Whether scipy's Euclidean transform differs from the plain minimum; None if it can't be
    asked."""
    try:
        import numpy
        from scipy import ndimage
        width, height, cells = read(image)
    except (ImportError, Fault):
        return None
    if not cells:
        return None
    grid = numpy.ones((height, width))
    for x, y in cells:
        grid[y, x] = 0
    squares = numpy.rint(ndimage.distance_transform_edt(grid) ** 2).astype(int)
    return any(squares[y, x] != nearest(cells, METRICS["euclid2"], x, y)[0] for y in range(height) for x in range(width))


def main():
    parser = argparse.ArgumentParser()
    parser.add_argument("--seed", type=int, default=random.SystemRandom().randrange(2**32))
    parser.add_argument("--maps", type=int, default=2000)
    parser.add_argument("--program", type=pathlib.Path, default=PROGRAM)
    given = parser.parse_args()
    print(f"seed {given.seed}")
    rng = random.Random(given.seed)
    wrong, refused, scipy_asked = 0, 0, 0
    for _ in range(given.maps):
        image = random_image(rng)
        if rng.random() < 0.4:
            image = damaged(rng, image)
        metric, walled, tell = rng.choice(list(METRICS)), rng.random() < 0.5, rng.random() < 0.5
        line = random_line(rng) if rng.random() < 0.5 else None
        text, status = wanted(image, metric, walled, tell, line)
        words = [given.program, "dist", "--metric", metric] + ["--nearest"] * tell
        words += ["--edge", "wall"] if walled else ["--edge", "open"] * (rng.random() < 0.5)
        words += [] if line is None else [f"--query={line}"]
        run = subprocess.run(words, input=image, capture_output=True)
        refused += status
        if (run.stdout, run.returncode) != (text, status):
            wrong += 1
            print(f"DIFFERS {image!r} {metric} {walled} {tell} {line!r}: {run.stdout!r} {run.returncode}, wanted {text!r} {status}")
        asked = scipy_disagrees(image)
        scipy_asked += asked is not None
        if asked:
            wrong += 1
            print(f"DIFFERS from scipy: {image!r}")
    print(f"maps {given.maps}, refused {refused}, scipy asked {scipy_asked}, disagreements {wrong}")
    return 1 if wrong else 0


if __name__ == "__main__":
    sys.exit(main())
