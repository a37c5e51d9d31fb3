#!/usr/bin/env python3
"""Draws README's chart: how many times as long as `dist` scipy's exact transform takes, by the
table of docs/trust/PERFORMANCE.md, into docs/images/speed.svg. `--check` compares it with that."""
import argparse
import pathlib
import sys

TOP = pathlib.Path(__file__).resolve().parents[2]
PAGE = TOP / "docs/trust/PERFORMANCE.md"
CHART = TOP / "docs/images/speed.svg"
LEFT, STEP, LONGEST = 190, 30, 420  # where bars begin, from one to the next, the longest


def cells_of(line):
    """The cells of a row of a table."""
    return [cell.strip() for cell in line.strip().strip("|").split("|")]


def ratios():
    """Each map of the table of `dist`, with the ratio of the two programs."""
    lines = PAGE.read_text().splitlines()
    row = next(k for k, line in enumerate(lines) if line.startswith("| scipy / `dist`"))
    head = max(k for k in range(row) if lines[k].startswith("| |"))
    return [
        (name, float(ratio.strip("*")))
        for name, ratio in zip(cells_of(lines[head])[1:], cells_of(lines[row])[1:])
    ]


def bar(number, name, ratio, most):
    """A map's name, its bar, and its ratio."""
    top = 52 + number * STEP
    length = LONGEST * ratio / most
    return (
        f'  <text x="{LEFT - 10}" y="{top + 15}" text-anchor="end">{name}</text>\n'
        f'  <rect x="{LEFT}" y="{top}" width="{length:.0f}" height="20" fill="#3d7ab5"/>\n'
        f'  <text x="{LEFT + length + 8:.0f}" y="{top + 15}">{ratio:.0f}</text>\n'
    )


def drawn(found):
    """The chart."""
    most = max(ratio for _, ratio in found)
    bars = "".join(bar(number, *pair, most) for number, pair in enumerate(found))
    height = 52 + len(found) * STEP + 12
    title = "Time of scipy's distance_transform_edt / time of dist, 4096 by 4096 cells"
    return (
        f'<svg xmlns="http://www.w3.org/2000/svg" width="680" height="{height}"'
        f' viewBox="0 0 680 {height}" font-family="sans-serif" font-size="14" fill="#222222">\n'
        f"  <title>{title}</title>\n"
        f'  <rect width="680" height="{height}" fill="#ffffff"/>\n'
        f'  <text x="20" y="30" font-size="15">{title}</text>\n{bars}</svg>\n'
    )


def main():
    """Writes the chart, or ends with status 1 if it isn't that of the page."""
    parser = argparse.ArgumentParser(description=__doc__.split("\n\n")[0])
    parser.add_argument("--check", action="store_true")
    chart = drawn(ratios())
    if not parser.parse_args().check:
        CHART.write_text(chart)
    elif CHART.read_text() != chart:
        print("docs/images/speed.svg is not of PERFORMANCE's table: tools/bench/chart.py draws it")
        return 1
    return 0


if __name__ == "__main__":
    sys.exit(main())
