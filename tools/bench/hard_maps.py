"""Maps that are hard because of their density: slow for a row phase or a column phase that only
fits the other maps."""


def rows_of(draw_row):
    """A map whose rows are drawn one by one."""

    def make(bitmap, side, rng):
        for y in range(side):
            for x in draw_row(y, side, rng):
                bitmap.draw(x, y)

    return make


def share(rng, cells, percent):
    """This percentage of these cells."""
    return rng.sample(cells, len(cells) * percent // 100)


def permutation(width):
    """Each row has an obstacle in a column of its own, as far as there are columns."""

    def make(bitmap, side, rng):
        columns = list(range(side // width))
        rng.shuffle(columns)
        for y, x in enumerate(columns):
            bitmap.draw(x, y * width)

    return make


def lattice(apart):
    return rows_of(lambda y, side, rng: range(0, side, apart) if y % apart == 0 else ())


def with_margin(percent, margin):
    """This percentage at random, and a free margin at the right."""
    return rows_of(lambda y, side, rng: share(rng, range(side - margin), percent))


def with_yard(percent, yard):
    """This percentage at random, and a free strip in the middle."""
    return rows_of(lambda y, side, rng: share(rng, [x for x in range(side) if abs(2 * x - side) >= yard], percent))


HARD = (
    ("one corner", rows_of(lambda y, side, rng: (0,) if y == 0 else ())),
    ("a diagonal", rows_of(lambda y, side, rng: (y,))),
    ("a permutation", permutation(1)),
    ("a permutation of half the columns", permutation(2)),
    ("a checkerboard", rows_of(lambda y, side, rng: range(y % 2, side, 2))),
    ("the left column", rows_of(lambda y, side, rng: (0,))),
    ("columns 188 apart", rows_of(lambda y, side, rng: range(0, side, 188))),
    ("rows 188 apart", rows_of(lambda y, side, rng: range(side) if y % 188 == 0 else ())),
    ("a lattice of 60", lattice(60)),
    ("a lattice of 130", lattice(130)),
    ("1 % and a margin of 200", with_margin(1, 200)),
    ("20 % and a margin of 200", with_margin(20, 200)),
    ("50 % and a margin of 200", with_margin(50, 200)),
    ("20 % and a yard of 300", with_yard(20, 300)),
)
