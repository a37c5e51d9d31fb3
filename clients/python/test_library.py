#!/usr/bin/env python3
"""Tests of distances of numpy's arrays in process, of scipy's calls, and of finding the library.

They need numpy and the library; scipy and OpenCV are compared with where they are installed. ARRAYS
in the environment is how many random arrays are tried, 150 where it isn't there.
"""
import ctypes
import gc
import importlib.util
import math
import os
import pathlib
import random
import re
import shutil
import subprocess
import sys
import tempfile
import threading
import unittest

import numpy as np

HERE = pathlib.Path(__file__).resolve().parent
TOP = HERE.parent.parent

import clearmap
from clearmap import grids, library
from clearmap.limits import Limits

ARRAYS = int(os.environ.get("ARRAYS", "150"))
HAS_SCIPY = importlib.util.find_spec("scipy") is not None
HAS_OPENCV = importlib.util.find_spec("cv2") is not None
METRICS = ("euclid2", "city", "chess")
EDGES = ("open", "wall")
DTYPES = "?bBhHiIlLqQefdg"


def dist(metric, dx, dy):
    """The distance of two cells."""
    dx, dy = abs(dx), abs(dy)
    return {"euclid2": dx * dx + dy * dy, "city": dx + dy, "chess": max(dx, dy)}[metric]


def spots_of(obstacles, edge):
    """Columns and rows of all obstacles, with the frame's."""
    height, width = obstacles.shape
    spots = [(int(x), int(y)) for y, x in np.argwhere(obstacles)]
    if edge == "wall":
        frame = [(x, y) for x in range(-1, width + 1) for y in (-1, height)]
        spots += frame + [(x, y) for x in (-1, width) for y in range(height)]
    return spots


def searched(obstacles, metric, edge):
    """Distances and nearest obstacles of all cells, by a search of all obstacles for each."""
    spots = spots_of(obstacles, edge)
    told = np.full(obstacles.shape, clearmap.NO_OBSTACLE, np.uint32)
    where = np.full((*obstacles.shape, 2), clearmap.NOWHERE, np.int16)
    for y, x in np.ndindex(*obstacles.shape) if spots else ():
        found = min((dist(metric, a - x, b - y), a, abs(b - y), b) for a, b in spots)
        told[y, x], where[y, x] = found[0], (found[1], found[3])
    return told, where


def ends_of(dtype):
    """The least and the greatest number of a dtype."""
    if dtype.kind == "b":
        return 0, 1
    ends = np.finfo(dtype) if dtype.kind == "f" else np.iinfo(dtype)
    return ends.min, ends.max


def squares_of(obstacles):
    """Squares of all cells, by a search that numpy does."""
    ys, xs = np.nonzero(obstacles)
    y, x = np.mgrid[: obstacles.shape[0], : obstacles.shape[1]]
    gaps = (y[:, :, None] - ys) ** 2 + (x[:, :, None] - xs) ** 2
    return gaps.min(axis=2) if len(ys) else np.full(obstacles.shape, clearmap.NO_OBSTACLE)


def laid(array, chance):
    """The same values in memory of another order: Fortran's, with gaps, backwards, read-only, not
    aligned, a broadcast, bytes swapped."""
    height, width = array.shape
    kind = chance.randrange(8)
    if kind == 0:
        return np.asfortranarray(array)
    if kind == 1:
        wide = np.zeros((height, width + 7), array.dtype)
        wide[:, 3 : width + 3] = array
        return wide[:, 3 : width + 3]
    if kind == 2:
        wide = np.ones((height * 2, width * 3), array.dtype)
        wide[::2, ::3] = array
        return wide[::2, ::3]
    if kind == 3:
        return array[::-1, ::-1].copy()[::-1, ::-1]
    if kind == 4:
        return array[::-1].copy()[::-1]
    if kind == 5:
        raw = np.empty(array.nbytes + 1, np.uint8)[1:].view(np.uint8)
        odd = np.ndarray(array.shape, array.dtype, raw.data)
        odd[...] = array
        return odd
    if kind == 6:
        fixed = array.copy()
        fixed.setflags(write=False)
        return fixed
    return array.astype(array.dtype.newbyteorder())


def random_obstacles(numbers, longest=24):
    """A random map."""
    height, width = numbers.integers(1, longest, 2)
    return numbers.random((height, width)) < numbers.choice([0.0, 0.005, 0.03, 0.2, 0.9, 1.0])


class Searches(unittest.TestCase):
    def test_against_a_search(self):
        numbers = np.random.default_rng(5)
        for _ in range(max(ARRAYS // 6, 20)):
            obstacles = random_obstacles(numbers, 13)
            area = {edge: clearmap.Map(obstacles, edge) for edge in EDGES}
            for metric in METRICS:
                for edge in EDGES:
                    wanted, where = searched(obstacles, metric, edge)
                    threads = int(numbers.integers(1, 6))
                    told, spots = clearmap.distances(obstacles, metric, edge, True, threads)
                    np.testing.assert_array_equal(told, wanted)
                    np.testing.assert_array_equal(spots, where)
                    alone = clearmap.distances(obstacles, metric, edge, threads=threads)
                    np.testing.assert_array_equal(alone, wanted)
                    told, spots = area[edge].distances(metric, nearest=True, threads=threads)
                    np.testing.assert_array_equal(told, wanted)
                    np.testing.assert_array_equal(spots, where)
                    y, x = np.unravel_index(numbers.integers(obstacles.size), obstacles.shape)
                    near = area[edge].at(x, y, metric)
                    spot = tuple(where[y, x])
                    self.assertEqual(near, (wanted[y, x], spot) if spot != (-2, -2) else None)

    def test_dtypes_and_orders(self):
        numbers, chance = np.random.default_rng(6), random.Random(6)
        for turn in range(ARRAYS):
            dtype = np.dtype(DTYPES[turn % len(DTYPES)])
            shape = tuple(numbers.integers(1, 20, 2))
            values = numbers.integers(-128, 300, shape).astype("i8")
            array = (values % 2 if dtype == bool else values).astype(dtype)
            lies = laid(array, chance)
            np.testing.assert_array_equal(lies, array)
            low, high = sorted(chance.choices((-400, -100, -1, 0, 1, 7, 90, 200, 255, 999), k=2))
            whole = array.astype(float) if dtype.kind in "fb" else array.astype(object)
            least, most = ends_of(dtype)
            for limits in ({"low": low}, {"high": high}, {"low": low, "high": high}):
                if limits.get("low", least) > most or limits.get("high", most) < least:
                    self.assertRaises(ValueError, clearmap.distances, lies, **limits)
                    continue
                obstacles = (whole >= limits.get("low", -1e9)) & (
                    whole <= limits.get("high", 1e30)
                )
                told = clearmap.distances(lies, threads=chance.choice((1, 3)), **limits)
                wanted = squares_of(obstacles.astype(bool))
                np.testing.assert_array_equal(told, wanted, f"{dtype} {limits}")
            zeros = squares_of(array == 0)
            if (array == 0).any():
                told = clearmap.distance_transform_edt(lies)
                np.testing.assert_array_equal(told, np.sqrt(zeros.astype(float)))
            if dtype == bool:
                np.testing.assert_array_equal(clearmap.distances(lies), squares_of(array))

    def test_indices(self):
        """Nearest obstacles as numpy's indices, row first: those of `nearest=True` turned round."""
        numbers = np.random.default_rng(6)
        for turn in range(max(ARRAYS // 3, 20)):
            grid = random_obstacles(numbers)
            grid.flat[numbers.integers(grid.size)] = True
            metric, threads = METRICS[turn % 3], int(numbers.integers(1, 4))
            told, spots = clearmap.distances(grid, metric, nearest=True)
            for same, indices in (
                clearmap.distances(grid, metric, nearest="indices"),
                clearmap.Map(grid).distances(metric, "indices", threads),
            ):
                self.assertEqual((indices.dtype, indices.shape), (np.int32, (2, *grid.shape)))
                np.testing.assert_array_equal(same, told)
                np.testing.assert_array_equal(indices[0], spots[:, :, 1])
                np.testing.assert_array_equal(indices[1], spots[:, :, 0])
                self.assertTrue(grid[tuple(indices)].all())

    def test_what_has_no_indices(self):
        """-1 and -2 would count from the end."""
        grid = np.zeros((3, 9), bool)
        with self.assertRaisesRegex(ValueError, "no obstacle: there is no index"):
            clearmap.distances(grid, nearest="indices")
        for spot, cell in ((4, "column 0 and row 0"), (0, "column 2 and row 0")):
            grid[:], grid[:, spot] = False, True
            with self.assertRaisesRegex(ValueError, f"of {cell} is on the frame"):
                clearmap.distances(grid, edge="wall", nearest="indices")
        full = np.ones((3, 9), bool)
        np.testing.assert_array_equal(
            clearmap.distances(full, edge="wall", nearest="indices")[1], np.indices((3, 9))
        )
        for wrong in ("index", None, 2, "True"):
            with self.assertRaisesRegex(ValueError, "True, False or 'indices'"):
                clearmap.distances(grid, nearest=wrong)

    def test_bounds_of_dtypes(self):
        for dtype in "bBhHiIlLqQ":
            least, most = np.iinfo(dtype).min, np.iinfo(dtype).max
            array = np.array([[least, 0, 1, most - 1, most]], dtype)
            for low, high in (
                *((most, None), (most - 1, most - 1), (None, least), (0, 0), (most, 2**64)),
                (-(2**70), 2**70),
            ):
                obstacles = [
                    (low is None or value >= low) and (high is None or value <= high)
                    for value in array[0].tolist()
                ]
                told = clearmap.distances(array, low=low, high=high)
                np.testing.assert_array_equal(told == 0, [obstacles])

    def test_in_place(self):
        wide = np.zeros((9, 40), np.uint8)
        for part in (wide, wide[:, 5:30], wide[::3], wide.view(np.int8), wide.view(bool), wide[2:3],
                     wide[::-1][4:5], wide[:, 7:8]):  # fmt: skip
            cells = grids.map_of(part, Limits(1)).cells
            self.assertTrue(np.shares_memory(cells, wide))
        for part in (wide.T, wide[::-1], wide[:, ::2], np.broadcast_to(wide[0], (9, 40))):
            cells = grids.map_of(part, Limits(1)).cells
            self.assertFalse(np.shares_memory(cells, wide))

    def test_bools_of_other_bytes(self):
        odd = np.array([[0, 2, 255, 0]], np.uint8).view(bool)
        np.testing.assert_array_equal(clearmap.distances(odd), [[1, 0, 0, 1]])
        np.testing.assert_array_equal(clearmap.distances(odd, low=1), [[1, 0, 0, 1]])
        np.testing.assert_array_equal(clearmap.distances(odd, high=0), [[0, 1, 1, 0]])
        np.testing.assert_array_equal(clearmap.distances(odd, low=0), [[0, 0, 0, 0]])
        np.testing.assert_array_equal(clearmap.distance_transform_edt(odd), [[0, 1, 1, 0]])

    def test_sides(self):
        for shape in ((1, 1), (1, 4096), (4096, 1), (4096, 70)):
            grid = np.zeros(shape, bool)
            blank = clearmap.distances(grid)
            self.assertTrue((blank == clearmap.NO_OBSTACLE).all())
            self.assertEqual(clearmap.Map(grid).at(0, 0), None)
            grid[-1, -1] = True
            far = (shape[0] - 1) ** 2 + (shape[1] - 1) ** 2
            for threads in (1, 5):
                self.assertEqual(clearmap.distances(grid, threads=threads)[0, 0], far)
            self.assertEqual(clearmap.Map(grid).at(0, 0).distance, far)
            np.testing.assert_array_equal(clearmap.Map(grid).grid(), grid)
        largest = np.ones((4096, 4096), bool)
        largest[0, 0] = False
        self.assertEqual(clearmap.distances(~largest, "city", threads=2)[-1, -1], 8190)
        told = clearmap.distance_transform_cdt(largest, "taxicab", threads=2)
        self.assertEqual((told[-1, -1], told.dtype), (8190, np.int32))

    def test_what_is_no_grid(self):
        grid = np.zeros((3, 4), np.uint8)
        limit = "1 to 4096 rows and 1 to 4096 columns"
        for shape in ((0, 4), (4, 0), (0, 0), (4097, 1), (1, 4097)):
            for call in (clearmap.distances, clearmap.distance_transform_edt, clearmap.Map):
                with self.assertRaisesRegex(ValueError, limit):
                    call(np.zeros(shape, bool))
        for shape in ((), (4,), (2, 3, 4)):
            with self.assertRaisesRegex(ValueError, "2 dimensions"):
                clearmap.distances(np.zeros(shape, bool))
        for wrong in (grid.astype(object), grid.astype("U1"), grid.astype("M8[s]"),
                      np.zeros((2, 2), [("a", "i4")]), np.ma.masked_equal(grid, 1)):  # fmt: skip
            with self.assertRaises(TypeError):
                clearmap.distances(wrong, low=1)
            with self.assertRaises(TypeError):
                clearmap.distance_transform_edt(wrong)
        for error, words in (
            (ValueError, {}),
            (ValueError, {"low": 3, "high": 2}),
            (ValueError, {"low": float("nan")}),
            (TypeError, {"low": 1.5}),
            (ValueError, {"low": 1, "metric": "euclid"}),
            (ValueError, {"low": 1, "edge": "none"}),
            (ValueError, {"low": 1, "threads": 0}),
            (TypeError, {"low": 1, "threads": 1.5}),
        ):
            self.assertRaises(error, clearmap.distances, grid, **words)
        self.assertRaises(TypeError, clearmap.distances, grid * 1j, low=1)
        self.assertRaises(ValueError, clearmap.distances, grid * float("nan"), low=1)
        self.assertRaises(ValueError, clearmap.distances, [[1], [1, 2]], low=1)


class ScipysCalls(unittest.TestCase):
    def check_indices(self, array, indices, wanted):
        """The indices are of zeros, at the wanted squares."""
        rows, columns = indices
        self.assertEqual((indices.dtype, indices.shape), (np.int32, (2, *array.shape)))
        self.assertTrue((array[rows, columns] == 0).all())
        y, x = np.mgrid[: array.shape[0], : array.shape[1]]
        np.testing.assert_array_equal((rows - y) ** 2 + (columns - x) ** 2, wanted)

    def test_what_is_answered(self):
        array = np.array([[1, 1, 0], [1, 1, 1]])
        both = clearmap.distance_transform_edt(array, return_indices=True)
        self.assertIsInstance(both, tuple)
        self.check_indices(array, both[1], squares_of(array == 0))
        alone = clearmap.distance_transform_edt(array, None, False, True)
        np.testing.assert_array_equal(alone, both[1])
        np.testing.assert_array_equal(clearmap.distance_transform_edt(array, 2), both[0] * 2)
        np.testing.assert_array_equal(clearmap.distance_transform_edt(array, [2, 2]), both[0] * 2)
        for sampling in ((1, 2), 0, -1, (1, 1, 1), (1,), float("nan"), float("inf")):
            self.assertRaises(ValueError, clearmap.distance_transform_edt, array, sampling)
        for sampling in ("1", b"1", ["1", "1"], True, 1j, [None, None]):
            with self.assertRaisesRegex(TypeError, "sampling is .*, where a number or two"):
                clearmap.distance_transform_edt(array, sampling)
        for sampling in (np.float32(2), np.int64(2), [2, 2], (np.uint8(2), 2.0)):
            told = clearmap.distance_transform_edt(array, sampling)
            np.testing.assert_array_equal(told, both[0] * 2)
        with self.assertRaisesRegex(ValueError, "at least one of"):
            clearmap.distance_transform_edt(array, None, False, False)
        for threads in (1, 2):
            for call in (clearmap.distance_transform_edt, clearmap.distance_transform_cdt):
                with self.assertRaisesRegex(ValueError, "no zero"):
                    call(np.ones((3, 3)), threads=threads)
        for metric in ("euclid2", np.ones((3, 3)), None):
            self.assertRaises(ValueError, clearmap.distance_transform_cdt, array, metric)

    @unittest.skipUnless(HAS_SCIPY, "there is no scipy")
    def test_against_scipy(self):
        from scipy import ndimage

        numbers, chance = np.random.default_rng(8), random.Random(8)
        for turn in range(ARRAYS):
            dtype = np.dtype(DTYPES[turn % len(DTYPES)])
            free = ~random_obstacles(numbers, 60)
            free.flat[numbers.integers(free.size)] = False
            array = laid((free * 3).astype(dtype), chance)
            threads = chance.choice((1, 2, 7))
            wanted = ndimage.distance_transform_edt(array)
            told, spots = clearmap.distance_transform_edt(
                array, return_indices=True, threads=threads
            )
            self.assertEqual((told.dtype, told.shape), (wanted.dtype, wanted.shape))
            np.testing.assert_array_equal(told, wanted)
            self.check_indices(array, spots, np.rint(wanted**2))
            scaled = ndimage.distance_transform_edt(array, 0.05)
            told = clearmap.distance_transform_edt(array, 0.05, threads=threads)
            np.testing.assert_allclose(told, scaled, rtol=1e-14)
            for metric in ("chessboard", "taxicab", "cityblock", "manhattan"):
                wanted = ndimage.distance_transform_cdt(array, metric)
                told, spots = clearmap.distance_transform_cdt(array, metric, True, True)
                self.assertEqual((told.dtype, spots.dtype), (wanted.dtype, np.int32))
                np.testing.assert_array_equal(told, wanted)
                self.assertTrue((array[spots[0], spots[1]] == 0).all())

    @unittest.skipUnless(HAS_OPENCV, "there is no OpenCV")
    def test_against_opencv(self):
        import cv2

        numbers = np.random.default_rng(9)
        for _ in range(ARRAYS // 2):
            free = (~random_obstacles(numbers, 60)).astype(np.uint8)
            free.flat[numbers.integers(free.size)] = 0
            for metric, kind in (("city", cv2.DIST_L1), ("chess", cv2.DIST_C)):
                wanted = cv2.distanceTransform(free, kind, 3)
                np.testing.assert_array_equal(clearmap.distances(free, metric, high=0), wanted)
            wanted = cv2.distanceTransform(free, cv2.DIST_L2, cv2.DIST_MASK_PRECISE)
            told = clearmap.distance_transform_edt(free)
            np.testing.assert_allclose(told, wanted, rtol=1e-4)


class Temporaries(unittest.TestCase):
    def test_what_nobody_else_holds(self):
        """Arrays that only the call holds, while another thread takes and collects memory."""
        done = threading.Event()

        def churns():
            while not done.is_set():
                np.full((50, 60), 255, np.uint8)
                gc.collect(0)

        other = threading.Thread(target=churns)
        other.start()
        try:
            for turn in range(200):
                x, y = turn % 60, turn % 50
                square = x * x + y * y
                told = clearmap.distances(self.one(x, y)[::-1, ::-1].astype(np.int16), low=1)
                self.assertEqual(told[-1, -1], square)
                area = clearmap.Map(self.one(x, y).T.copy().T)
                self.assertEqual(area.at(0, 0), (square, (x, y)))
                self.assertEqual(clearmap.distances(self.one(x, y), nearest=True)[1][0, 0, 0], x)
        finally:
            done.set()
            other.join()

    def one(self, x, y):
        """A grid with one obstacle."""
        grid = np.zeros((50, 60), bool)
        grid[y, x] = True
        return grid


class Finding(unittest.TestCase):
    def said(self, code, path=HERE, **settings):
        """What Python says of this code, with these settings in its environment."""
        words = {**os.environ, "PYTHONPATH": str(path), **settings}
        if "CLEARMAP_LIBRARY" not in settings:
            words.pop("CLEARMAP_LIBRARY", None)
        run = [sys.executable, "-c", code]
        return subprocess.run(
            run, env=words, cwd="/", capture_output=True, text=True, timeout=60
        )

    def test_without_numpy(self):
        code = "import sys; sys.modules['numpy'] = None; import clearmap; clearmap.Map([[1]])"
        said = self.said(code).stderr.splitlines()[-1]
        self.assertRegex(said, "ImportError: there is no numpy, .*: install it by")
        code = "import clearmap, sys; print('numpy' in sys.modules)"
        self.assertEqual(self.said(code).stdout, "False\n")

    def test_without_the_library(self):
        code = "import clearmap, numpy; clearmap.Map(numpy.zeros((2, 2), bool))"
        with tempfile.TemporaryDirectory() as folder:
            missing = os.path.join(folder, "none.so")
            said = self.said(code, CLEARMAP_LIBRARY=missing).stderr.splitlines()[-1]
            self.assertRegex(said, f"ImportError: the library {missing} can't be loaded: ")

    def test_where_it_lies(self):
        """Next to the package, and in the lib or lib64 of the prefix that the package is in."""
        code = "import clearmap.library as it; it.library(); print(it._found())"
        installed = "share/clearmap/python"
        for package, place in ((".", "clearmap"), (installed, "lib"), (installed, "lib64")):
            with tempfile.TemporaryDirectory() as folder:
                top = pathlib.Path(folder).resolve()
                shutil.copytree(HERE / "clearmap", top / package / "clearmap")
                file = top / place / library.FILE
                file.parent.mkdir(exist_ok=True)
                shutil.copy(library._found(), file)
                self.assertEqual(self.said(code, top / package).stdout, f"{file}\n")

    def test_where_python_lies(self):
        """In the lib of Python's prefix, as a virtual environment has one."""
        with tempfile.TemporaryDirectory() as folder:
            top = pathlib.Path(folder).resolve()
            shutil.copytree(HERE / "clearmap", top / "clearmap")
            (top / "lib").mkdir()
            shutil.copy(library._found(), top / "lib")
            code = f"import sys; sys.prefix = {str(top)!r}; import clearmap.library as it; "
            said = self.said(code + "it.library(); print(it._found())", top)
            self.assertEqual(said.stdout, f"{top / 'lib' / library.FILE}\n")

    def test_another_library(self):
        code = "import clearmap, numpy; clearmap.distances(numpy.zeros((2, 2), bool))"
        said = self.said(code, CLEARMAP_LIBRARY="/lib/x86_64-linux-gnu/libc.so.6")
        self.assertNotEqual(said.returncode, 0)
        self.assertIn("ImportError: ", said.stderr)

    def test_another_version(self):
        """A package takes a library of its own first two numbers, whatever the third is."""
        version = clearmap.__version__
        line = version.rpartition(".")[0]
        code = "import clearmap.library as it; it.VERSION = {!r}; it.library(); print('taken')"
        self.assertEqual(library.VERSION, f"{line}.")
        file = library._found()
        said = self.said(code.format(f"{line}."), CLEARMAP_LIBRARY=file).stdout
        self.assertEqual(said, "taken\n")
        for other in ("0.3.", "0.5.", f"{line}1.", f"1{line}."):
            said = self.said(code.format(other), CLEARMAP_LIBRARY=file).stderr.splitlines()[-1]
            words = f"is libclearmap {version}, where {other}x is wanted"
            self.assertRegex(said, f"^ImportError: .* {re.escape(words)}$")

    @unittest.skipUnless(
        os.uname().machine == "x86_64" and shutil.which("qemu-x86_64"), "there is no qemu-x86_64"
    )
    def test_a_processor_without_sse(self):
        """It is told, where a call of the library would end the process; the client works."""
        code = "import clearmap; clearmap.Client; import clearmap.library as it; it.library()"
        file = library._found()
        words = {**os.environ, "PYTHONPATH": str(HERE), "CLEARMAP_LIBRARY": file}
        emulated = ["qemu-x86_64", "-cpu", "core2duo", sys.executable, "-c", code]
        said = subprocess.run(emulated, env=words, capture_output=True, text=True, timeout=60)
        words = f"ImportError: the library {file} needs SSE 4.2, which this processor doesn't have"
        self.assertEqual(said.stderr.splitlines()[-1], words)

    def test_what_the_header_says(self):
        """The numbers that this package has of the header."""
        header = (TOP / "clients/c/clearmap.h").read_text()
        for name, number in (("CROOKED", library.CROOKED), ("MEMORY", library.MEMORY)):
            self.assertIn(f"CLEARMAP_{name} = {number}", header)
        for names in (METRICS, EDGES):
            for number, name in enumerate(names):
                self.assertIn(f"CLEARMAP_{name.upper()} = {number}", header)
        self.assertEqual(grids.EDGES, EDGES)
        self.assertIn(f"#define CLEARMAP_NOWHERE ({clearmap.NOWHERE})", header)
        self.assertEqual(clearmap.NO_OBSTACLE, np.iinfo(np.uint32).max)
        self.assertIn(f'#define CLEARMAP_VERSION "{library.VERSION}', header)

    def test_the_distance_for_a_radius(self):
        """The header and the page name first the distance by which no part of a round robot enters
        an obstacle's cell: with r^2 they would name 36 for 6 cells."""
        for page in ("clients/c/clearmap.h", "docs/use/LIBRARY.md"):
            forms = re.findall(r"\bceil\((.*?\^2)\)", (TOP / page).read_text())
            first, other = (
                [math.ceil(eval(form.replace("^", "**"), {"r": r, "sqrt": math.sqrt}))
                 for r in (6, 4.4)]
                for form in forms[:2]
            )  # fmt: skip
            self.assertEqual((first, other), ([55, 34], [36, 20]), page)

    def test_what_the_header_declares(self):
        """Each call has the argument list of the header, in order."""
        header = (TOP / "clients/c/clearmap.h").read_text()
        kinds = {
            "uint32_t": ctypes.c_uint32,
            "uint8_t": ctypes.c_uint8,
            "size_t": ctypes.c_size_t,
            "clearmap_metric": ctypes.c_uint32,
            "clearmap_edge": ctypes.c_uint32,
            "clearmap_bytes *": ctypes.POINTER(library.Bytes),
            "clearmap_bits *": ctypes.POINTER(library.Bits),
        }
        answers = {
            "clearmap_near *near": ctypes.POINTER(library.CNear),
            "clearmap_found *found": ctypes.POINTER(library.CFound),
            "size_t *wrong": ctypes.POINTER(ctypes.c_size_t),
        }
        calls = re.findall(r"^uint32_t (clearmap_\w+)\(([^)]*)\);", header, re.MULTILINE)
        self.assertEqual(len(calls), 27)
        for name, words in calls:
            wanted = []
            for word in re.sub(r"\s+", " ", words).replace("const ", "").split(", "):
                kind = word[: word.rfind(" ") + 1].strip() + (" *" if "*" in word else "")
                other = ctypes.c_void_p if "*" in word else None
                wanted.append(answers.get(word) or kinds.get(kind, other))
            declared = getattr(library.library(), name)
            self.assertEqual(list(declared.argtypes), wanted, name)
            self.assertIs(declared.restype, ctypes.c_uint32)

    def test_a_range_that_is_left_out(self):
        """Each call over bytes refuses a map whose `high` is left out or below `low`, and writes
        nothing."""
        header = (TOP / "clients/c/clearmap.h").read_text()
        refused = int(re.search(r"CLEARMAP_RANGE = (\d+)", header)[1])
        calls = library.library()
        cells, words = np.full((2, 3), 9, np.uint8), np.full(2, 7, np.uint64)
        path = np.array([[0, 0], [2, 0]], np.uint16)
        numbers, nears = np.full(6, 7, np.uint32), np.full((6, 8), 7, np.uint8)
        near, found, bits = library.CNear(7), library.CFound(7), library.Bits(7)
        for high in ({}, {"high": 8}):
            layout = library.Bytes(width=3, height=2, stride=3, low=9, **high)
            over = (cells.ctypes.data, 6, layout)
            told = [
                calls.clearmap_bytes_distances(*over, 0, 0, 0, 2, numbers.ctypes.data, 6),
                calls.clearmap_bytes_nearest(*over, 0, 0, 0, 2, nears.ctypes.data, 6),
                calls.clearmap_bytes_at(*over, 0, 0, 0, 0, near),
                calls.clearmap_bytes_rect(*over, 0, 0, 0, 0, 3, 2, found),
                calls.clearmap_bytes_path(*over, 0, 0, path.ctypes.data, 2, found),
                calls.clearmap_bytes_clear_of(*over, 0, 0, path.ctypes.data, 2, 5, found),
                calls.clearmap_pack(*over, words.ctypes.data, 2, bits),
            ]
            self.assertEqual(told, [refused] * 7)
        self.assertEqual((near.dist, found.x, found.near.dist, bits.width), (7, 7, 0, 7))
        self.assertTrue((numbers == 7).all() and (nears == 7).all() and (words == 7).all())
        with self.assertRaises(clearmap.ClearmapError) as raised:
            library.check(refused)
        self.assertIn(calls.clearmap_status_text(refused).decode(), str(raised.exception))

    def test_bands_that_are_left_out(self):
        """A map in bits is the same where its blank bands aren't told."""
        calls = library.library()
        grid = np.random.default_rng(5).random((200, 70)) < 0.001
        grid[64:128] = False
        memory = clearmap.Map(grid)._held.memory
        old = memory.layout
        self.assertEqual(old.blank_bands >> 1 & 1, 1)
        told = np.empty(grid.shape, np.uint32)
        for bits in (old, library.Bits(width=old.width, height=old.height, stride=old.stride)):
            status = calls.clearmap_bits_distances(
                memory.cells.ctypes.data, memory.length, bits, 0, 0, 0, 200, told.ctypes.data, 14000
            )
            self.assertEqual(status, library.DONE)
            np.testing.assert_array_equal(told, clearmap.distances(grid))

    def test_no_memory(self):
        self.assertRaises(MemoryError, library.check, library.MEMORY)
        self.assertRaises(clearmap.ClearmapError, library.check, 7)
        library.check(library.DONE)


if __name__ == "__main__":
    unittest.main()
