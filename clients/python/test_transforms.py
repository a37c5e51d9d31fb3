#!/usr/bin/env python3
"""Tests of what users of scipy and OpenCV expect of distance transforms: arrays for the results,
float32, and sentences that name a cure. They need numpy and the library; scipy's own calls are
compared with where it is installed. ARRAYS in the environment is how many random arrays are tried,
150 where it isn't there.
"""
import importlib.util
import os
import random
import unittest
from unittest import mock

import numpy as np

import clearmap
from clearmap import transforms

ARRAYS = int(os.environ.get("ARRAYS", "150"))
HAS_SCIPY = importlib.util.find_spec("scipy") is not None
CALLS = ((clearmap.distance_transform_edt, np.float64), (clearmap.distance_transform_cdt, np.int32))
STALE = 77  # what an array holds that isn't written


def random_input(numbers):
    """An array with a zero."""
    array = (numbers.random(numbers.integers(1, 40, 2)) < numbers.choice([0.2, 0.9, 1.0])) * 3
    array.flat[numbers.integers(array.size)] = 0
    return array


def held(shape, dtype, chance):
    """An array for results: a whole one, one in Fortran's order, every other cell, or backwards."""
    kind = chance.randrange(4)
    if kind == 0:
        return np.full(shape, STALE, dtype)
    if kind == 1:
        return np.full(shape, STALE, dtype, order="F")
    if kind == 2:
        return np.full((*shape[:-1], 2 * shape[-1]), STALE, dtype)[..., ::2]
    return np.full(shape, STALE, dtype)[::-1]


class Arrays(unittest.TestCase):
    def test_each_way_to_ask(self):
        """Results are written where an array is given, and returned where none is."""
        numbers, chance = np.random.default_rng(40), random.Random(40)
        for _ in range(ARRAYS):
            array = random_input(numbers)
            for call, dtype in CALLS:
                wanted = call(array, return_indices=True)
                for given in range(1, 4):
                    threads, both = chance.choice((1, 3)), given == 3 or chance.random() < 0.5
                    asked = {"return_distances": both or given & 1 > 0,
                             "return_indices": both or given & 2 > 0}  # fmt: skip
                    arrays = {}
                    if given & 1:
                        arrays["distances"] = held(array.shape, dtype, chance)
                    if given & 2:
                        arrays["indices"] = held((2, *array.shape), np.int32, chance)
                    answer = call(array, **asked, **arrays, threads=threads)
                    self.check(wanted, asked, arrays, answer)

    def check(self, wanted, asked, arrays, answer):
        """Each result that was asked for is in the given array, or else the answer."""
        for result, name in zip(wanted, ("distances", "indices")):
            if name in arrays:
                np.testing.assert_array_equal(arrays[name], result)
            elif asked[f"return_{name}"]:
                np.testing.assert_array_equal(answer, result)
                answer = None
        self.assertIsNone(answer)

    @unittest.skipUnless(HAS_SCIPY, "there is no scipy")
    def test_as_scipy(self):
        """The same arguments, by their places, with the same results and refusals."""
        from scipy import ndimage

        array = np.array([[1, 1, 0], [1, 1, 1]])
        pairs = ((clearmap.distance_transform_edt, ndimage.distance_transform_edt, 2.0, "f8"),
                 (clearmap.distance_transform_cdt, ndimage.distance_transform_cdt, "taxicab", "i4"))
        for own, theirs, second, dtype in pairs:
            results = []
            for call in (own, theirs):
                distances, indices = np.zeros((2, 3), dtype), np.zeros((2, 2, 3), np.int32)
                answer = call(array, second, True, True, distances, indices)
                if call is not ndimage.distance_transform_cdt:  # which writes wrong indices here
                    np.testing.assert_array_equal(indices, theirs(array, second, True, True)[1])
                results.append((answer, distances.tolist()))
                answer = call(array, second, True, False, distances)
                self.assertIsNone(answer)
                for words in ({"distances": distances, "return_distances": False,
                               "return_indices": True}, {"indices": indices},
                              {"distances": distances[:1]}, {"distances": distances.astype("f4")},
                              {"indices": indices[:1], "return_indices": True},
                              {"indices": indices.astype("i8"), "return_indices": True}):  # fmt: skip
                    self.assertRaises(RuntimeError, call, array, **words)
            self.assertEqual(*results)

    def test_input_in_the_same_memory(self):
        """The results may lie over the input, which is read before."""
        for call, dtype in CALLS:
            for threads in (1, 2):
                memory = np.full((40, 30), STALE, dtype)
                array = memory.view(np.uint8)[:, :30]
                array[...] = np.arange(1200).reshape(40, 30) % 91
                wanted, indices = call(array.copy(), return_indices=True)
                found = call(array, return_indices=True, distances=memory, threads=threads)
                np.testing.assert_array_equal(memory, wanted)
                np.testing.assert_array_equal(found, indices)

    def refused(self, call, kind, words, array, **given):
        """A call that is refused so, and has written nothing."""
        with self.assertRaisesRegex(kind, words):
            call(array, **given)
        for name in given:
            if isinstance(given[name], np.ndarray):
                self.assertTrue((given[name] == STALE).all(), name)

    def test_refused(self):
        array = np.array([[1, 1, 0], [1, 1, 1]])
        for call, dtype in CALLS:
            name = np.dtype(dtype).name
            told, indices = np.full((2, 3), STALE, dtype), np.full((2, 2, 3), STALE, np.int32)
            self.refused(call, RuntimeError, r"distances has the shape \(3, 2\), where \(2, 3\)",
                         array, distances=told.T)
            self.refused(call, RuntimeError, r"indices has the shape \(2, 3\), where \(2, 2, 3\)",
                         array, indices=indices[0], return_indices=True)
            self.refused(call, RuntimeError, f"distances is an array of float32, where {name}",
                         array, distances=told.astype("f4"))
            self.refused(call, RuntimeError, f"an array of .*, where {name} is wanted", array,
                         distances=told.astype(told.dtype.newbyteorder()))
            self.refused(call, RuntimeError, "indices is an array of int64, where int32",
                         array, indices=indices.astype("i8"), return_indices=True)
            self.refused(call, RuntimeError, "return_distances must be True", array,
                         distances=told, return_distances=False, return_indices=True)
            self.refused(call, RuntimeError, "return_indices must be True", array, indices=indices)
            self.refused(call, TypeError, "distances is a list", array, distances=[0])
            told.setflags(write=False)
            self.refused(call, RuntimeError, "can't be written", array, distances=told)
            memory = np.zeros(64, np.uint8)
            told = memory[: 6 * told.itemsize].view(dtype).reshape(2, 3)
            indices = memory[16:].view(np.int32).reshape(2, 2, 3)
            with self.assertRaisesRegex(RuntimeError, "distances and indices share memory"):
                call(array, distances=told, indices=indices, return_indices=True)
            self.assertFalse(memory.any())

    def test_nothing_is_written_without_a_zero(self):
        for call, dtype in CALLS:
            for threads in (1, 2):
                told = np.full((3, 4), STALE, dtype)
                indices = np.full((2, 3, 4), STALE, np.int32)
                self.refused(call, ValueError, "no zero", np.ones((3, 4)), distances=told,
                             indices=indices, return_indices=True, threads=threads)  # fmt: skip


class Narrow(unittest.TestCase):
    def test_float32(self):
        """The distances of float64, rounded to the nearest once."""
        numbers = np.random.default_rng(41)
        for _ in range(ARRAYS // 3):
            array, size = random_input(numbers), float(numbers.choice([1.0, 0.05, 3.7]))
            wanted, spots = clearmap.distance_transform_edt(array, size, return_indices=True)
            for dtype in (np.float32, "f4", np.dtype("float32")):
                told = clearmap.distance_transform_edt(array, size, dtype=dtype, threads=2)
                self.assertEqual(told.dtype, np.float32)
                np.testing.assert_array_equal(told, wanted.astype(np.float32))
                told, indices = clearmap.distance_transform_edt(
                    array, size, return_indices=True, dtype=dtype
                )
                np.testing.assert_array_equal(told, wanted.astype(np.float32))
                np.testing.assert_array_equal(indices, spots)
            told = np.zeros(array.shape, np.float32)
            answer = clearmap.distance_transform_edt(array, size, distances=told, dtype="f4")
            self.assertIsNone(answer)
            np.testing.assert_array_equal(told, wanted.astype(np.float32))

    def test_small_pieces(self):
        """Rows are converted some at a time."""
        array = np.ones((50, 40))
        array[33, 7] = 0
        wanted = clearmap.distance_transform_edt(array, 0.05, True, True)
        with mock.patch.object(transforms, "PIECE", 90):
            told = clearmap.distance_transform_edt(array, 0.05, True, True, dtype="f4")
        np.testing.assert_array_equal(told[0], wanted[0].astype("f4"))
        np.testing.assert_array_equal(told[1], wanted[1])

    def test_refused(self):
        for dtype in (np.float16, np.int32, np.longdouble, ">f4", bool):
            with self.assertRaisesRegex(ValueError, "aren't there: float64 or float32"):
                clearmap.distance_transform_edt([[0, 1]], dtype=dtype)
        with self.assertRaisesRegex(RuntimeError, "an array of float64, where float32 is wanted"):
            clearmap.distance_transform_edt([[0, 1]], distances=np.zeros((1, 2)), dtype="f4")


class Cures(unittest.TestCase):
    def test_two_sizes(self):
        with self.assertRaisesRegex(ValueError, "resample the input to square cells, or ask scipy"):
            clearmap.distance_transform_edt([[0, 1]], (0.05, 0.1))

    def test_nan(self):
        """A NaN is neither a zero nor another number, neither an obstacle nor free."""
        for dtype in "efdgFD":
            array = np.ones((3, 4), dtype)
            array[1, 2], array[0, 0] = np.nan, 0
            for call, _ in CALLS:
                with self.assertRaisesRegex(ValueError, "a cell is NaN, .* numpy.nan_to_num"):
                    call(array)
                self.assertEqual(call(np.nan_to_num(array))[1, 2], 0)
        array = np.array([[0.1, np.nan, 0.9]])
        for call in (clearmap.Map, clearmap.distances, clearmap.signed_distances,
                     clearmap.gradients, lambda *a, **k: clearmap.capped_distances(*a, 4, **k)):
            with self.assertRaisesRegex(ValueError, r"a cell is NaN, .*nan_to_num\(grid, nan=low\)"):
                call(array, low=0.65)
        filled = clearmap.Map(np.nan_to_num(array, nan=0.65), low=0.65)
        self.assertEqual(filled.grid().tolist(), [[False, True, True]])


if __name__ == "__main__":
    unittest.main()
