"""Tests of the module, which is installed: python3 test.py."""

import math
import unittest
from itertools import groupby

import numpy
from merelsplum import COLORS, Refusal, collect_splines, color, edge_directions

SQUARE = [[[[0, 0], [1, 0]], [[1, 0], [1, 1]], [[1, 1], [0, 1]], [[0, 1], [0, 0]]]]


def drop(edges):
    """A contour of lines that turn a little each, and far from the last to the first."""
    ways = [3 / (edges - 1) * i for i in range(edges)]
    return [[[0, 0], [math.cos(way), math.sin(way)]] for way in ways]


def runs(contour):
    return [(value, len(list(edges))) for value, edges in groupby(value for _, value in contour)]


def names(contours):
    return [[COLORS[bits] for _, bits in contour] for contour in contours]


class Tests(unittest.TestCase):
    def test_square(self):
        self.assertEqual(names(color(SQUARE, "simple")), [["magenta", "yellow", "cyan", "yellow"]])
        for (points, _), edge in zip(color(SQUARE)[0], SQUARE[0]):
            numpy.testing.assert_array_equal(points, edge)

    def test_seed(self):
        self.assertNotEqual(names(color(SQUARE, seed=1)), names(color(SQUARE, seed=2)))

    def test_thirds(self):
        drop = [[numpy.array([[0, 0], [6, 6], [-6, 6], [0, 0]])]]
        (contour,) = color(drop, "simple")
        self.assertEqual([points.shape for points, _ in contour], 3 * [(4, 2)])

    def test_curves(self):
        (contour,) = color([[[[0, 0], [4, 8], [8, 0]], [[8, 0], [0, 0]]]], "simple")
        self.assertEqual([len(points) for points, _ in contour], [3, 2])

    def test_distance(self):
        count, (contour,) = collect_splines(SQUARE)
        self.assertEqual((count, [spline for _, spline in contour]), (4, [0, 1, 2, 3]))
        distances = [0, 1, 0, 0, 1, 0]
        (colored,) = color(SQUARE, "distance", distances=distances)
        bits = [bits for _, bits in colored]
        self.assertTrue(all(a != b for a, b in zip(bits, bits[1:] + bits[:1])), bits)

    def test_balanced(self):
        for balanced, lengths in [(False, (15, 16, 16)), (True, (15, 17, 15))]:
            splines, (collected,) = collect_splines([drop(47)], balanced=balanced)
            self.assertEqual((splines, runs(collected)), (2, list(zip((0, None, 1), lengths))))
            for strategy, distances in [("simple", None), ("ink_trap", None), ("distance", [0])]:
                (contour,) = color([drop(47)], strategy, distances=distances, balanced=balanced)
                (first, a), (middle, b), (last, c) = runs(contour)
                self.assertEqual((a, b, c), lengths)
                self.assertTrue(middle == 7 and first != 7 and last != 7 and first != last)
        for edges in (46, 48):
            outline = SQUARE + [drop(edges)]
            self.assertEqual(names(color(outline, balanced=True)), names(color(outline)))

    def test_directions(self):
        ((sides, stand_in),) = edge_directions(SQUARE)
        numpy.testing.assert_array_equal(sides[:, 0], [[1, 0], [0, 1], [-1, 0], [0, -1]])
        numpy.testing.assert_array_equal(sides[:, 1], sides[:, 0])
        self.assertFalse(stand_in.any())
        # the first two points are the same: the third is taken; a line without length
        cubic, line = [[1, 1], [1, 1], [4, 5], [4, -2]], [[7, 7], [7, 7]]
        directions = edge_directions([[], [cubic], [], [line, cubic]])
        shapes = [(contour.vectors.shape, contour.stand_in.shape) for contour in directions]
        self.assertEqual(shapes, [((n, 2, 2), (n, 2)) for n in (0, 1, 0, 2)])
        numpy.testing.assert_array_equal(directions[1].vectors[0], [[0.6, 0.8], [0, -1]])
        numpy.testing.assert_array_equal(directions[3].vectors, [[[0, 1], [0, 1]], [[0.6, 0.8], [0, -1]]])
        self.assertEqual(directions[3].stand_in.tolist(), [[True, True], [False, False]])
        self.assertEqual(edge_directions([]), [])

    def test_stand_ins(self):
        # a point that stands twice, a curve without a direction at its end, and one that goes straight up
        point, curve, up = [[1, 0], [1, 0]], [[1, 1], [4, 5], [4, 5], [4, 5]], [[3, 3], [3, 3], [3, 5]]
        outline = [SQUARE[0][:1] + [point] + SQUARE[0][1:], [], [curve, up]]
        splines, collected = collect_splines(outline)
        distances = [1.0] * (splines * (splines - 1) // 2)
        by_distance = color(outline, "distance", distances=distances)
        for result in [color(outline, "simple"), color(outline), by_distance, collected]:
            self.assertEqual((len(result), result.stand_ins), (3, 3))
        flags = [contour.stand_in.tolist() for contour in edge_directions(outline)]
        self.assertEqual(flags[0], [[False, False], [True, True]] + 3 * [[False, False]])
        self.assertEqual(flags[1:], [[], [[False, True], [False, False]]])
        self.assertEqual((color(SQUARE).stand_ins, color([]).stand_ins), (0, 0))
        self.assertEqual(color([256 * [point]]).stand_ins, 512)

    def test_refusals(self):
        for number, call in [
            (4, lambda: color(65 * SQUARE)),
            (7, lambda: color([[[[0, 0], [float("nan"), 0]]]])),
            (8, lambda: color(SQUARE, "distance", distances=[1.0])),
            (9, lambda: color(SQUARE, "distance", distances=6 * [-1.0])),
            (4, lambda: color(65 * SQUARE, balanced=True)),
            (8, lambda: color(SQUARE, "distance", distances=[1.0], balanced=True)),
            (7, lambda: collect_splines([[[[0, 0], [2e6, 0]]]], balanced=True)),
            (4, lambda: edge_directions(65 * SQUARE)),
            (7, lambda: edge_directions([[[[0, 0], [2e6, 0]]]])),
        ]:
            with self.assertRaises(Refusal) as refused:
                call()
            self.assertEqual(refused.exception.number, number)

    def test_bad_calls(self):
        for call in [
            lambda: color(SQUARE, "random"),
            lambda: color(SQUARE, "distance"),
            lambda: color(SQUARE, distances=[]),
            lambda: color([[[[0, 0]]]]),
            lambda: color([[[[0, 0, 0], [1, 1, 1]]]]),
        ]:
            with self.assertRaises(ValueError):
                call()


unittest.main()
