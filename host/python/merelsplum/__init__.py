"""Colours the edges of glyph outlines for multi-channel distance fields.

An outline is a list of contours; a contour is a list of edges; an edge is an array of 2, 3 or 4 control points: a line, a
quadratic or a cubic curve. The functions here call the shared library: that of the folder `MERELSPLUM_LIB_DIR`, or the
one beside this file, where `host/wheel` puts it, or the one that the system finds.
"""

import ctypes
import math
import os
from typing import NamedTuple

import numpy

__all__ = ["COLORS", "Contours", "Directions", "Refusal", "collect_splines", "color", "edge_directions"]

#: The names of the colours, by their bits: 1 red, 2 green, 4 blue.
COLORS = ("black", "red", "green", "yellow", "blue", "magenta", "cyan", "white")

_REASONS = {
    4: "more than 64 contours, 256 edges, 64 splines or 2016 distances",
    5: "a kind of edge is unknown",
    6: "the threshold is no number from -1 to 1",
    7: "a coordinate is no number from -1048576 to 1048576",
    8: "lengths disagree, or distances are not as many as pairs of splines",
    9: "a distance is no finite number from 0 on",
    11: "the result does not fit",
}

_MOST_EDGES = 508
_NO_SPLINE = 255
_BUFFER = [ctypes.c_void_p, ctypes.c_size_t]


class Refusal(ValueError):
    """Why an outline cannot be coloured; `number` is the library's."""

    def __init__(self, number):
        super().__init__(_REASONS.get(number, f"refusal {number}"))
        self.number = number


class Contours(list):
    """The contours of a result, a list.

    `stand_ins` is how many of the outline's directions had no length, so that (0, 1) stood in for them. An edge has two,
    in which it starts and in which it ends; `edge_directions` says which they are.
    """

    def __init__(self, contours, stand_ins):
        super().__init__(contours)
        self.stand_ins = stand_ins


class Directions(NamedTuple):
    """The unit directions of a contour's edges.

    `vectors` has the shape (edges, 2, 2): x and y at the start of an edge, and at its end. `stand_in` has the shape
    (edges, 2): whether that direction had no length and is (0, 1) in its place.
    """

    vectors: numpy.ndarray
    stand_in: numpy.ndarray


def _load():
    name = "libmerelsplum.so.0.2"
    beside = os.path.join(os.path.dirname(os.path.abspath(__file__)), name)
    if folder := os.environ.get("MERELSPLUM_LIB_DIR"):
        library = ctypes.CDLL(os.path.join(folder, name))
    else:
        library = ctypes.CDLL(beside if os.path.exists(beside) else name)
    seed = [ctypes.c_uint64]
    for name, more in [
        ("edge_coloring_simple", seed),
        ("edge_coloring_ink_trap", seed),
        ("edge_coloring_by_distance", seed + _BUFFER),
        ("collect_splines", []),
    ]:
        for end in ("", "_balanced"):
            function = getattr(library, "merelsplum_" + name + end)
            function.argtypes = 3 * _BUFFER + [ctypes.c_double] + more + 4 * _BUFFER
            function.restype = ctypes.c_uint64
    library.merelsplum_edge_directions.argtypes = 5 * _BUFFER
    library.merelsplum_edge_directions.restype = ctypes.c_uint64
    return library


_library = _load()


def _buffers(*arrays):
    return [argument for array in arrays for argument in (array.ctypes.data, array.size)]


def _check(answer):
    if answer >> 32 == 1:
        raise Refusal(answer & 0xFFFFFFFF)


def _outline(contours):
    """The three buffers of an outline."""
    edges = [numpy.asarray(edge, dtype=numpy.float64) for contour in contours for edge in contour]
    if len(contours) > 64 or len(edges) > 256:
        raise Refusal(4)
    for edge in edges:
        if edge.ndim != 2 or edge.shape[1] != 2 or not 2 <= edge.shape[0] <= 4:
            raise ValueError("an edge is an array of 2, 3 or 4 points")
    points = numpy.zeros((len(edges), 8))
    for row, edge in zip(points, edges):
        row[: edge.size] = edge.ravel()
    lengths = numpy.array([len(contour) for contour in contours], dtype=numpy.uint16)
    kinds = numpy.array([edge.shape[0] - 1 for edge in edges], dtype=numpy.uint8)
    return lengths, kinds, points.ravel()


def _call(name, contours, angle, balanced, more):
    """Calls a function of the library: its answer, and the contours of the result with a byte for each edge."""
    lengths = numpy.zeros(len(contours), dtype=numpy.uint16)
    kinds = numpy.zeros(_MOST_EDGES, dtype=numpy.uint8)
    points = numpy.zeros(8 * _MOST_EDGES)
    values = numpy.zeros(_MOST_EDGES, dtype=numpy.uint8)
    outline = _outline(contours)
    function = getattr(_library, "merelsplum_" + name + ("_balanced" if balanced else ""))
    answer = function(*_buffers(*outline), math.sin(angle), *more, *_buffers(lengths, kinds, points, values))
    _check(answer)
    result, at = [], 0
    for length in lengths.tolist():
        edges = range(at, at + length)
        result.append([(points[8 * i :][: 2 * int(kinds[i]) + 2].reshape(-1, 2).copy(), int(values[i])) for i in edges])
        at += length
    return answer, Contours(result, answer >> 48)


def color(contours, strategy="ink_trap", angle=3.0, seed=0, distances=None, *, balanced=False):
    """Colours an outline; the angle, in radians, is that from which a turn is a corner.

    The strategy is "simple", "ink_trap" or "distance". The last needs the distances of the splines that `collect_splines`
    numbers: one for each pair i < j, by i and then by j.

    A contour with one corner is coloured in three runs. With `balanced` the two outer ones are equally long: 47 edges
    are 15, 17 and 15, and not 15, 16 and 16. The two differ only where there is one edge more than a multiple of 46.

    Returns the `Contours`, each a list of pairs: the control points of an edge, and the bits of its colour (see `COLORS`).
    A contour of one or two edges with one corner comes back in thirds.
    """
    names = {"simple": "simple", "ink_trap": "ink_trap", "distance": "by_distance"}
    if strategy not in names:
        raise ValueError("the strategies are simple, ink_trap and distance")
    if (distances is not None) != (strategy == "distance"):
        raise ValueError("distances are for the strategy distance")
    more = [seed]
    if strategy == "distance":
        given = numpy.ascontiguousarray(distances, dtype=numpy.float64)
        more += _buffers(given)
    return _call("edge_coloring_" + names[strategy], contours, angle, balanced, more)[1]


def collect_splines(contours, angle=3.0, *, balanced=False):
    """Cuts an outline into splines, runs of edges from corner to corner, for the colouring by distance.

    `balanced` is that of the colouring.

    Returns how many there are, and the `Contours`, each a list of pairs: the control points of an edge, and the number of
    its spline, None where it belongs to none.
    """
    answer, result = _call("collect_splines", contours, angle, balanced, [])
    numbered = [[(edge, None if spline == _NO_SPLINE else spline) for edge, spline in contour] for contour in result]
    return answer >> 16 & 0xFFFF, Contours(numbered, result.stand_ins)


def edge_directions(contours):
    """The unit directions in which edges start and end, and which of them had no length: `Directions` of each contour."""
    outline = _outline(contours)
    edges = outline[1].size
    vectors = numpy.zeros((edges, 2, 2))
    stand_in = numpy.zeros((edges, 2), dtype=bool)
    _check(_library.merelsplum_edge_directions(*_buffers(*outline, vectors, stand_in)))
    ends = numpy.cumsum([len(contour) for contour in contours], dtype=int)
    places = [slice(end - len(contour), end) for contour, end in zip(contours, ends)]
    return [Directions(vectors[place].copy(), stand_in[place].copy()) for place in places]
