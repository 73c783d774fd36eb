#!/usr/bin/env python3
"""A plain contour, beside the one that is proved: no flags, no ranks by search, fractions for points.

It makes the surface of the image of 4 x 4 x 4 points in crates/viz_once_tests/src/contour_texts.rt,
and compares it with the text there; and it counts the contour of 32 x 32 x 32 points and the sides
of its triangles, whose numbers tests of viz_once_tests and viz_contour_tests and `.ci/rows.py` want.
It makes the volume of the number 7, of so many points too, and counts what the row
`.ci/rows/generated-volume` wants of it, which is made twice there.
"""
import os
import re
import sys
from fractions import Fraction
from math import floor

TOP = os.path.dirname(os.path.dirname(os.path.abspath(__file__)))

# The six tetrahedra of a cube, each by its corners as steps along x, y and z.
TETRAHEDRA = ["000 100 110 111", "000 101 100 111", "000 110 010 111",
              "000 010 011 111", "000 001 101 111", "000 011 001 111"]
STEPS = [[tuple(int(b) for b in corner) for corner in row.split()] for row in TETRAHEDRA]

# The cells of a tetrahedron by the corners that are inside; an end is the edge of two corners.
CASES = {"0": "01 02 03", "1": "12 01 13", "2": "02 12 23", "3": "13 03 23",
         "123": "02 01 03", "023": "01 12 13", "013": "12 02 23", "012": "03 13 23",
         "01": "02 03 13,02 13 12", "02": "01 12 23,01 23 03", "03": "01 02 23,01 23 13",
         "12": "01 13 23,01 23 02", "13": "01 03 23,01 23 12", "23": "02 12 13,02 13 03"}


def contour(sizes, origin, spacing, values, level):
    """The names in order, the point of each, and the triangles by the numbers of their names."""
    nx, ny, nz = sizes

    def leaf(i, j, k):
        return i + nx * (j + ny * k)

    cells = []
    for k in range(nz - 1):
        for j in range(ny - 1):
            for i in range(nx - 1):
                for steps in STEPS:
                    corners = [leaf(i + a, j + b, k + c) for a, b, c in steps]
                    inside = "".join(str(n) for n in range(4) if values[corners[n]] >= level)
                    for cell in CASES.get(inside, "").split(","):
                        ends = [sorted((corners[int(e[0])], corners[int(e[1])])) for e in cell.split()]
                        cells += [[tuple(e) for e in ends]] if ends else []
    names = sorted({name for cell in cells for name in cell})
    number = {name: n for n, name in enumerate(names)}

    def place(leaf):
        index = (leaf % nx, leaf // nx % ny, leaf // nx // ny)
        return [origin[axis] + spacing[axis] * index[axis] for axis in range(3)]

    def point(name):
        p, q = (place(end) for end in name)
        part = Fraction(level - values[name[0]], values[name[1]] - values[name[0]])
        return [a + part * (b - a) for a, b in zip(p, q)]

    return names, [point(name) for name in names], [[number[end] for end in cell] for cell in cells]


def audit(sizes, names, triangles):
    """How many sides there are, in two triangles that run through them in opposite directions, in
    one, and in one with a facet on the boundary of the grid."""
    ways = {}
    for a, b, c in triangles:
        for tail, head in ((a, b), (b, c), (c, a)):
            ways.setdefault((min(tail, head), max(tail, head)), []).append(tail < head)

    def on_boundary(side):
        leaves = {leaf for name in side for leaf in names[name]}
        nx, ny, _ = sizes
        places = [(leaf % nx, leaf // nx % ny, leaf // nx // ny) for leaf in leaves]
        ends = [(axis, end) for axis in range(3) for end in (0, sizes[axis] - 1)]
        return len(leaves) == 3 and any(all(it[axis] == end for it in places) for axis, end in ends)

    lone = [side for side, found in ways.items() if len(found) == 1]
    two = sum(sorted(found) == [False, True] for found in ways.values())
    return len(ways), two, len(lone), sum(map(on_boundary, lone))


def surface(points, triangles, level):
    """The written file."""
    lines = ["# vtk DataFile Version 3.0", "vizrun fixed 10^-3", "ASCII", "DATASET POLYDATA",
             "POINTS %d long" % len(points)]
    lines += [" ".join(str(floor(1000 * c)) for c in point) for point in points]
    lines += ["POLYGONS %d %d" % (len(triangles), 4 * len(triangles))]
    lines += ["3 %d %d %d" % tuple(triangle) for triangle in triangles]
    if points:
        lines += ["POINT_DATA %d" % len(points), "SCALARS scalars long 1", "LOOKUP_TABLE default"]
        lines += [str(level)] * len(points)
    return "\n".join(lines) + "\n"


def numbers(text, keyword, count):
    return [int(n) for n in re.search(keyword + r"((?:\s+-?\d+){%d})" % count, text)[1].split()]


def constants(path):
    with open(os.path.join(TOP, path), encoding="utf-8") as file:
        return dict(re.findall(r'const (\w+): &str = "([^"]*)";', file.read()))


def volume(number, count):
    """The values that a number makes, as the example of `rand` in ISO C."""
    values = []
    for _ in range(count):
        number = (number * 1103515245 + 12345) % 2**31
        values.append(number // 65536 % 256)
    return values


def report_of(number, sizes):
    """What `make` puts of a number."""
    values = volume(number, sizes[0] * sizes[1] * sizes[2])
    names, _, triangles = contour(sizes, [0] * 3, [1] * 3, values, 128)
    return "made points %d sum %d\naudit cells %d sides %d two %d open %d border %d\n" % (
        len(values), sum(values), len(triangles), *audit(sizes, names, triangles))


def main():
    texts = constants("crates/viz_once_tests/src/contour_texts.rt")
    image = texts["MIXED_FILE"]
    sizes = numbers(image, "DIMENSIONS", 3)
    values = numbers(image, "LOOKUP_TABLE default", sizes[0] * sizes[1] * sizes[2])
    made = contour(sizes, numbers(image, "ORIGIN", 3), numbers(image, "SPACING", 3), values, 11)
    if surface(*made[1:], 11) != texts["MIXED_SURFACE"]:
        sys.exit("contour: the surface of 4 x 4 x 4 points differs")
    large = [(7 * i + 11 * j + 13 * k) % 17
             for k in range(32) for j in range(32) for i in range(32)]
    names, points, triangles = contour([32] * 3, [0] * 3, [1] * 3, large, 8)
    if (len(triangles), len(points)) != (238328, 113799):
        sys.exit("contour: 32 x 32 x 32 points: %d triangles, %d points" % (len(triangles), len(points)))
    counts = audit([32] * 3, names, triangles)
    if counts != (362579, 352405, 10174, 10174):
        sys.exit("contour: 32 x 32 x 32 points: sides %d two %d open %d border %d" % counts)
    with open(os.path.join(TOP, ".ci/rows/generated-volume/want/stdout"), encoding="utf-8") as row:
        wanted = row.read()
    if not wanted.endswith(report_of(7, [32] * 3) * 2):
        sys.exit("contour: the volume of 7 on 32 x 32 x 32 points differs")
    print("contour: three surfaces, and the sides of two, are those of a plain program")


main()
