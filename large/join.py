"""Joins the pieces of a surface to one BINARY file, whose points at the seams are one.

A point at a seam is kept where the later slab has it. So points ascend by the names that one run of
vizrun on the whole volume gives them, triangles go by cubes, and the file is that of such a run.
"""
import os

import numpy

from pieces import POINT, SCALAR, TRIANGLE
from slabs import MOST_POINTS

# So many triangles, and so many bytes, are looked at at once.
CHUNK = 1 << 20


def kept_of(pieces):
    """How many points of each piece stand in the joined file: of the last one all."""
    return [it.points - it.top for it in pieces[:-1]] + [pieces[-1].points]


def read_at(path, place, kind, count):
    """So many numbers of a file, from a place on."""
    with open(path, "rb") as file:
        file.seek(place)
        return numpy.fromfile(file, kind, count)


def check_seam(one, next_one, bottom):
    """Compares the points of a seam in both pieces: the same number, and equal coordinates."""
    if len(bottom) != one.top:
        raise ValueError("%s ends in %d points, and %s begins with %d"
                         % (one.path, one.top, next_one.path, len(bottom)))
    first = one.points_at + POINT * (one.points - one.top)
    ours = read_at(one.path, first, ">i8", 3 * one.top).reshape(-1, 3)
    most = int(bottom[-1]) + 1 if len(bottom) else 0
    theirs = read_at(next_one.path, next_one.points_at, ">i8", 3 * most).reshape(-1, 3)[bottom]
    if not numpy.array_equal(ours, theirs):
        raise ValueError("%s and %s differ at their seam" % (one.path, next_one.path))


def copy_part(piece, place, count, target):
    """Copies so many bytes of a piece."""
    with open(piece.path, "rb") as file:
        file.seek(place)
        while count:
            block = file.read(min(count, 16 * CHUNK))
            if not block:
                raise EOFError(piece.path)
            target.write(block)
            count -= len(block)


def triangles_of(piece, base, bottom):
    """The triangles of a piece by their points in the joined file, a block at a time. Behind the
    points that are kept stand those that the next piece has, at these places of its own."""
    kept = piece.points - piece.top if bottom is not None else piece.points
    for first in range(0, piece.triangles, CHUNK):
        count = min(CHUNK, piece.triangles - first)
        rows = read_at(piece.path, piece.cells_at + TRIANGLE * first, ">i4", 4 * count)
        corners = rows.reshape(-1, 4)[:, 1:].astype(numpy.int64)
        if bottom is not None:
            late = corners >= kept
            corners[late] = kept + bottom[corners[late] - kept]
        yield corners + base


def write_cells(pieces, bases, bottoms, triangles, version, target):
    """Writes the section of triangles, in the form of a version."""
    if version == 5:
        target.write(b"POLYGONS %d %d\nOFFSETS vtktypeint64\n" % (triangles + 1, 3 * triangles))
        for first in range(0, triangles + 1, CHUNK):
            count = min(CHUNK, triangles + 1 - first)
            (3 * numpy.arange(first, first + count)).astype(">i8").tofile(target)
        target.write(b"\nCONNECTIVITY vtktypeint64\n")
    else:
        target.write(b"POLYGONS %d %d\n" % (triangles, 4 * triangles))
    for piece, base, bottom in zip(pieces, bases, bottoms):
        for corners in triangles_of(piece, base, bottom):
            if version == 5:
                corners.astype(">i8").tofile(target)
            else:
                rows = numpy.full((len(corners), 4), 3, ">i4")
                rows[:, 1:] = corners
                rows.tofile(target)
    if triangles:
        target.write(b"\n")


def write_joined(pieces, bottoms, digits, version, target):
    """Writes the lines and blocks of the whole file."""
    kept = kept_of(pieces)
    bases = [sum(kept[:at]) for at in range(len(kept))]
    points, triangles = sum(kept), sum(it.triangles for it in pieces)
    target.write(b"# vtk DataFile Version %s\nvizrun fixed 10^-%d\nBINARY\nDATASET POLYDATA\n"
                 b"POINTS %d long\n" % (b"3.0" if version == 3 else b"5.1", digits, points))
    for piece, count in zip(pieces, kept):
        copy_part(piece, piece.points_at, POINT * count, target)
    target.write(b"\n" if points else b"")
    write_cells(pieces, bases, bottoms, triangles, version, target)
    if points:
        target.write(b"POINT_DATA %d\nSCALARS scalars long 1\nLOOKUP_TABLE default\n" % points)
        for piece, count in zip(pieces, kept):
            copy_part(piece, piece.scalars_at, SCALAR * count, target)
        target.write(b"\n")
    return points, triangles


def join(pieces, digits, path):
    """Joins pieces to a file of version 3.0, or of 5.1 where their numbers have no room in it, and
    gives its points, its triangles, and the points of all seams."""
    bottoms = [numpy.load(it.bottom) for it in pieces[1:]] + [None]
    for one, next_one, bottom in zip(pieces, pieces[1:], bottoms):
        check_seam(one, next_one, bottom)
    points = sum(kept_of(pieces))
    triangles = sum(it.triangles for it in pieces)
    version = 3 if max(points, 4 * triangles) <= MOST_POINTS else 5
    with open(path + ".part", "wb", buffering=16 * CHUNK) as target:
        write_joined(pieces, bottoms, digits, version, target)
    os.replace(path + ".part", path)
    return points, triangles, sum(it.top for it in pieces[:-1])
