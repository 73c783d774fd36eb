"""Pieces of a surface: what vizrun makes of a slab of a volume, and where the seams lie in it."""
import os
import shutil
import subprocess
import tempfile
from dataclasses import dataclass

import numpy

import slabs
import volume as volumes

# The bytes of a point, of a scalar, and of a triangle with its count, as vizrun writes them.
POINT, SCALAR, TRIANGLE = 24, 8, 16


@dataclass
class Piece:
    """What a slab gave for a level: a file of vizrun, where its parts begin, and its seams.

    The last `top` points lie on edges of the slab's last plane, and `bottom` is the file that
    says which of its points lie on edges of its first plane, in the same order.
    """
    path: str
    points: int
    triangles: int
    top: int
    bottom: str
    points_at: int = 0
    cells_at: int = 0
    scalars_at: int = 0


def script_of(levels, digits):
    """The script that reads the slab once, and writes each level's surface in BINARY."""
    lines = ["add file src", "load src slab.vtk", "add contour iso", "connect src iso 1",
             "set iso release 1", "add writer out", "connect iso out 1", "set out form binary",
             "set out digits %d" % digits]
    for at, level in enumerate(levels):
        lines += ["set iso levels %d" % level, "update out level%d.vtk 1 1" % at]
    return "".join("1 %s\n" % line for line in lines)


def run_vizrun(program, folder, seconds):
    """Runs the script of a folder. All but status 0 is an error that tells what vizrun put."""
    words = [program, "--dir", folder, "run", "slab.script", "slab.journal"]
    done = subprocess.run(words, stdin=subprocess.DEVNULL, stdout=subprocess.PIPE,
                          stderr=subprocess.STDOUT, timeout=seconds)
    if done.returncode != 0:
        told = done.stdout.decode("utf-8", "replace").strip().splitlines()
        wrong = [line for line in told if not line.startswith(("edit ", "file "))] or told[-1:]
        raise RuntimeError("vizrun ended with status %d: %s" % (done.returncode, "; ".join(wrong)))


def places_of_bottom(values, level):
    """Where the points of the first plane stand among those of a slab: a point is an edge, and
    stands by its lesser corner, and then by its greater one."""
    low, high = slabs.inside(values[:2], level)
    flat = slabs.cuts(low, low, slabs.IN_PLANE).ravel().astype(numpy.int64)
    all_edges = flat + slabs.cuts(low, high, slabs.UPWARD).ravel()
    begins = numpy.cumsum(all_edges) - all_edges
    which = numpy.repeat(numpy.arange(len(flat)), flat)
    rank = numpy.arange(len(which)) - numpy.repeat(numpy.cumsum(flat) - flat, flat)
    return begins[which] + rank


def points_of_top(values, level):
    """How many points lie on edges of the last plane: they are the last ones of the slab."""
    high = slabs.inside(values[-1:], level)[0]
    return int(slabs.cuts(high, high, slabs.IN_PLANE).sum())


def read_piece(path, top, bottom):
    """Finds the parts of a surface that vizrun wrote."""
    with open(path, "rb") as file:
        def line():
            return file.readline().decode("ascii").split()
        head = [line() for _ in range(5)]
        if head[2:4] != [["BINARY"], ["DATASET", "POLYDATA"]] or head[4][0] != "POINTS":
            raise ValueError("%s is no surface of vizrun" % path)
        piece = Piece(path, int(head[4][1]), 0, top, bottom, file.tell())
        file.seek(POINT * piece.points + (1 if piece.points else 0), os.SEEK_CUR)
        piece.triangles, numbers = (int(word) for word in line()[1:])
        piece.cells_at = file.tell()
        file.seek(TRIANGLE * piece.triangles + (1 if piece.triangles else 0), os.SEEK_CUR)
        if numbers != 4 * piece.triangles:
            raise ValueError("%s has other cells than triangles" % path)
        if piece.points:
            heads = [line() for _ in range(3)]
            if heads[0] != ["POINT_DATA", str(piece.points)]:
                raise ValueError("%s has no scalars" % path)
        piece.scalars_at = file.tell()
        file.seek(0, os.SEEK_END)
        if file.tell() != piece.scalars_at + (SCALAR * piece.points + 1 if piece.points else 0):
            raise ValueError("%s is cut off" % path)
    return piece


def contour_slab(volume, planes, levels, digits, program, target, seconds):
    """Contours the planes of a volume at each level, and leaves the pieces as `target-..`. What
    vizrun reads and writes lies in a folder of its own meanwhile, so nothing half done is seen."""
    values = volume.planes(*planes)
    with tempfile.TemporaryDirectory(prefix="vizrun-slab-") as folder:
        volumes.write_slab(volume, values, planes[0], os.path.join(folder, "slab.vtk"))
        with open(os.path.join(folder, "slab.script"), "w", encoding="ascii") as file:
            file.write(script_of(levels, digits))
        seams = [(points_of_top(values, it), places_of_bottom(values, it)) for it in levels]
        del values
        run_vizrun(program, folder, seconds)
        pieces = []
        for at, (top, bottom) in enumerate(seams):
            made = os.path.join(folder, "level%d.vtk" % at)
            read_piece(made, top, None)
            path, seam = "%s-level%d.vtk" % (target, at), "%s-level%d.npy" % (target, at)
            numpy.save(seam, bottom)
            shutil.move(made, path + ".part")
            os.replace(path + ".part", path)
            pieces.append(read_piece(path, top, seam))
    return pieces
