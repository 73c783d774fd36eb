"""Counts the sides of a surface's triangles, in a BINARY file of version 3.0 or 5.1.

python3 large/check.py SURFACE [--vtk]

A side that lies in one triangle is open. In a contour of a whole volume it lies in an outer face of
the volume: both its ends have the least or the greatest coordinate of all along one axis. With
--vtk, VTK's vtkFeatureEdges finds the open sides, and those of more than two triangles.
"""
import sys

import numpy


def lines_until(file, word):
    """The words of the line that begins with this word."""
    while True:
        line = file.readline()
        if not line:
            raise EOFError("no line %s" % word)
        if line.startswith(word.encode()):
            return line.split()


def read_surface(path):
    """The coordinates of the points, and the triangles by points."""
    with open(path, "rb") as file:
        version = file.readline().split()[-1]
        points = int(lines_until(file, "POINTS")[1])
        places = numpy.fromfile(file, ">i8", 3 * points).reshape(-1, 3).astype(numpy.int64)
        first, second = (int(it) for it in lines_until(file, "POLYGONS")[1:])
        if version == b"5.1":
            lines_until(file, "OFFSETS")
            file.seek(8 * first, 1)
            lines_until(file, "CONNECTIVITY")
            corners = numpy.fromfile(file, ">i8", second).reshape(-1, 3)
        else:
            corners = numpy.fromfile(file, ">i4", second).reshape(-1, 4)[:, 1:]
    return places, corners.astype(numpy.int64)


def count_sides(places, corners):
    """All sides, those of two triangles that run through them in opposite directions, those of one,
    and of these the ones in an outer face."""
    points = len(places)
    ends = numpy.concatenate([corners[:, [0, 1]], corners[:, [1, 2]], corners[:, [2, 0]]])
    forward = ends[:, 0] < ends[:, 1]
    keys = ends.min(axis=1) * points + ends.max(axis=1)
    del ends
    ahead, back = numpy.sort(keys[forward]), numpy.sort(keys[~forward])
    del keys
    for some in (ahead, back):
        if (some[1:] == some[:-1]).any():
            sys.exit("check: a side is run through twice in one direction")
    two = numpy.intersect1d(ahead, back, assume_unique=True)
    open_sides = numpy.setxor1d(ahead, back, assume_unique=True)
    low, high = places.min(axis=0), places.max(axis=0)
    one, other = places[open_sides // points], places[open_sides % points]
    border = (((one == low) & (other == low)) | ((one == high) & (other == high))).any(axis=1)
    return len(two) + len(open_sides), len(two), len(open_sides), int(border.sum())


def by_vtk(path):
    """What vtkFeatureEdges finds: open sides, open ones inside, and those of three triangles."""
    import vtk
    from vtk.util.numpy_support import vtk_to_numpy

    reader = vtk.vtkPolyDataReader()
    reader.SetFileName(path)
    reader.Update()
    found = []
    for boundary in (True, False):
        edges = vtk.vtkFeatureEdges()
        edges.SetInputConnection(reader.GetOutputPort())
        edges.FeatureEdgesOff()
        edges.ManifoldEdgesOff()
        edges.SetBoundaryEdges(boundary)
        edges.SetNonManifoldEdges(not boundary)
        edges.Update()
        found.append(edges.GetOutput())
    places = vtk_to_numpy(reader.GetOutput().GetPoints().GetData())
    low, high = places.min(axis=0), places.max(axis=0)
    ends = vtk_to_numpy(found[0].GetPoints().GetData())
    lines = vtk_to_numpy(found[0].GetLines().GetConnectivityArray()).reshape(-1, 2)
    one, other = ends[lines[:, 0]], ends[lines[:, 1]]
    border = (((one == low) & (other == low)) | ((one == high) & (other == high))).any(axis=1)
    return len(lines), len(lines) - int(border.sum()), found[1].GetNumberOfCells()


def main():
    path = sys.argv[1]
    places, corners = read_surface(path)
    print("triangles %d points %d" % (len(corners), len(places)))
    if len(corners):
        print("sides %d two %d open %d border %d" % count_sides(places, corners))
    if "--vtk" in sys.argv[2:]:
        print("by VTK: open %d inside %d of more than two %d" % by_vtk(path))


if __name__ == "__main__":
    main()
