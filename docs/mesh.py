"""Simple cells at whole points, which vizrun reads (docs/USING-FILES.md).

python3 mesh.py IN OUT SCALE [ARRAY FACTOR]

It multiplies points by SCALE, rounds, and writes them. With ARRAY the values of points of this name
are multiplied by FACTOR, rounded, and written alone.
"""
import sys
import numpy
import vtk
from vtk.util.numpy_support import numpy_to_vtk, vtk_to_numpy


def whole(array, scale):
    rounded = numpy.rint(vtk_to_numpy(array) * float(scale))
    return numpy_to_vtk(rounded.astype(numpy.int64), deep=True)


source, target, scale, *array = sys.argv[1:]
reader = vtk.vtkDataSetReader()
reader.SetFileName(source)
reader.ReadAllScalarsOn()
simple = vtk.vtkDataSetTriangleFilter()
simple.SetInputConnection(reader.GetOutputPort())
simple.Update()
mesh = simple.GetOutput()
mesh.GetPoints().SetData(whole(mesh.GetPoints().GetData(), scale))
if array:
    name, factor = array
    if not mesh.GetPointData().HasArray(name):
        sys.exit("no array has this name")
    numbers = whole(mesh.GetPointData().GetArray(name), factor)
    numbers.SetName(name)
    for arrays in (mesh.GetPointData(), mesh.GetCellData(), mesh.GetFieldData()):
        arrays.Initialize()
    mesh.GetPointData().SetScalars(numbers)
writer = vtk.vtkUnstructuredGridWriter()
writer.SetInputData(mesh)
writer.SetFileName(target)
writer.Write()
