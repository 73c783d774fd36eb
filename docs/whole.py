"""Whole numbers of one array of an image, which vizrun reads (docs/USING-FILES.md).

python3 whole.py IN OUT ARRAY SCALE   multiplies the array by SCALE, rounds, and writes it alone
"""
import sys
import numpy
import vtk
from vtk.util.numpy_support import numpy_to_vtk, vtk_to_numpy

source, target, array, scale = sys.argv[1:]
if source.endswith(".vtk"):
    reader = vtk.vtkDataSetReader()
    reader.ReadAllScalarsOn()
else:
    reader = vtk.vtkXMLGenericDataObjectReader()
reader.SetFileName(source)
reader.Update()
image = reader.GetOutput()
if not image.IsA("vtkImageData"):
    sampled = vtk.vtkResampleToImage()
    sampled.SetInputDataObject(image)
    sampled.SetSamplingDimensions(20, 20, 20)
    sampled.Update()
    image = sampled.GetOutput()
if image.GetCellData().HasArray(array):
    spread = vtk.vtkCellDataToPointData()
    spread.SetInputData(image)
    spread.Update()
    image = spread.GetOutput()
if not image.GetPointData().HasArray(array):
    sys.exit("no array has this name")
values = numpy.rint(vtk_to_numpy(image.GetPointData().GetArray(array)) * float(scale))
if not (abs(values) < 2.0 ** 63).all():
    sys.exit("a value is no whole number of 64 bits")
numbers = numpy_to_vtk(values.astype(numpy.int64), deep=True)
numbers.SetName(array)
for arrays in (image.GetPointData(), image.GetCellData(), image.GetFieldData()):
    arrays.Initialize()
image.GetPointData().SetScalars(numbers)
writer = vtk.vtkStructuredPointsWriter()
writer.SetInputData(image)
writer.SetFileName(target)
writer.Write()
