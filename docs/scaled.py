"""A surface that vizrun wrote, at its scale (docs/USING.md).

python3 scaled.py IN OUT   IN is the contour, and OUT a file .vtp
"""
import sys
import vtk

source, target = sys.argv[1:]
reader = vtk.vtkPolyDataReader()
reader.SetFileName(source)
scale = vtk.vtkTransform()
scale.Scale(0.001, 0.001, 0.001)
scaled = vtk.vtkTransformPolyDataFilter()
scaled.SetInputConnection(reader.GetOutputPort())
scaled.SetTransform(scale)
scaled.SetOutputPointsPrecision(vtk.vtkAlgorithm.DOUBLE_PRECISION)
writer = vtk.vtkXMLPolyDataWriter()
writer.SetInputConnection(scaled.GetOutputPort())
writer.SetFileName(target)
writer.Write()
