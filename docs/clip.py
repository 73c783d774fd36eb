"""The clipped volume of docs/USING.md: how large it is, and its picture.

python3 clip.py volume FILE        prints the volume of the tetrahedra that vizrun wrote
python3 clip.py picture FILE PNG   draws those where the numbers are at least 0, with VTK
"""
import sys

import vtk
from vtk.util.numpy_support import vtk_to_numpy


def reader(path):
    read = vtk.vtkUnstructuredGridReader()
    read.SetFileName(path)
    read.Update()
    return read


def volume(path):
    read = reader(path)
    grid = read.GetOutput()
    points = vtk_to_numpy(grid.GetPoints().GetData()) / 1000
    cells = vtk_to_numpy(grid.GetCells().GetConnectivityArray()).reshape(-1, 4)
    first, *others = (points[cells[:, corner]] for corner in range(4))
    x, y, z = ((other - first).T for other in others)
    sixths = (x[0] * (y[1] * z[2] - y[2] * z[1]) + x[1] * (y[2] * z[0] - y[0] * z[2])
              + x[2] * (y[0] * z[1] - y[1] * z[0]))
    print(f"cells {len(cells)} volume {abs(sixths).sum() / 6:.3f}")


def picture(path, png):
    read = reader(path)
    solid = vtk.vtkClipDataSet()
    solid.SetInputConnection(read.GetOutputPort())
    solid.SetValue(0)
    colors = vtk.vtkLookupTable()
    colors.SetHueRange(0.58, 0.08)
    colors.SetSaturationRange(0.55, 0.65)
    colors.SetValueRange(0.85, 0.95)
    colors.SetNumberOfColors(6)
    colors.Build()
    mapper = vtk.vtkDataSetMapper()
    mapper.SetInputConnection(solid.GetOutputPort())
    mapper.SetLookupTable(colors)
    mapper.InterpolateScalarsBeforeMappingOn()
    mapper.SetScalarRange(0, 15000)
    actor = vtk.vtkActor()
    actor.SetMapper(mapper)
    actor.GetProperty().SetInterpolationToFlat()
    renderer = vtk.vtkRenderer()
    renderer.SetBackground(1, 1, 1)
    renderer.AddActor(actor)
    renderer.GetActiveCamera().SetPosition(1.6, -2.2, 1.3)
    renderer.GetActiveCamera().SetViewUp(0, 0, 1)
    renderer.ResetCamera()
    renderer.GetActiveCamera().Zoom(1.3)
    window = vtk.vtkRenderWindow()
    window.SetOffScreenRendering(1)
    window.SetSize(270, 270)
    window.AddRenderer(renderer)
    window.Render()
    shot = vtk.vtkWindowToImageFilter()
    shot.SetInput(window)
    writer = vtk.vtkPNGWriter()
    writer.SetCompressionLevel(9)
    writer.SetInputConnection(shot.GetOutputPort())
    writer.SetFileName(png)
    writer.Write()


if __name__ == "__main__":
    {"volume": volume, "picture": picture}[sys.argv[1]](*sys.argv[2:])
