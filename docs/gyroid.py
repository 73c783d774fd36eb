"""The gyroid of docs/USING.md: its volume, and the picture of its contour.

python3 gyroid.py volume FILE        writes 64 x 64 x 64 numbers of 16 bits, ASCII
python3 gyroid.py picture FILE PNG   draws a contour that vizrun wrote, with VTK
"""
import math
import sys

SIZE = 64


def volume(path):
    angle = 2 * math.pi * 4 / SIZE
    sine = [math.sin(angle * i) for i in range(SIZE)]
    cosine = [math.cos(angle * i) for i in range(SIZE)]
    with open(path, "w") as file:
        file.write("# vtk DataFile Version 3.0\ngyroid\nASCII\nDATASET STRUCTURED_POINTS\n")
        file.write(f"DIMENSIONS {SIZE} {SIZE} {SIZE}\nORIGIN 0 0 0\nSPACING 1 1 1\n")
        file.write(f"POINT_DATA {SIZE ** 3}\nSCALARS scalars short 1\nLOOKUP_TABLE default\n")
        for z in range(SIZE):
            for y in range(SIZE):
                row = (sine[x] * cosine[y] + sine[y] * cosine[z] + sine[z] * cosine[x]
                       for x in range(SIZE))
                file.write(" ".join(str(round(value * 10000)) for value in row) + "\n")


def surface(path):
    import vtk  # the volume needs none

    reader = vtk.vtkPolyDataReader()
    reader.SetFileName(path)
    scale = vtk.vtkTransform()
    scale.Scale(0.001, 0.001, 0.001)
    scaled = vtk.vtkTransformPolyDataFilter()
    scaled.SetInputConnection(reader.GetOutputPort())
    scaled.SetTransform(scale)
    scaled.SetOutputPointsPrecision(vtk.vtkAlgorithm.DOUBLE_PRECISION)
    normals = vtk.vtkPolyDataNormals()
    normals.SetInputConnection(scaled.GetOutputPort())
    normals.SplittingOff()
    height = vtk.vtkElevationFilter()
    height.SetInputConnection(normals.GetOutputPort())
    height.SetLowPoint(0, 0, 0)
    height.SetHighPoint(0, 0, SIZE - 1)
    return height


def picture(path, png):
    import vtk

    colors = vtk.vtkLookupTable()
    colors.SetHueRange(0.58, 0.08)
    colors.SetSaturationRange(0.55, 0.65)
    colors.SetValueRange(0.85, 0.95)
    colors.Build()
    drawn = surface(path)
    mapper = vtk.vtkPolyDataMapper()
    mapper.SetInputConnection(drawn.GetOutputPort())
    mapper.SetLookupTable(colors)
    actor = vtk.vtkActor()
    actor.SetMapper(mapper)
    renderer = vtk.vtkRenderer()
    renderer.SetBackground(1, 1, 1)
    renderer.AddActor(actor)
    renderer.GetActiveCamera().SetPosition(1.6, -2.2, 1.3)
    renderer.GetActiveCamera().SetViewUp(0, 0, 1)
    renderer.ResetCamera()
    renderer.GetActiveCamera().Zoom(1.2)
    window = vtk.vtkRenderWindow()
    window.SetOffScreenRendering(1)
    window.SetMultiSamples(8)
    window.SetSize(480, 480)
    window.AddRenderer(renderer)
    window.Render()
    shot = vtk.vtkWindowToImageFilter()
    shot.SetInput(window)
    writer = vtk.vtkPNGWriter()
    writer.SetCompressionLevel(9)
    writer.SetInputConnection(shot.GetOutputPort())
    writer.SetFileName(png)
    writer.Write()


if __name__ == "__main__":
    {"volume": volume, "picture": picture}[sys.argv[1]](*sys.argv[2:])
