"""The session of docs/CONSOLE.md, asked line by line; VTK draws the surface after each change.

python3 console.py VIZRUN PNG    beside gyroid.vtk; draws the picture PNG
"""
import subprocess
import sys
import time

import vtk

CHANGES = ["set iso levels 8000", "set iso levels -8000", "set iso levels 0", "connect soft iso 1"]
vizrun, png = sys.argv[1:]
session = subprocess.Popen([vizrun, "console"], stdin=subprocess.PIPE, stdout=subprocess.PIPE,
                           text=True, bufsize=1)
window = vtk.vtkRenderWindow()
window.SetOffScreenRendering(1)
window.SetSize(240 * len(CHANGES), 240)


def ask(line):
    session.stdin.write(line + "\n")
    return session.stdout.readline().rstrip()


def show(path, place):
    reader = vtk.vtkPolyDataReader()
    reader.SetFileName(path)
    normals = vtk.vtkPolyDataNormals()
    normals.SetInputConnection(reader.GetOutputPort())
    mapper = vtk.vtkPolyDataMapper()
    mapper.SetInputConnection(normals.GetOutputPort())
    mapper.ScalarVisibilityOff()
    actor = vtk.vtkActor()
    actor.SetMapper(mapper)
    actor.GetProperty().SetColor(0.45, 0.65, 0.85)
    renderer = vtk.vtkRenderer()
    renderer.SetBackground(1, 1, 1)
    renderer.SetViewport(place / len(CHANGES), 0, (place + 1) / len(CHANGES), 1)
    renderer.AddActor(actor)
    renderer.GetActiveCamera().SetPosition(1.6, -2.2, 1.3)
    renderer.GetActiveCamera().SetViewUp(0, 0, 1)
    renderer.ResetCamera()
    renderer.GetActiveCamera().Zoom(1.2)
    window.AddRenderer(renderer)
    window.Render()


for line in ["add file src", "load src gyroid.vtk", "add contour iso", "connect src iso 1",
             "add smooth soft", "connect src soft 1"]:
    ask(line)
for place, change in enumerate(CHANGES):
    start = time.monotonic()
    answers = ask(change), ask("update iso shown.vtk 1 1")
    print("%s: %s, %.2f s" % (change, " and ".join(answers), time.monotonic() - start))
    show("shown.vtk", place)
session.stdin.write("quit\n")
session.wait()
shot = vtk.vtkWindowToImageFilter()
shot.SetInput(window)
writer = vtk.vtkPNGWriter()
writer.SetCompressionLevel(9)
writer.SetInputConnection(shot.GetOutputPort())
writer.SetFileName(png)
writer.Write()
