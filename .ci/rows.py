#!/usr/bin/env python3
"""Types the worked rows at the built program, each in a folder of its own.

A row is a folder of .ci/rows, with the program's files, and `lines`, which are typed in turn. What
stands in its file `stdin` is given to each of them at once, and in a second run byte by byte. Its
folder `want` has `status`, one for each line; `stdout`, all that was put; `none`, files that don't
stand there in the end; `same`, lines of files that have the same bytes; and files as they are in
the end. The values were reckoned by hand or by plain programs.

The program is crates/viz_cli/out/viz_cli, or the one that is named; rows behind it choose some.
"""
import os
import shutil
import subprocess
import sys
import tempfile

TOP = os.path.dirname(os.path.dirname(os.path.abspath(__file__)))
PROGRAM = os.path.join(TOP, "crates/viz_cli/out/viz_cli")
ROWS = os.path.join(TOP, ".ci", "rows")
# Files of a row that aren't the program's.
OWN = ("lines", "stdin")
# Files of `want` that say something of the run.
TOLD = ("status", "stdout", "none", "same")
# A rough image of 32 points along each axis, the values 7 i + 11 j + 13 k modulo 17, and what it
# comes to. Plain programs counted these: the triangles by the corners inside of each of the six
# tetrahedra of each cube, the points as edges that are cut, each once, and the sides as facets with
# both kinds of corners, and tetrahedra with two of each.
ROUGH_HEAD = b"""# vtk DataFile Version 3.0
r
BINARY
DATASET STRUCTURED_POINTS
DIMENSIONS 32 32 32
ORIGIN 0 0 0
SPACING 1 1 1
POINT_DATA 32768
SCALARS s unsigned_char
LOOKUP_TABLE default
"""
ROUGH_SCRIPT = b"""1 add file src
1 load src a.vtk
1 add contour iso
1 connect src iso 1
1 set iso levels 8
1 update iso o.vtk 1 1
1 audit iso 1 1
"""
ROUGH_REPORT = b"""edit 1 1 at 1
edit 1 2 at 2
edit 1 3 at 3
edit 1 4 at 4
edit 1 5 at 5
file 1 6 at 5 cells 238328 points 113799 ran 2
audit 1 7 at 5 sides 362579 two 352405 open 10174 border 10174
"""
ROUGH_FILE = b"""# vtk DataFile Version 3.0
vizrun fixed 10^-3
ASCII
DATASET POLYDATA
POINTS 113799 long
"""
errors = []


def read(path):
    try:
        with open(path, "rb") as file:
            return file.read()
    except FileNotFoundError:
        return None


def check(name, what, found, wanted):
    if found != wanted:
        errors.append("%s: %s is %.400r, and not %.400r" % (name, what, found, wanted))


def run(program, words, folder, given, piece):
    """The status of a command, and what it put; it is given its input in pieces of this size."""
    command = subprocess.Popen([program] + words, cwd=folder, stdin=subprocess.PIPE,
                               stdout=subprocess.PIPE, bufsize=0)
    for at in range(0, len(given), piece):
        try:
            command.stdin.write(given[at:at + piece])
        except BrokenPipeError:
            break
    put, _ = command.communicate(timeout=120)
    return command.returncode, put


def typed(program, lines, folder, given=b"", piece=1 << 20):
    """The statuses of the lines, and all that was put."""
    done = [run(program, line.split(), folder, given, piece) for line in lines]
    return [status for status, _ in done], b"".join(put for _, put in done)


def check_row(program, name, folder, piece):
    row = os.path.join(ROWS, name)
    want = os.path.join(row, "want")
    for file in os.listdir(row):
        if os.path.isfile(os.path.join(row, file)) and file not in OWN:
            shutil.copy(os.path.join(row, file), folder)
    lines = read(os.path.join(row, "lines")).decode().splitlines()
    given = read(os.path.join(row, "stdin")) or b""
    statuses, put = typed(program, lines, folder, given, piece)
    check(name, "status", statuses, [int(it) for it in read(os.path.join(want, "status")).split()])
    check(name, "what was put", put, read(os.path.join(want, "stdout")))
    for file in (it for it in os.listdir(want) if it not in TOLD):
        check(name, file, read(os.path.join(folder, file)), read(os.path.join(want, file)))
    for file in (read(os.path.join(want, "none")) or b"").decode().split():
        check(name, file, read(os.path.join(folder, file)), None)
    for files in (read(os.path.join(want, "same")) or b"").decode().splitlines():
        found = {read(os.path.join(folder, file)) for file in files.split()}
        check(name, files + ": one text", len(found) == 1 and None not in found, True)


def check_rough(program, name, folder):
    values = bytes((7 * i + 11 * j + 13 * k) % 17
                   for k in range(32) for j in range(32) for i in range(32))
    for file, data in (("a.vtk", ROUGH_HEAD + values), ("s.script", ROUGH_SCRIPT)):
        with open(os.path.join(folder, file), "wb") as out:
            out.write(data)
    statuses, put = typed(program, ["run s.script j.journal"], folder)
    check(name, "status", statuses, [0])
    check(name, "what was put", put, ROUGH_REPORT)
    made = read(os.path.join(folder, "o.vtk")) or b""
    check(name, "head of o.vtk", made[:len(ROUGH_FILE)], ROUGH_FILE)


def main():
    program = os.path.abspath(sys.argv[1]) if len(sys.argv) > 1 else PROGRAM
    if not os.access(program, os.X_OK):
        sys.exit("rows: no program %s" % program)
    rough = "large-contour-audited"
    names = sys.argv[2:] or sorted(os.listdir(ROWS)) + [rough]
    for name in names:
        pieces = [1 << 20] + [1] * os.path.exists(os.path.join(ROWS, name, "stdin"))
        for piece in pieces:
            with tempfile.TemporaryDirectory() as folder:
                if name == rough:
                    check_rough(program, name, folder)
                else:
                    check_row(program, name, folder, piece)
    for error in errors:
        print("rows:", error)
    if errors:
        sys.exit(1)
    print("rows: %d rows come out as they are worked" % len(names))


main()
