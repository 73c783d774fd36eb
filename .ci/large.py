#!/usr/bin/env python3
"""Compares docs/LARGE.md with the code: the options of large/contour.py, and limits with constants.

Where numpy is there, the built program contours slabs of small volumes too, and the joined files
are compared, byte for byte, with those of one run. The program is crates/viz_cli/out/viz_cli, or the
one that is named. Clusters are tried by hand.
"""
import os
import random
import re
import subprocess
import sys
import tempfile

TOP = os.path.dirname(os.path.dirname(os.path.abspath(__file__)))
PROGRAM = os.path.join(TOP, "crates/viz_cli/out/viz_cli")
PAGE = "docs/LARGE.md"
# Rows of the table of limits by their first words, with the constants of their numbers.
LIMITS = [("bytes of a file", "viz_base/src/limits.rt", "FILE_LIMIT"),
          ("points of an image", "viz_counted_cells/src/counts.rt", "MOST"),
          ("nodes", "viz_base/src/limits.rt", "NODES"),
          ("actors", "viz_base/src/limits.rt", "ACTORS"),
          ("phases", "viz_script/src/parser.rt", "PHASES"),
          ("edits of a batch", "viz_script/src/parser.rt", "BATCH"),
          ("bytes, and lines, of a script", "viz_script/src/parsing.rt", "BYTES"),
          ("bytes, and lines, of a script", "viz_script/src/parsing.rt", "LINES"),
          ("bytes of a line of a", "viz_source/src/limits.rt", "LINE_LIMIT"),
          ("bytes of a line of a", "viz_source/src/limits.rt", "STREAM_LIMIT"),
          ("entries", "viz_base/src/limits.rt", "HISTORY"),
          ("kept parts", "viz_base/src/limits.rt", "CACHE"),
          ("points of a volume that `make`", "viz_make/src/size.rt", "MOST_POINTS")]
# Volumes: sizes, type, byte order, least and greatest number, level, planes of a slab at most.
VOLUMES = [((7, 6, 9), "unsigned_char", "little", 0, 255, 128, 3),
           ((5, 2, 8), "short", "big", -2, 2, 0, 2),
           ((5, 2, 8), "short", "little", -2, 2, 1, 4),
           ((4, 5, 6), "unsigned_short", "little", 0, 65535, 30000, 2),
           ((4, 5, 6), "unsigned_char", "big", 0, 255, -1, 3)]
errors = []


def text(path):
    with open(os.path.join(TOP, path), encoding="utf-8") as file:
        return file.read()


def check_options():
    """The page's table has just the options of the script, in the script's order or another."""
    code = set(re.findall(r'^    add\("(--\w+)"', text("large/contour.py"), re.M))
    table = text(PAGE).split("\n| Option | Says |\n")[1].split("\n\n")[0]
    here = set(re.findall(r"`(--\w+)", table))
    if here != code:
        errors.append("%s and large/contour.py differ in options: %s" % (PAGE, sorted(here ^ code)))


def check_limits():
    """Each number that is a constant of the code stands in its row."""
    rows = {line.split("|")[1].strip(): line.split("|")[2] for line in text(PAGE).splitlines()
            if line.count("|") == 5}
    for first, path, name in LIMITS:
        found = re.search(r"const %s: \w+ = ([\d_]+);" % name, text("crates/" + path))
        most = "{:,}".format(int(found[1])) if found else "no number"
        mine = [cell for row, cell in rows.items() if row.startswith(first)]
        if len(mine) != 1 or most not in re.findall(r"[\d,]*\d", mine[0]):
            errors.append("%s: the row of %s hasn't %s, which is %s" % (PAGE, first, most, name))


def in_one_run(program, folder, volume, level):
    """The surface that one run of the program makes of the whole volume."""
    import pieces
    import volume as volumes

    planes = volume.planes(0, volume.size[2] - 1)
    volumes.write_slab(volume, planes, 0, os.path.join(folder, "slab.vtk"))
    with open(os.path.join(folder, "slab.script"), "w", encoding="ascii") as file:
        file.write(pieces.script_of([level], 3))
    pieces.run_vizrun(program, folder, 60)
    with open(os.path.join(folder, "level0.vtk"), "rb") as file:
        return file.read()


def check_slabs(program, row, folder):
    """Contours slabs of a volume, joins them, and compares the file with that of one run."""
    import join
    import numpy
    import pieces
    import slabs
    import volume as volumes

    size, kind, order, least, most, level, planes = row
    numbers = random.Random(7)
    count = size[0] * size[1] * size[2]
    path = os.path.join(folder, "volume.raw")
    numpy.array([numbers.randint(least, most) for _ in range(count)],
                {"little": "<", "big": ">"}[order] + volumes.TYPES[kind]).tofile(path)
    shape = "%dx%dx%d:%s:%s" % (*size, kind, order)
    volume = volumes.raw_volume(path, shape, ["0.5", "-1e3", "0.1"], ["1", "0.5", "0.3"])
    rows = slabs.survey(volume, [level], 0, size[2])
    found = []
    for at, cut in enumerate(slabs.cut_volume(volume, rows, 10 ** 9, planes)):
        target = os.path.join(folder, "slab%d" % at)
        found += pieces.contour_slab(volume, cut, [level], 3, program, target, 60)
        if found[-1].points != slabs.points_between(rows[level], *cut):
            errors.append("%s: slab %d has %d points" % (shape, at, found[-1].points))
    join.join(found, 3, os.path.join(folder, "joined.vtk"))
    with open(os.path.join(folder, "joined.vtk"), "rb") as file:
        if file.read() != in_one_run(program, folder, volume, level):
            errors.append("%s: %d slabs aren't joined to what one run writes" % (shape, len(found)))


def main():
    program = os.path.abspath(sys.argv[1]) if len(sys.argv) > 1 else PROGRAM
    check_options()
    check_limits()
    sys.path.insert(0, os.path.join(TOP, "large"))
    sys.dont_write_bytecode = True
    try:
        import numpy
        told = "%d volumes are joined as one run writes them" % len(VOLUMES)
    except ImportError:
        numpy, told = None, "no volume was tried, since numpy isn't here"
    for row in VOLUMES if numpy else []:
        with tempfile.TemporaryDirectory() as folder:
            try:
                check_slabs(program, row, folder)
            except (OSError, ValueError, RuntimeError, subprocess.SubprocessError) as error:
                errors.append("%s: %s" % (row, error))
    for error in errors:
        print("large:", error)
    if errors:
        sys.exit(1)
    print("large: options and limits are those of the code; %s" % told)


if __name__ == "__main__":
    main()
