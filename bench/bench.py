#!/usr/bin/env python3
"""Times whole commands of vizrun beside VTK's classes, and prints one table.

The volumes and meshes are made here, the same on every machine. Ours and VTK's run in turn, each
in a process of its own; VTK's is the program of peer.cpp, and where it isn't built its columns are
`-`. What was written is looked at: the counts of triangles, and the values of a threshold.
"""
import argparse
import dataclasses
import datetime
import functools
import math
import os
import random
import re
import subprocess
import sys
import tempfile
import time
from array import array

TOP = os.path.dirname(os.path.dirname(os.path.abspath(__file__)))
PAGE = os.path.join(TOP, "docs", "MEASURED.md")
TIME = "/usr/bin/time"
BEGIN = "<!-- made by bench/bench.py: begin -->\n"
END = "<!-- made by bench/bench.py: end -->\n"
# How a volume is written, as the table says it, and the type of its numbers.
FORMS = [("int in ASCII", "int"), ("short in BINARY", "short"),
         ("unsigned char in BINARY", "unsigned_char")]
SHORT = FORMS[1]
# A contour's level and a threshold's bounds. A byte is the upper half of the number of 16 bits.
LEVEL = {"int": 500, "short": 500, "unsigned_char": 130}
BOUNDS = {"int": (-4000, 4000), "short": (-4000, 4000), "unsigned_char": (112, 144)}
TEN_LEVELS = [-3600 + 800 * at for at in range(10)]
# No mesh that is made here has a scalar so great, so a contour there is empty.
ABOVE_ALL = 1000000
# Greater sides are left out: of 256 noise has 120 million triangles, and a grid 99 million cells.
MOST = {"gyroid": 256, "sphere": 256, "noise": 128, "mesh": 128}
TETRAHEDRA_MOST = {"gyroid": 128, "sphere": 128, "noise": 64}
MOVED = bytes(it ^ 0x80 for it in range(256))
HEAD = "# vtk DataFile Version 3.0\n%s\n%s\nDATASET %s\n"
# The versions of a mesh, and whether its sections are cut at offsets.
VERSIONS = [("version 3.0", False), ("version 5.1", True)]
COLUMNS = ["What", "Size", "Triangles: ours; VTK's", "Ours", "VTK's", "Ratio: processor",
           "Ratio: wall", "Ratio: memory", "VTK's by tetrahedra: the same, and the ratios"]
errors = []


def gyroid(side):
    """The rows of four periods of a gyroid along each axis, as numbers of 16 bits."""
    angles = [2 * math.pi * 4 * index / side for index in range(side)]
    sines, cosines = [math.sin(it) for it in angles], [math.cos(it) for it in angles]
    both = list(zip(sines, cosines))
    for z_sine, z_cosine in both:
        for y_sine, y_cosine in both:
            a, b, c = 10000 * y_cosine, 10000 * z_sine, 10000 * y_sine * z_cosine
            yield array("h", [round(a * sine + b * cosine + c) for sine, cosine in both])


def sphere(side):
    """The rows of the distance from a sphere about the middle, positive inside of it."""
    middle, scale = (side - 1) / 2, 60000 / side
    squares = [(index - middle) ** 2 for index in range(side)]
    for z in squares:
        for y in squares:
            yield array("h", [round(scale * (0.4 * side - math.sqrt(x + y + z))) for x in squares])


def noise(side):
    """Rows of random numbers of 16 bits, the same in every run."""
    source = random.Random(side)
    for _ in range(side * side):
        yield array("h", source.randbytes(2 * side))


FIELDS = {"gyroid": gyroid, "sphere": sphere, "noise": noise}


def highest_first(numbers):
    """The bytes of numbers as a BINARY file has them."""
    if sys.byteorder == "little":
        numbers = numbers[:]
        numbers.byteswap()
    return numbers.tobytes()


@functools.lru_cache(None)
def decimals():
    """The text of each number of 16 bits, negative ones by their index from the end."""
    return [str(it) for it in (*range(1 << 15), *range(-(1 << 15), 0))]


def as_text(row):
    return (" ".join(map(decimals().__getitem__, row)) + "\n").encode()


def as_bytes(row):
    """The upper halves of the numbers, moved so that the least is 0."""
    return highest_first(row)[::2].translate(MOVED)


def write_volume(path, field, side, kind):
    """An image of so many points along each axis."""
    form = "ASCII" if kind == "int" else "BINARY"
    rows = {"int": as_text, "short": highest_first, "unsigned_char": as_bytes}[kind]
    head = HEAD + "DIMENSIONS %d %d %d\nORIGIN 0 0 0\nSPACING 1 1 1\nPOINT_DATA %d\n"
    head += "SCALARS scalars %s 1\nLOOKUP_TABLE default\n"
    words = (field, form, "STRUCTURED_POINTS", side, side, side, side ** 3, kind)
    with open(path, "wb") as file:
        file.write((head % words).encode())
        for row in FIELDS[field](side):
            file.write(rows(row))


def write_scalars(file, count, rows):
    """The scalars of a mesh's points, as int in BINARY."""
    head = "\nPOINT_DATA %d\nSCALARS scalars int 1\nLOOKUP_TABLE default\n"
    file.write((head % count).encode())
    for row in rows:
        file.write(highest_first(array("i", row)))


def write_section(file, keyword, later, cells, size, rows):
    """A section of so many cells of one size, which rows of their indices give one behind the
    other: counted, as int, or as version 5.1 has it, in 64 bits."""
    if not later:
        file.write(b"\n%s %d %d\n" % (keyword, cells, (size + 1) * cells))
        for row in rows:
            counted = array("i", [size]) * (len(row) // size * (size + 1))
            for at in range(size):
                counted[at + 1::size + 1] = array("i", row[at::size])
            file.write(highest_first(counted))
        return
    file.write(b"\n%s %d %d\nOFFSETS vtktypeint64\n" % (keyword, cells + 1, size * cells))
    for first in range(0, cells + 1, 65536):
        most = min(first + 65536, cells + 1)
        file.write(highest_first(array("q", range(size * first, size * most, size))))
    file.write(b"\nCONNECTIVITY vtktypeint64\n")
    for row in rows:
        file.write(highest_first(array("q", row)))


def head_of(title, dataset, points, later):
    """All in front of the numbers of so many points."""
    head = HEAD.replace("Version 3.0", "Version 5.1") if later else HEAD
    return ((head + "POINTS %d int\n") % (title, "BINARY", dataset, points)).encode()


def write_grid(path, side, later=False):
    """Each cube between so many points along each axis as six tetrahedra, along its diagonal."""
    x, y, z = 1, side, side * side
    ways = [(x, y), (x, z), (y, x), (y, z), (z, x), (z, y)]
    cube = [it for a, b in ways for it in (0, a, a + b, x + y + z)]
    row = [it + at for at in range(side - 1) for it in cube]
    cells = 6 * (side - 1) ** 3
    with open(path, "wb") as file:
        file.write(head_of("grid", "UNSTRUCTURED_GRID", side ** 3, later))
        for k in range(side):
            for j in range(side):
                places = [it for i in range(side) for it in (i, j, k)]
                file.write(highest_first(array("i", places)))
        firsts = (side * (j + side * k) for k in range(side - 1) for j in range(side - 1))
        write_section(file, b"CELLS", later, cells, 4, ([it + at for it in row] for at in firsts))
        file.write(b"\nCELL_TYPES %d\n" % cells)
        for _ in range(side - 1):
            file.write(highest_first(array("i", [10]) * (cells // (side - 1))))
        write_scalars(file, side ** 3, (range(j + k, j + k + side)
                                        for k in range(side) for j in range(side)))


def write_sheet(path, side, later=False):
    """A wavy sheet of triangles, between so many points along two axes."""
    cells = 2 * (side - 1) ** 2
    row = [it for at in range(side - 1)
           for it in (at, at + 1, at + side + 1, at, at + side + 1, at + side)]
    with open(path, "wb") as file:
        file.write(head_of("sheet", "POLYDATA", side * side, later))
        for j in range(side):
            places = [it for i in range(side) for it in (i, j, i * j % 97)]
            file.write(highest_first(array("i", places)))
        rows = ([it + side * j for it in row] for j in range(side - 1))
        write_section(file, b"POLYGONS", later, cells, 3, rows)
        write_scalars(file, side * side, (range(j, j + side) for j in range(side)))


def apart(task, *words):
    """Does a task in a process of its own, so that this one stays small: a child's peak begins
    with its parent's. Whether it was done."""
    sys.stdout.flush()
    child = os.fork()
    if not child:
        done = 1
        try:
            task(*words)
            done = 0
        except Exception as error:
            print("bench: %r" % error, file=sys.stderr, flush=True)
        finally:
            os._exit(done)
    return os.waitpid(child, 0)[1] == 0


@dataclasses.dataclass
class Row:
    """A row of the table: what is made for it, what is typed, and what has to come of it."""

    what: str
    size: str
    source: str             # the file that is read
    make: tuple             # the task that writes it, and the words behind the path
    ours: list = ()         # the words of vizrun
    script: list = ()       # or the lines of a script that it runs
    peer: list = ()         # the words of VTK's program
    tetrahedra: list = ()   # the same by tetrahedra
    outcome: str = "more"   # how the counts of both compare: more, equal, empty, or `values`
    cells: int = 0          # of a source that is read alone, what it has


@dataclasses.dataclass
class Least:
    """The least of some runs of one command, and what the last of them put."""

    processor: float = math.inf
    wall: float = math.inf
    peak: float = math.inf
    put: str = ""
    runs: int = 0
    failed: bool = False

    def run(self, words, folder, begin):
        """Whether one more run ended well; earlier files, which begin so, are removed first."""
        remove(folder, begin)
        note = os.path.join(folder, "peak")
        words = [TIME, "-q", "-f", "%M", "-o", note, *words] if os.path.exists(TIME) else words
        with tempfile.TemporaryFile() as out:
            begun = time.perf_counter()
            child = subprocess.Popen(words, cwd=folder, stdin=subprocess.DEVNULL, stdout=out,
                                     stderr=subprocess.STDOUT)
            _, status, usage = os.wait4(child.pid, 0)
            wall = time.perf_counter() - begun
            child.returncode = os.waitstatus_to_exitcode(status)
            out.seek(0)
            self.put = out.read().decode("utf-8", "replace")
        self.runs += 1
        self.processor = min(self.processor, usage.ru_utime + usage.ru_stime)
        self.wall = min(self.wall, wall)
        self.peak = min(self.peak, peak_of(note, usage) / 1024)
        good = child.returncode == 0
        self.failed = self.failed or not good
        return good

    def cell(self):
        if self.failed:
            return "failed"
        return "%s s, %s s, %.0f MiB" % (seconds(self.processor), seconds(self.wall), self.peak)

    def ratios_to(self, other):
        """In processor time, in wall time and in memory."""
        if self.failed or other.failed:
            return ["-"] * 3
        return ["%.2f" % (getattr(self, it) / max(getattr(other, it), 0.0001))
                for it in ("processor", "wall", "peak")]


def seconds(number):
    return "%.3f" % number if number < 1 else "%.2f" % number


def peak_of(note, usage):
    """In KiB: by GNU time where it is installed, since a child's peak begins with its parent's."""
    if not os.path.exists(TIME):
        return usage.ru_maxrss
    with open(note, encoding="utf-8") as file:
        return int(file.read())


def remove(folder, begin):
    for name in os.listdir(folder):
        if name.startswith(begin):
            os.remove(os.path.join(folder, name))


def network(source, nodes):
    """The lines of a script that feeds the file to these nodes, one behind the other."""
    lines, last = ["1 add file src", "1 load src " + source], "src"
    for kind, *words in nodes:
        lines += ["1 add %s %s" % (kind, kind), "1 connect %s %s 1" % (last, kind)]
        lines += ["1 set %s %s" % (kind, it) for it in words]
        last = kind
    return lines


def over_levels(lines):
    """These lines, and then an update of the contour at each of the ten levels."""
    return lines + [it for at, level in enumerate(TEN_LEVELS)
                    for it in ("1 set contour levels %d" % level,
                               "1 update contour ours%d.vtk 1 1" % at)]


def volume(field, side, form):
    """What a row of a volume begins with: its size, its file, and how that is made."""
    kind = form[1]
    return {"size": "%d x %d x %d" % (side, side, side), "source": volume_file(field, side, kind),
            "make": (write_volume, field, side, kind)}


def volume_file(field, side, kind):
    return "in_%s_%d_%s.vtk" % (field, side, kind)


def rows_of_one_file(sides):
    """A contour and a threshold in one command."""
    for field, side in ((it, side) for it in FIELDS for side in sides if side <= MOST[it]):
        for form in FORMS:
            words = [volume_file(field, side, form[1]), "ours.vtk"]
            theirs, level = [words[0], "vtk.vtk"], str(LEVEL[form[1]])
            yield Row("`once` with a contour: %s, %s" % (field, form[0]),
                      ours=["once", *words, "contour", level], peer=["cubes", *theirs, level],
                      tetrahedra=(["tetrahedra", *theirs, level]
                                  if side <= TETRAHEDRA_MOST[field] else []),
                      **volume(field, side, form))
    for side in sides:
        for form in FORMS:
            words = [volume_file("gyroid", side, form[1]), "ours.vtk"]
            theirs, bounds = [words[0], "vtk.vtk"], [str(it) for it in BOUNDS[form[1]]]
            yield Row("`once` with a threshold: gyroid, %s" % form[0], outcome="values",
                      ours=["once", *words, "threshold", *bounds],
                      peer=["threshold", *theirs, *bounds], **volume("gyroid", side, form))


def rows_of_scripts(sides):
    """Ten levels of one contour, and updates in two shapes."""
    for side in sides:
        source, begin = volume_file("gyroid", side, "short"), volume("gyroid", side, SHORT)
        peer = ["levels", source, "vtk.vtk", *map(str, TEN_LEVELS)]
        for name, nodes, theirs in (
                ("", [["contour"]], peer),
                (", released", [["contour", "release 1"]], peer),
                (", released, behind a smooth of radius 4",
                 [["smooth", "radius 4"], ["contour", "release 1"]], [])):
            yield Row("a script of ten levels%s: gyroid, %s" % (name, SHORT[0]),
                      script=over_levels(network(source, nodes)), peer=theirs, **begin)
    for field in ("gyroid", "noise"):
        for side in (it for it in sides if it <= MOST[field]):
            source = volume_file(field, side, "short")
            lines = network(source, [["contour", "levels %d" % LEVEL["short"]]])
            for shape in ("1 1", "8 4"):
                yield Row("an update in shape `%s`: %s, %s" % (shape, field, SHORT[0]),
                          script=lines + ["1 update contour ours.vtk " + shape],
                          **volume(field, side, SHORT))


def rows_of_meshes(sides):
    """The reading of a grid and of polydata in both versions, by a contour that is empty, the
    boundary of a grid, and a grid that is written in both versions."""
    empty = ["ours.vtk", "contour", str(ABOVE_ALL)]
    for side in (it for it in sides if it <= MOST["mesh"]):
        cells, points = 6 * (side - 1) ** 3, side ** 3
        for name, later in VERSIONS:
            grid = "in_grid_%d_%d.vtk" % (side, later)
            begin = {"size": "{:,} points, {:,} tetrahedra".format(points, cells), "source": grid,
                     "make": (write_grid, side, later)}
            yield Row("reading a BINARY grid, %s" % name, ours=["once", grid, *empty],
                      peer=["grid", grid], outcome="empty", cells=cells, **begin)
        yield Row("the boundary of a BINARY grid",
                  script=network(grid, [["boundary"]]) + ["1 update boundary ours.vtk 1 1"],
                  peer=["boundary", grid, "vtk.vtk"], outcome="equal", **begin)
        for name, later in VERSIONS:
            style = ["writer", "form binary", "version %d" % (5 if later else 3)]
            yield Row("reading and writing a BINARY grid, %s" % name,
                      script=network(grid, [style]) + ["1 update writer ours.vtk 1 1"], **begin)
    for side in (16 * it for it in sides if it <= MOST["mesh"]):
        cells, points = 2 * (side - 1) ** 2, side ** 2
        for name, later in VERSIONS:
            sheet = "in_sheet_%d_%d.vtk" % (side, later)
            yield Row("reading BINARY polydata, %s" % name,
                      "{:,} points, {:,} triangles".format(points, cells),
                      sheet, (write_sheet, side, later), ours=["once", sheet, *empty],
                      peer=["polydata", sheet], outcome="empty", cells=cells)


def triangles(path):
    """The triangles of a polydata file, or the tetrahedra of a grid, by the line in front of them.
    Since version 5.1 it counts where they begin, and so the end of the last one too."""
    with open(path, "rb") as file:
        later, kept = b"5.1" in file.readline(), b""
        for block in iter(lambda: file.read(1 << 20), b""):
            kept = kept[-40:] + block
            found = re.search(rb"\n(?:POLYGONS|CELLS) (\d+) \d+\n", kept)
            if found:
                return max(int(found[1]) - later, 0)
    return 0


def written(folder, begin):
    """The cells of all written files that begin so, journals left out."""
    return sum(triangles(os.path.join(folder, name)) for name in sorted(os.listdir(folder))
               if name.startswith(begin) and name.endswith(".vtk"))


def reported(put):
    """The cells of all files of a report."""
    return sum(int(it) for it in re.findall(r"^file .*?cells (\d+) ", put, re.M))


def values_of(path):
    """The numbers behind the head of an image file in ASCII."""
    with open(path, "rb") as file:
        for line in file:
            if line.startswith(b"LOOKUP_TABLE"):
                break
        for line in file:
            if line.startswith(b"METADATA"):
                return
            yield from map(int, line.split())


def same_values(folder):
    """Both thresholds gave the same numbers, and not 0 alone."""
    ours, theirs = (array("q", values_of(os.path.join(folder, name)))
                    for name in ("ours.vtk", "vtk.vtk"))
    if ours != theirs or not any(ours):
        raise ValueError("the thresholds differ, or are 0 throughout")


def check(row, good, why):
    if not good:
        errors.append("%s, %s: %s" % (row.what, row.size, why))


class Bench:
    """Where the programs are, and where they run."""

    def __init__(self, program, peer, folder, runs):
        self.program, self.peer, self.folder, self.runs = program, peer, folder, runs

    def path(self, name):
        return os.path.join(self.folder, name)

    def run_ours(self, row, least):
        """Runs vizrun once, and gives its count of triangles."""
        words = row.ours or ["run", "in.script", "ours.journal"]
        with open(self.path("in.script"), "w", encoding="utf-8") as file:
            file.writelines(line + "\n" for line in row.script)
        good = least.run([self.program, *words], self.folder, "ours")
        check(row, good, "vizrun failed: " + least.put.strip()[-200:])
        if row.outcome == "values":
            return 0
        count = reported(least.put)
        check(row, not good or written(self.folder, "ours") == count,
              "the report and the file have other counts")
        return count

    def run_theirs(self, row, words, least, count):
        """Runs VTK's program once, and gives its count of triangles, beside ours."""
        good = least.run([self.peer, *words], self.folder, "vtk")
        good = good and not re.search(r"ERROR|ERR\|", least.put)
        check(row, good, "VTK failed: " + least.put.strip()[-200:])
        if row.outcome == "values":
            check(row, least.runs > 1 or apart(same_values, self.folder), "the values differ")
            return 0
        if row.outcome == "empty":
            check(row, least.put.endswith("cells %d\n" % row.cells), "VTK has other cells")
            return 0
        theirs = written(self.folder, "vtk")
        alike = count == theirs if row.outcome == "equal" else count > theirs > 0
        check(row, alike, "%d triangles are ours, and %d VTK's" % (count, theirs))
        return theirs

    def line(self, row):
        """The row's cells: ours and VTK's in turn, as often as asked for."""
        if not os.path.exists(self.path(row.source)):
            task, *words = row.make
            if not apart(task, self.path("part"), *words):
                sys.exit("bench: %s couldn't be made" % row.source)
            os.replace(self.path("part"), self.path(row.source))
        ours, theirs, tetrahedra = Least(), Least(), Least()
        for _ in range(self.runs):
            counts = [self.run_ours(row, ours)]
            if self.peer and row.tetrahedra:
                self.run_theirs(row, row.tetrahedra, tetrahedra, counts[0])
            if self.peer and row.peer:
                counts.append(self.run_theirs(row, row.peer, theirs, counts[0]))
        remove(self.folder, ("ours", "vtk"))
        told = "; ".join("{:,}".format(it) for it in counts) if any(counts) else "-"
        beside = self.peer and row.peer
        cells = [row.what, row.size, told, ours.cell(), theirs.cell() if beside else "-"]
        cells += ours.ratios_to(theirs) if beside else ["-"] * 3
        if self.peer and row.tetrahedra:
            return cells + ["%s; %s" % (tetrahedra.cell(), ", ".join(ours.ratios_to(tetrahedra)))]
        return cells + ["-"]


def machine():
    """The processor's own name, and how many a process may use, as `nproc` says."""
    with open("/proc/cpuinfo", encoding="utf-8") as file:
        name = re.search(r"^model name\s*: (.*)$", file.read(), re.M)
    return "%s, `nproc` %d" % (name[1] if name else os.uname().machine,
                               len(os.sched_getaffinity(0)))


def preface(peer, runs):
    """What is said in front of the table."""
    version = "not built here"
    if peer:
        done = subprocess.run([peer, "version"], stdout=subprocess.PIPE, text=True)
        version = done.stdout.strip() + " on one thread"
    told = "Made on %s: %s, load %.1f; VTK is %s. " % (
        datetime.date.today(), machine(), os.getloadavg()[0], version)
    return told + ("Ours and VTK's are seconds of the processor, elapsed seconds and the peak, "
                   "each the least of %d runs; ratios are ours by VTK's.\n" % runs)


def put_into_page(table):
    with open(PAGE, encoding="utf-8") as file:
        page = file.read()
    front, begin, rest = page.partition(BEGIN)
    _, end, behind = rest.partition(END)
    if not begin or not end:
        sys.exit("bench: docs/MEASURED.md has no two lines that the table stands between")
    with open(PAGE, "w", encoding="utf-8") as file:
        file.write(front + begin + table + end + behind)


def options():
    parser = argparse.ArgumentParser(description=__doc__.splitlines()[0])
    parser.add_argument("--vizrun", default=os.path.join(TOP, "vizrun"), metavar="PATH")
    parser.add_argument("--peer", default=os.path.join(TOP, "out", "bench", "peer"),
                        metavar="PATH", help="VTK's program; none if it isn't there")
    parser.add_argument("--runs", type=int, default=3, metavar="N", help="runs of each command")
    parser.add_argument("--sizes", default="64,128", metavar="N,..", help="points along an axis")
    parser.add_argument("--large", action="store_true", help="256 points along an axis too")
    parser.add_argument("--only", default="", metavar="WORD", help="rows that have this word")
    parser.add_argument("--folder", metavar="DIR", help="where files are made, and inputs stay")
    parser.add_argument("--write", action="store_true",
                        help="put the table into docs/MEASURED.md too")
    chosen = parser.parse_args()
    if chosen.write and chosen.only:
        parser.error("docs/MEASURED.md takes all rows")
    return chosen


def main():
    chosen = options()
    sides = sorted({*map(int, chosen.sizes.split(",")), *[256] * chosen.large})
    program, peer = os.path.abspath(chosen.vizrun), os.path.abspath(chosen.peer)
    peer = peer if os.access(peer, os.X_OK) else None
    if not os.access(program, os.X_OK):
        sys.exit("bench: no program %s" % program)
    rows = [*rows_of_one_file(sides), *rows_of_scripts(sides), *rows_of_meshes(sides)]
    lines = [preface(peer, chosen.runs)]
    lines += ["| %s |" % " | ".join(COLUMNS), "|%s" % ("---|" * len(COLUMNS))]
    print("\n".join(lines), flush=True)
    with tempfile.TemporaryDirectory() as room:
        folder = os.path.abspath(chosen.folder or room)
        os.makedirs(folder, exist_ok=True)
        bench = Bench(program, peer, folder, chosen.runs)
        for row in rows:
            if chosen.only in row.what + ", " + row.size:
                lines.append("| %s |" % " | ".join(bench.line(row)))
                print(lines[-1], flush=True)
    for error in dict.fromkeys(errors):
        print("bench:", error, file=sys.stderr)
    if errors:
        sys.exit(1)
    if chosen.write:
        put_into_page("\n".join(lines) + "\n")


if __name__ == "__main__":
    main()
