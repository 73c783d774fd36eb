#!/usr/bin/env python3
"""Tries the built program where no proof reaches: real files, a real output, the command line.

Each check has a name, which a failure tells. The program is crates/viz_cli/out/viz_cli, or the one
that is named; names of checks behind it choose some.
"""
import os
import resource
import shutil
import subprocess
import sys
import tempfile

TOP = os.path.dirname(os.path.dirname(os.path.abspath(__file__)))
PROGRAM = os.path.join(TOP, "crates/viz_cli/out/viz_cli")
DATA = os.path.join(TOP, "crates/viz_cli/data")
ONCE = ["once", "b.vtk", "o.vtk", "threshold", "2", "3"]
DONE = (0, b"file cells 0 points 4\n")
THRESHOLD = b"""# vtk DataFile Version 3.0
vizrun image
ASCII
DATASET STRUCTURED_POINTS
DIMENSIONS 2 2 1
ORIGIN 0 0 0
SPACING 1 1 1
POINT_DATA 4
SCALARS scalars int 1
LOOKUP_TABLE default
0 2
3 0
"""
# The user that has no rights of its own, where the gate is run by root.
NOBODY = 65534
errors = []


class Place:
    """A folder, in which the program is started."""

    def __init__(self, program, folder):
        self.program, self.folder = program, folder

    def path(self, name):
        return os.path.join(self.folder, name)

    def put(self, name, data):
        with open(self.path(name), "wb") as file:
            file.write(data)

    def has(self, name):
        try:
            with open(self.path(name), "rb") as file:
                return file.read()
        except FileNotFoundError:
            return None

    def run(self, words, stdout=subprocess.PIPE, before=None):
        done = subprocess.run([self.program] + words, cwd=self.folder, stdin=subprocess.DEVNULL,
                              stdout=stdout, timeout=300, preexec_fn=before)
        return done.returncode, done.stdout

    def script(self, lines):
        self.put("s", "".join(line + "\n" for line in lines).encode())
        return self.run(["run", "s", "j"])


def wants(what, found, wanted):
    if found != wanted:
        shown = [repr(it) if len(repr(it)) < 300 else "%s.. (%d in all)" % (repr(it)[:300], len(repr(it)))
                 for it in (found, wanted)]
        errors.append("%s: %s, and not %s" % (what, *shown))


def edits(count, first=1):
    return b"".join(b"edit 1 %d at %d\n" % (n, n) for n in range(first, first + count))


def noise(size):
    """So many bytes, newlines among them, that don't repeat before 65,537."""
    ring = bytes((7 * n * n + n // 251) % 256 for n in range(65_537))
    return (ring * (size // len(ring) + 1))[:size]


def files_of_each_size(place):
    """A file of so many bytes is loaded whole, and stands whole in the journal. The journal is
    read back by `scratch`, and as a file of bytes by a second script."""
    for size in (0, 1, 65_535, 65_536, 65_537, 40_000_000):
        data = noise(size)
        place.put("x", data)
        lines = ["1 add file src", "1 load src x"]
        wants("load of %d bytes" % size, place.script(lines), (0, edits(2)))
        journal = b"vizrun journal 2\n1 1 1\nadd file src\n1 2 1\nload src %d\n%s\nend 2\n" % (size, data)
        wants("journal of a load of %d bytes" % size, place.has("j"), journal)
        wants("the journal read back", place.run(["scratch", "j", "2", "src", "o.vtk"]),
              (3, b"refused fault:src:BadFile(%s) at 2\n" % (b"Magic,0")))


def written_files_of_each_size(place):
    """A journal of so many bytes is written whole, and read whole as the file of a load."""
    for size in (65_535, 65_536, 65_537, 40_000_000):
        front = b"vizrun journal 2\n1 1 1\nadd file src\n1 2 1\nload src "
        digits = len(str(size - len(front)))
        inside = size - len(front) - digits - len(b"\n\nend 2\n")
        place.put("x", noise(inside))
        place.script(["1 add file src", "1 load src x"])
        journal = b"%s%d\n%s\nend 2\n" % (front, inside, noise(inside))
        wants("size of a journal", len(journal), size)
        wants("journal of %d bytes" % size, place.has("j"), journal)
        place.put("s", b"1 add file src\n1 load src j\n")
        wants("load of a journal", place.run(["run", "s", "k"]), (0, edits(2)))
        again = b"%s%d\n%s\nend 2\n" % (front, size, journal)
        wants("journal of a journal of %d bytes" % size, place.has("k"), again)


def a_long_report(place):
    """Each of 6,000 edits has its line and its entry, and the update behind them its file: a report
    of more than 100,000 bytes, through a pipe and into a file."""
    place.put("b.vtk", open(os.path.join(DATA, "b.vtk"), "rb").read())
    lines = ["1 add file src", "1 load src b.vtk"] + ["1 set src unit %d" % (n % 10)
                                                      for n in range(6_000)]
    lines += ["1 add threshold op", "1 connect src op 1", "1 set op range 2 3",
              "1 update op o.vtk 1 1"]
    report = edits(6_005) + b"file 1 6006 at 6005 cells 0 points 4 ran 2\n"
    wants("bytes of the report", len(report) > 100_000, True)
    wants("a long report", place.script(lines), (0, report))
    wants("the file behind it", place.has("o.vtk"), THRESHOLD)
    with open(place.path("report"), "wb") as file:
        wants("status", place.run(["run", "s", "j"], stdout=file)[0], 0)
    wants("a long report in a file", place.has("report"), report)
    wants("the file of an early prefix", place.run(["scratch", "j", "6005", "op", "p.vtk"]),
          (0, b"file at 6005 cells 0 points 4\n"))
    wants("the file by its journal", place.has("p.vtk"), THRESHOLD)


def names_of_each_length(place):
    """Names of files and nodes have 1 to 64 bytes."""
    image = open(os.path.join(DATA, "b.vtk"), "rb").read()
    for length in (1, 8, 9, 64):
        source, target = "q" * length, "t" * length
        place.put(source, image)
        words = ["once", source, target] + ONCE[3:]
        wants("once with names of %d bytes" % length, place.run(words), DONE)
        wants("its file", place.has(target), THRESHOLD)
        node, file = "n" * length, "u" * length
        lines = ["1 add file " + node, "1 load %s %s" % (node, source), "1 add threshold op",
                 "1 connect %s op 1" % node, "1 set op range 2 3", "1 update op %s 1 1" % file]
        wants("script with names of %d bytes" % length, place.script(lines),
              (0, edits(5) + b"file 1 6 at 5 cells 0 points 4 ran 2\n"))
        wants("its file", place.has(file), THRESHOLD)
    long = "n" * 65
    wants("once with a name of 65 bytes", place.run(["once", long, "o.vtk"] + ONCE[3:]),
          (1, b"vizrun: usage\n"))
    for line in ("1 add file " + long, "1 load a " + long, "1 update a %s 1 1" % long):
        wants("script with a name of 65 bytes", place.script(["# none", line]),
              (2, b"script line 2 Name\n"))


def eight_actors(place):
    """Each of eight actors has a port; a ninth has none. In a phase of 80 commands each writes ten
    files. Nothing is kept, so that each runs both tasks whoever comes first."""
    place.put("b.vtk", open(os.path.join(DATA, "b.vtk"), "rb").read())
    front = ["1 add file src", "1 load src b.vtk", "1 add threshold op", "1 connect src op 1",
             "1 set op range 2 3", "1 set src release 1", "1 set op release 1", "phase"]
    lines = ["%d update op f%d_%d.vtk 1 1" % (actor, actor, n)
             for n in range(10) for actor in range(1, 9)]
    rows = b"".join(b"file %d %d at 7 cells 0 points 4 ran 2\n" % (actor, n + (8 if actor == 1 else 1))
                    for actor in range(1, 9) for n in range(10))
    wants("eight actors", place.script(front + lines), (0, edits(7) + rows))
    for actor in range(1, 9):
        for n in range(10):
            wants("a file of actor %d" % actor, place.has("f%d_%d.vtk" % (actor, n)), THRESHOLD)
    wants("a ninth actor", place.script(front + ["9 add file a"]), (2, b"script line 9 ActorRange\n"))


def little_memory(size):
    def limit():
        resource.setrlimit(resource.RLIMIT_AS, (size, size))
    return limit


def each_status(place):
    """The six statuses, 5 by a limit on memory that a file doesn't fit."""
    place.put("b.vtk", open(os.path.join(DATA, "b.vtk"), "rb").read())
    place.put("bad", b"no legacy file\n")
    place.put("s", b"1 add file src\n1 load src big\n")
    place.put("t", b"9 add file src\n")
    with open(place.path("big"), "wb") as file:
        file.truncate(400_000_000)
    limit = little_memory(200_000_000)
    for words, before, wanted in [
            (ONCE, None, DONE),
            (["twice"], None, (1, b"vizrun: usage\n")),
            (["run", "t", "j"], None, (2, b"script line 1 ActorRange\n")),
            (["once", "bad", "o.vtk"] + ONCE[3:], None, (3, b"refused fault:src:BadFile(Magic,0)\n")),
            (["once", "none", "o.vtk"] + ONCE[3:], None, (4, b"fault read\n")),
            (["once", "big", "o.vtk"] + ONCE[3:], limit, (5, b"memory\n")),
            (["run", "s", "j"], limit, (5, b"edit 1 1 at 1\nmemory 1 2\n"))]:
        wants("status of %s" % " ".join(words), place.run(words, before=before), wanted)
    wants("OUT after the refusals", place.has("o.vtk"), THRESHOLD)


def full_disks(place):
    """Where a disk is full, a file holds first bytes of its text, and the fault is told."""
    room = place.path("disk")
    os.mkdir(room)
    mounted = os.geteuid() == 0 and subprocess.run(
        ["mount", "-t", "tmpfs", "-o", "size=65536", "none", room],
        stderr=subprocess.DEVNULL).returncode == 0
    try:
        if mounted:
            on_a_small_disk(place, room)
        os.symlink("/dev/full", place.path("full"))
        place.put("b.vtk", open(os.path.join(DATA, "b.vtk"), "rb").read())
        wants("a full device", place.run(["once", "b.vtk", "full"] + ONCE[3:]), (4, b"fault write\n"))
        place.put("s", b"1 add file src\n1 load src b.vtk\n1 update src full 1 1\n"
                  b"1 update src o.vtk 1 1\n")
        wants("an update onto a full device", place.run(["run", "s", "j"]),
              (4, edits(2) + b"fault 1 3 write\nfile 1 4 at 2 cells 0 points 4 ran 0\n"))
        wants("a journal onto a full device", place.run(["run", "s", "full"]),
              (4, edits(2) + b"fault 1 3 write\nfile 1 4 at 2 cells 0 points 4 ran 0\n"))
    finally:
        if mounted:
            subprocess.run(["umount", room])


def on_a_small_disk(place, room):
    words = ["make", "7", "64", "64", "8", "v.vtk"]
    status, report = place.run(words)
    wants("a volume", status, 0)
    whole = place.has("v.vtk")
    wants("a volume on a full disk", place.run(["--dir", "disk"] + words), (4, b"fault write\n"))
    part = place.has("disk/v.vtk")
    wants("first bytes of it", 0 < len(part) < len(whole) and whole.startswith(part), True)


def folders_without_rights(place):
    """Where a folder may not be read or written, each call fails and is told."""
    def as_nobody():
        if os.geteuid() == 0:
            os.setgroups([])
            os.setgid(NOBODY)
            os.setuid(NOBODY)
    os.chmod(place.folder, 0o711)
    for name, mode, wanted in [("shut", 0o000, (4, b"fault read\n")),
                               ("kept", 0o555, (4, b"fault write\n"))]:
        os.mkdir(place.path(name))
        place.put(name + "/b.vtk", open(os.path.join(DATA, "b.vtk"), "rb").read())
        place.put(name + "/s", b"1 add file src\n")
        os.chmod(place.path(name + "/b.vtk"), 0o444)
        os.chmod(place.path(name + "/s"), 0o444)
        os.chmod(place.path(name), mode)
        wants("a folder without rights, %s" % name,
              place.run(["--dir", name] + ONCE, before=as_nobody), wanted)
        report = edits(1) if mode else b"fault read\n"
        wants("a script in it", place.run(["--dir", name, "run", "s", "j"], before=as_nobody),
              (4, report))
        os.chmod(place.path(name), 0o755)
        wants("files in it", sorted(os.listdir(place.path(name))), ["b.vtk", "s"])


def outputs_that_fail(place):
    """Where the output is closed early, full or not there, the files are whole and the status is 4;
    what has no file keeps its status."""
    place.put("b.vtk", open(os.path.join(DATA, "b.vtk"), "rb").read())
    place.put("s", b"1 add file src\n1 load src b.vtk\n1 update src o.vtk 1 1\n")
    journal = b"vizrun journal 2\n1 1 1\nadd file src\n1 2 1\nload src %d\n%s\nend 2\n" % (
        len(place.has("b.vtk")), place.has("b.vtk"))
    reads, writes = os.pipe()
    os.close(reads)
    for what, stdout, before in [("closed early", writes, None),
                                 ("full", os.open("/dev/full", os.O_WRONLY), None),
                                 ("not there", subprocess.PIPE, lambda: os.close(1))]:
        for name in ("o.vtk", "j"):
            if os.path.exists(place.path(name)):
                os.remove(place.path(name))
        wants("once, the output %s" % what, place.run(ONCE, stdout, before)[0], 4)
        wants("its file", place.has("o.vtk"), THRESHOLD)
        wants("a script, the output %s" % what, place.run(["run", "s", "j"], stdout, before)[0], 4)
        wants("its journal", place.has("j"), journal)
        wants("no command, the output %s" % what, place.run(["twice"], stdout, before)[0], 1)
        if isinstance(stdout, int) and stdout != subprocess.PIPE:
            os.close(stdout)


class Session:
    """A session whose answers are read while it goes on."""

    def __init__(self, place, stdin=subprocess.PIPE):
        self.it = subprocess.Popen([place.program, "console"], cwd=place.folder, stdin=stdin,
                                   stdout=subprocess.PIPE, stderr=subprocess.PIPE, bufsize=0)

    def asks(self, line):
        """Types a line, and waits for its answer."""
        self.it.stdin.write(line + b"\n")
        return self.it.stdout.readline()

    def ends(self):
        """Ends the input. The status, and what still came."""
        put, shown = self.it.communicate(timeout=60)
        return self.it.returncode, put, shown


def sessions(place):
    """Each answer comes before the next line is typed, and nothing is shown where the input is no
    terminal; the input ends, is a folder, or the output is closed early, and the files are whole."""
    place.put("b.vtk", open(os.path.join(DATA, "b.vtk"), "rb").read())
    lines = [b"add file src", b"load src b.vtk", b"add threshold op", b"connect src op 1",
             b"set op range 2 3", b"update op o.vtk 1 1"]
    answers = [b"edit %d at %d\n" % (n, n) for n in range(1, 6)]
    answers.append(b"file 6 at 5 cells 0 points 4\n")
    session = Session(place)
    for line, answer in zip(lines, answers):
        wants("the answer to %r" % line, session.asks(line), answer)
    wants("the end", session.ends(), (0, b"", b""))
    wants("the file", place.has("o.vtk"), THRESHOLD)
    session = Session(place)
    wants("a long line", session.asks(b"#" * 4097), b"bad 1 TooLong\n")
    wants("a line of 4,096 bytes, and one behind it", session.asks(b"#" * 4096 + b"\nadd crop a"),
          b"edit 1 at 1\n")
    session.it.stdin.write(b"add crop b\nadd crop")
    wants("the last line", session.ends(), (0, b"edit 2 at 2\nbad 5 Arity\n", b""))
    folder = os.open(place.folder, os.O_RDONLY)
    wants("an input that fails", Session(place, folder).ends(), (4, b"", b""))
    os.close(folder)
    os.remove(place.path("o.vtk"))
    session = Session(place)
    for line, answer in zip(lines[:5], answers):
        wants("the answer to %r" % line, session.asks(line), answer)
    session.it.stdout.close()
    session.it.stdin.write(lines[5] + b"\nupdate op p.vtk 1 1\n")
    wants("the status behind a closed output", session.it.wait(timeout=60), 4)
    wants("the file behind it", (place.has("o.vtk"), place.has("p.vtk")), (THRESHOLD, None))


CHECKS = [files_of_each_size, written_files_of_each_size, a_long_report, names_of_each_length,
          eight_actors, each_status, full_disks, folders_without_rights, outputs_that_fail,
          sessions]


def main():
    program = os.path.abspath(sys.argv[1]) if len(sys.argv) > 1 else PROGRAM
    if not os.access(program, os.X_OK):
        sys.exit("edge: no program %s" % program)
    chosen = [it for it in CHECKS if it.__name__ in (sys.argv[2:] or [it.__name__])]
    with tempfile.TemporaryDirectory() as room:
        # a copy that who has no rights may start, too
        os.chmod(room, 0o711)
        program = shutil.copy(program, os.path.join(room, "vizrun"))
        os.chmod(program, 0o755)
        for check in chosen:
            with tempfile.TemporaryDirectory() as folder:
                known = len(errors)
                check(Place(program, folder))
                errors[known:] = ["%s: %s" % (check.__name__, error) for error in errors[known:]]
    for error in errors:
        print("edge:", error)
    if errors:
        sys.exit(1)
    print("edge: %d checks passed" % len(chosen))


main()
