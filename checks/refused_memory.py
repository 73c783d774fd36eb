#!/usr/bin/env python3
"""Refuses one call of the built program at a time, and looks at what comes of it.

Whatever is refused, the program ends with a status that is due, in bounded time. Where memory was
refused, the report is the ordinary one, in which `ran` may be larger, with status 0, or it says
`memory`, with status 5. Where a call failed, it says `fault`, or the report itself isn't whole,
with status 4; a call that gives or takes fewer bytes changes nothing. Each file that a line tells
as whole has the bytes that `scratch` gives of the journal at the number of the line, or, where
there is no journal, those of the undisturbed run.
"""
import collections
import os
import re
import shutil
import subprocess
import sys
import tempfile

TOP = os.path.dirname(os.path.dirname(os.path.abspath(__file__)))
PROGRAM = os.path.join(TOP, "crates/viz_cli/out/viz_cli")
SHIM = os.path.join(TOP, "out/checks/refuse.so")
VOLUME = ("# vtk DataFile Version 3.0\nc\nASCII\nDATASET STRUCTURED_POINTS\nDIMENSIONS 3 3 5\n"
          "ORIGIN 0 0 0\nSPACING 1 1 1\nPOINT_DATA 45\nSCALARS s int\nLOOKUP_TABLE default\n"
          + " ".join(str((7 * n) % 11) for n in range(45)) + "\n")
SQUARE = ("# vtk DataFile Version 3.0\nq\nASCII\nDATASET POLYDATA\nPOINTS 4 int\n"
          "0 0 0 1 0 0 1 1 0 0 1 0\nPOLYGONS 2 8\n3 0 1 2\n3 0 2 3\n"
          "POINT_DATA 4\nSCALARS s int\nLOOKUP_TABLE default\n0 0 0 0\n")
GRID = ("# vtk DataFile Version 5.1\ng\nASCII\nDATASET UNSTRUCTURED_GRID\nPOINTS 5 int\n"
        "0 0 0 1 0 0 0 1 0 0 0 1 1 1 1\nCELLS 4 10\nOFFSETS vtktypeint64\n0 4 7 10\n"
        "CONNECTIVITY vtktypeint64\n0 1 2 3 1 2 4 2 3 4\nCELL_TYPES 3\n10 5 5\n"
        "POINT_DATA 5\nSCALARS s int\nLOOKUP_TABLE default\n0 1 2 3 4\n")
FRONT = ["1 add file src", "1 load src c.vtk", "1 add contour iso", "1 connect src iso 1"]
# The lines of each script.
SCRIPTS = {
    "level changed": FRONT + ["1 set iso levels 5", "1 update iso a.vtk 1 1",
                              "1 set iso levels 8", "1 update iso b.vtk 1 1"],
    "second phase": FRONT + ["1 set iso levels 5", "phase", "2 set iso levels 8",
                             "2 update iso a.vtk 1 1", "1 audit iso 1 1"],
    "pieces on workers": FRONT + ["1 add boundary edge", "1 connect iso edge 1",
                                  "1 set iso levels 5", "1 update edge a.vtk 3 2",
                                  "1 set iso levels 8", "1 update edge b.vtk 4 2",
                                  "1 audit iso 2 2"],
    "version 5.1": ["1 add file src", "1 load src g.vtk", "1 add writer w", "1 connect src w 1",
                    "1 set w version 5", "1 update w a.vtk 1 1", "1 set w form binary",
                    "1 update w b.vtk 2 2"],
    "batches": ["1 add file src", "1 load src c.vtk", "1 begin", "1 add contour iso",
                "1 connect src iso 1", "1 set iso levels 5", "1 end", "1 update iso a.vtk 1 1",
                "1 begin", "1 add threshold low", "1 set low range 0 7", "1 connect src low 1",
                "1 connect low iso 1", "1 set iso levels 6", "1 end", "1 update iso b.vtk 2 2"],
}
OLD = ("vizrun journal 1\n1 1 add file src\n1 2 load src %d\n%s\n1 3 add contour iso\n"
       "1 4 connect src iso 1\n1 5 set iso levels 5\nend 5\n" % (len(VOLUME), VOLUME))
# The words of each command; of a script `s` is the script and `j` the journal.
COMMANDS = {name: ["run", "s", "j"] for name in SCRIPTS}
COMMANDS["one file"] = ["once", "c.vtk", "a.vtk", "contour", "5"]
COMMANDS["strips"] = ["strip", "q.vtk", "a.vtk"]
COMMANDS["a clip"] = ["clip", "c.vtk", "a.vtk", "0", "0", "2", "1"]
COMMANDS["a volume"] = ["make", "7", "3", "2", "2", "a.vtk"]
COMMANDS["a journal"] = ["migrate", "old", "a.vtk"]
# How each kind of call is refused: by error numbers (input and output, no space, no file), or for
# half of the bytes.
WAYS = [("memory", "12"), ("open", "2"), ("open", "28"), ("read", "5"), ("read", "short"),
        ("write", "5"), ("write", "28"), ("write", "short")]
MOST = 100_000
errors = []
Outcome = collections.namedtuple("Outcome", "status out files")


def wrong(name, way, number, what):
    errors.append("%s, %s %s, call %d: %s" % (name, way[0], way[1], number, what))


def folder_of(name, root):
    """A fresh folder with the files that a command reads."""
    folder = tempfile.mkdtemp(dir=root)
    for path, content in ("c.vtk", VOLUME), ("q.vtk", SQUARE), ("g.vtk", GRID), ("old", OLD):
        with open(os.path.join(folder, path), "w") as file:
            file.write(content)
    if name in SCRIPTS:
        with open(os.path.join(folder, "s"), "w") as file:
            file.write("\n".join(SCRIPTS[name]) + "\n")
    return folder


def run(words, folder, more):
    done = subprocess.run([PROGRAM] + words, cwd=folder, stdin=subprocess.DEVNULL, timeout=60,
                          stdout=subprocess.PIPE, env={**os.environ, **more})
    files = {it: open(os.path.join(folder, it), "rb").read() for it in os.listdir(folder)}
    return Outcome(done.returncode, done.stdout.decode(errors="replace"), files)


def without_ran(report):
    return re.sub(r" ran \d+$", "", report, flags=re.M)


def target_of(name, actor, command):
    """The words of an actor's command of a script; a batch is one command."""
    lines = [it.split() for it in SCRIPTS[name] if it.startswith("%s " % actor)]
    commands, is_open = [], False
    for words in lines:
        if not is_open:
            commands.append(words)
        is_open = words[1] == "begin" or is_open and words[1] != "end"
    return commands[int(command) - 1]


def whole_files(name, way, number, found, plain, folder):
    """Each file that a line tells as whole has the bytes that are due."""
    for line in found.out.splitlines():
        told = re.match(r"file (?:(\d+) (\d+) )?(?:at (\d+) )?cells \d+ points \d+", line)
        whole = re.match(r"strips \d+ triangles \d+ points \d+|migrated \d+", line)
        if (whole or told and not told[1]) and found.files.get("a.vtk") != plain.files["a.vtk"]:
            wrong(name, way, number, "a.vtk isn't whole")
        if told and told[1]:
            _, _, node, path, *_ = target_of(name, told[1], told[2])
            due = plain.files[path]
            if "j" in found.files and found.files["j"]:
                again = run(["scratch", "j", told[3], node, "again"], folder, {})
                due = again.files.get("again")
            if found.files.get(path) != due:
                wrong(name, way, number, "%s isn't that of %s" % (path, line))


def look(name, way, number, found, plain, folder):
    """What the program did where one call was refused."""
    ordinary = found.status == plain.status and without_ran(found.out) == without_ran(plain.out)
    if way[1] == "short":
        if found._replace(files={}) != plain._replace(files={}):
            wrong(name, way, number, "another report: %d %r" % (found.status, found.out))
    elif way[0] == "memory":
        if not (ordinary or found.status == 5):
            wrong(name, way, number, "status %d, %r" % (found.status, found.out))
        if found.status == 5 and found.out and "memory" not in found.out:
            if not plain.out.startswith(found.out):
                wrong(name, way, number, "no word of memory: %r" % found.out)
    elif not (ordinary or found.status == 4):
        wrong(name, way, number, "status %d, %r" % (found.status, found.out))
    whole_files(name, way, number, found, plain, folder)


def each_call(name, way, plain, root):
    """Refuses the calls of one kind, the first one first, up to the last that there is."""
    statuses = collections.Counter()
    for number in range(1, MOST):
        folder = folder_of(name, root)
        mark = os.path.join(root, "mark")
        more = {"LD_PRELOAD": SHIM, "REFUSE": way[0], "REFUSE_HOW": way[1],
                "REFUSE_AT": str(number), "REFUSE_MARK": mark}
        try:
            found = run(COMMANDS[name], folder, more)
        except subprocess.TimeoutExpired:
            wrong(name, way, number, "it didn't end")
            continue
        if not os.path.exists(mark):
            shutil.rmtree(folder)
            break
        os.remove(mark)
        statuses[found.status] += 1
        look(name, way, number, found, plain, folder)
        shutil.rmtree(folder)
    told = ", ".join("%d with status %d" % (n, status) for status, n in sorted(statuses.items()))
    print("%s: %s %s refused: %s" % (name, way[0], way[1], told or "no call"), flush=True)


def main():
    global PROGRAM
    if len(sys.argv) > 1:
        PROGRAM = os.path.abspath(sys.argv[1])
    with tempfile.TemporaryDirectory() as root:
        for name in COMMANDS:
            plain = run(COMMANDS[name], folder_of(name, root), {})
            if plain.status != 0:
                sys.exit("%s: status %d undisturbed, %r" % (name, plain.status, plain.out))
            for way in WAYS:
                each_call(name, way, plain, root)
    for it in errors[:40]:
        print(it)
    print("refused calls: %d wrong" % len(errors))
    return 1 if errors else 0


if __name__ == "__main__":
    sys.exit(main())
