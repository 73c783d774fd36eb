#!/usr/bin/env python3
"""Types command lines at the built program: help, the version, folders, words that are none,
progress on a terminal, and a person at a session.

The program is crates/viz_cli/out/viz_cli, or the one that is named.
"""
import os
import pty
import subprocess
import sys
import tempfile
import termios

TOP = os.path.dirname(os.path.dirname(os.path.abspath(__file__)))
PROGRAM = os.path.join(TOP, "crates/viz_cli/out/viz_cli")
ONCE = ["once", "b.vtk", "o.vtk", "threshold", "2", "3"]
DONE = (0, b"file cells 0 points 4\n")
USAGE = (1, b"vizrun: usage\n")
# What help names: the words, and the statuses.
HELP = [b"\n  once IN OUT threshold LO HI ", b"\n  once IN OUT contour V ", b"\n  strip IN OUT ",
        b"\n  clip IN OUT A B C R ", b"\n  run SCRIPT JOURNAL ", b"\n  scratch JOURNAL N SINK OUT ",
        b"\n  migrate JOURNAL OUT ", b"\n  console ", b"\n  make NUMBER NX NY NZ OUT ", b"--dir", b"--progress"]
HELP += [b"\n  %d  " % status for status in range(6)]
VERSION = b"""vizrun 0.9.0
Before 1.0 scripts, journals, reports and written files may change with the
second number; CHANGES.md says how. Journals of earlier versions are read.
"""
# Words that are no command.
NONE = [[], ["--help", "x"], ["x", "--help"], ["--version", "--help"], ["--dir"], ["--dir", "folder"],
        ["--dir", "-x"] + ONCE, ["--dir=folder"] + ONCE, ["--dir", "folder", "--dir", "folder"] + ONCE,
        ["--progress"], ["--progress", "--progress"] + ONCE, ONCE + ["--progress"],
        ["--progress", "--dir", "folder", "--progress"] + ONCE,
        ["strip", "b.vtk"], ["strip", "b.vtk", "o.vtk", "x"], ["strip", "b.vtk", ".o.vtk"],
        ["clip", "b.vtk", "o.vtk", "1", "2", "3"], ["clip", "b.vtk", "o.vtk", "0", "0", "0", "1"],
        ["clip", "b.vtk", "o.vtk", "1", "2", "3", "-2147483648"],
        ["console", "x"], ["console", ""], ["migrate", "j"], ["migrate", "j", "k", "x"], ["migrate", "j", ".k"],
        ONCE + ["--dir", "folder"], [b"\xff"], ["run", b"s\xff", "j"], ["--dir", b"\xff"] + ONCE]
# Folders, as they are typed and as they are, below the one that the program is started in.
FOLDERS = [("folder", "folder"), ("folder/", "folder"), ("-", "-"), ("", "."), (".", ".")]
# A script of two updates, of two tasks each in one piece, the second of which finds both kept.
SCRIPT = b"""1 add file src
1 load src b.vtk
1 add threshold op
1 connect src op 1
1 set op range 2 3
1 update op o.vtk 1 1
1 update op o.vtk 1 1
"""
SHOWN = b"1 tasks\r2 tasks\r\x1b[K"
WELCOME = (b"A command a line, as `add file src`; `quit` or control-D ends."
           b" The words stand in docs/CONSOLE.md.\r\n")
errors = []


def run(program, words, folder):
    done = subprocess.run([program] + words, cwd=folder, stdin=subprocess.DEVNULL,
                          stdout=subprocess.PIPE, stderr=subprocess.STDOUT, timeout=60)
    return done.returncode, done.stdout


def check(words, found, wanted):
    if found != wanted:
        errors.append("%s: %s, and not %s" % (words, found, wanted))


def check_texts(program, folder):
    status, text = run(program, ["--help"], folder)
    lost = [part for part in HELP if part not in text]
    if status != 0 or lost:
        errors.append("--help: status %d, without %s" % (status, lost))
    check("--version", run(program, ["--version"], folder), (0, VERSION))


def files(folder):
    return sorted(os.path.relpath(os.path.join(path, name), folder)
                  for path, _, names in os.walk(folder) for name in names)


def check_folders(program, folder):
    """Nothing but the output is written, and that beside the input."""
    with open(os.path.join(TOP, "crates/viz_cli/data/b.vtk"), "rb") as file:
        image = file.read()
    for typed, name in FOLDERS:
        with tempfile.TemporaryDirectory(dir=folder) as start:
            place = os.path.join(start, name)
            os.makedirs(place, exist_ok=True)
            with open(os.path.join(place, "b.vtk"), "wb") as file:
                file.write(image)
            words = ["--dir", typed] + ONCE
            check(words, run(program, words, start), DONE)
            wanted = [os.path.normpath(os.path.join(name, file)) for file in ("b.vtk", "o.vtk")]
            check(words, files(start), wanted)


def shown(program, words, folder):
    """What a terminal gets on standard error, and what standard output has."""
    near, far = pty.openpty()
    done = subprocess.Popen([program] + words, cwd=folder, stdin=subprocess.DEVNULL,
                            stdout=subprocess.PIPE, stderr=far)
    os.close(far)
    text = done.stdout.read()
    found = b""
    while True:
        try:
            more = os.read(near, 4096)
        except OSError:
            break
        if not more:
            break
        found += more
    os.close(near)
    return done.wait(timeout=60), text, found


def check_progress(program, folder):
    """Standard error has a line where it is a terminal and progress is asked for, else nothing."""
    with tempfile.TemporaryDirectory(dir=folder) as place:
        with open(os.path.join(TOP, "crates/viz_cli/data/b.vtk"), "rb") as file:
            image = file.read()
        for name, text in (("b.vtk", image), ("s", SCRIPT)):
            with open(os.path.join(place, name), "wb") as file:
                file.write(text)
        words = ["run", "s", "j"]
        status, report, found = shown(program, words, place)
        check(words, (status, found), (0, b""))
        for words in (["--progress", "run", "s", "j"], ["--progress", "--dir", ".", "run", "s", "j"],
                      ["--dir", ".", "--progress", "run", "s", "j"]):
            check(words, shown(program, words, place), (0, report, SHOWN))
            check(words, run(program, words, place), (0, report))


def check_person(program, folder):
    """A person at a session is told what to type, and has a prompt for each line."""
    near, far = pty.openpty()
    kinds = termios.tcgetattr(far)
    kinds[3] &= ~termios.ECHO
    termios.tcsetattr(far, termios.TCSANOW, kinds)
    session = subprocess.Popen([program, "console"], cwd=folder, stdin=far,
                               stdout=subprocess.PIPE, stderr=far)
    for line, answer in ((b"add crop a\n", b"edit 1 at 1\n"), (b"help\n", b"bad 2 Word\n")):
        os.write(near, line)
        check(["console"], session.stdout.readline(), answer)
    os.write(near, b"\x04")
    check(["console"], (session.wait(timeout=60), session.stdout.read()), (0, b""))
    found = b""
    while len(found) < len(WELCOME) + 6:
        found += os.read(near, 4096)
    check(["console"], found, WELCOME + b"> > > ")
    os.close(near)
    os.close(far)


def main():
    program = os.path.abspath(sys.argv[1]) if len(sys.argv) > 1 else PROGRAM
    if not os.access(program, os.X_OK):
        sys.exit("command line: no program %s" % program)
    with tempfile.TemporaryDirectory() as folder:
        check_texts(program, folder)
        for words in NONE:
            check(words, run(program, words, folder), USAGE)
        words = ["--dir", "none", "run", "s", "j"]
        check(words, run(program, words, folder), (4, b"fault read\n"))
        check("all words", files(folder), [])
        check_folders(program, folder)
        check_progress(program, folder)
        check_person(program, folder)
    for error in errors:
        print("command line:", error)
    if errors:
        sys.exit(1)
    print("command line: %d lines are answered as docs/FORMATS.md says"
          % (len(NONE) + len(FOLDERS) + 11))


main()
