#!/usr/bin/env python3
"""Proves the libraries side by side, each as soon as those below it are proved.

`rt lib` holds the folders of a library and of all those below it, so that two libraries over one
base would wait for each other. So each is proved in a copy of its sources and of those below, in
out/lanes, and what it keeps is then moved to its own folder, where `rt run` finds it.

PROVE names another command for a dry run, as PROVE="sleep 1".
"""
import os
import re
import shlex
import shutil
import subprocess
import sys
import time
from concurrent.futures import FIRST_COMPLETED, ThreadPoolExecutor, wait

TOP = os.path.dirname(os.path.dirname(os.path.abspath(__file__)))
OUT = os.path.join(TOP, "out")
PARTS = ("src", "specs", "proofs")
# The memory that one proof may take, in bytes.
ROOM = 3_000_000_000
# rt itself takes no more jobs for one library.
MOST_JOBS = 4
# How many lines of a log are shown where a library isn't proved.
TAIL = 40


class Libraries:
    """The libraries of crates.txt: their lines, those right below each, and the work of each."""

    def __init__(self):
        self.lines = {}
        with open(os.path.join(TOP, "crates.txt"), encoding="utf-8") as file:
            for line in (it.split("#")[0].strip() for it in file):
                name = re.split(r"[ :]", line)[0]
                if name and not os.path.exists(self.folder(name, "src/main.rt")):
                    self.lines[name] = line
        self.uses = {name: [it for it in line.partition(":")[2].split() if it in self.lines]
                     for name, line in self.lines.items()}
        self.work = {name: self.count(name) for name in self.lines}
        self.chains = {}

    @staticmethod
    def folder(name, part):
        return os.path.join(TOP, "crates", name, part)

    def count(self, name):
        """How many lines of code it has."""
        found = 0
        for at, _, files in os.walk(self.folder(name, "src")):
            for it in files:
                with open(os.path.join(at, it), "rb") as file:
                    found += sum(1 for _ in file)
        return found

    def below(self, name):
        """All libraries below it."""
        return sorted({it for use in self.uses[name] for it in [use, *self.below(use)]})

    def chain(self, name):
        """The work of the longest chain of libraries that begins with it."""
        if name not in self.chains:
            above = [it for it, uses in self.uses.items() if name in uses]
            self.chains[name] = self.work[name] + max(map(self.chain, above), default=0)
        return self.chains[name]


def lay_out(libraries, name):
    """A folder with the sources of a library and of those below it, and with what these built."""
    lane, below = os.path.join(OUT, "lanes", name), libraries.below(name)
    os.makedirs(lane)
    with open(os.path.join(lane, "crates.txt"), "w", encoding="utf-8") as file:
        file.writelines(libraries.lines[it] + "\n" for it in [*below, name])
    for it in [*below, name]:
        for part in PARTS:
            if os.path.isdir(libraries.folder(it, part)):
                shutil.copytree(libraries.folder(it, part), os.path.join(lane, "crates", it, part))
    for it in below:
        built = libraries.folder(it, "out/rlib")
        if os.path.isdir(built):
            to = os.path.join(lane, "crates", it, "out/rlib")
            shutil.copytree(built, to, copy_function=os.link)
    if os.path.isdir(libraries.folder(name, "out")):
        os.rename(libraries.folder(name, "out"), os.path.join(lane, "crates", name, "out"))
    return lane


def prove(libraries, name, jobs):
    """Proves a library; its status, and the seconds that it took."""
    begun = time.monotonic()
    command = shlex.split(os.environ.get("PROVE", "")) or ["rt", "lib", "--jobs", str(jobs)]
    lane = lay_out(libraries, name)
    folder = os.path.join(lane, "crates", name)
    try:
        with open(os.path.join(OUT, name + ".log"), "w", encoding="utf-8") as log:
            status = subprocess.run(command, cwd=folder, stdin=subprocess.DEVNULL, stdout=log,
                                    stderr=subprocess.STDOUT).returncode
    finally:
        if os.path.isdir(os.path.join(folder, "out")):
            os.rename(os.path.join(folder, "out"), libraries.folder(name, "out"))
        shutil.rmtree(lane)
    return status, time.monotonic() - begun


def places(processors):
    """How many proofs run at a time: one a processor, as many as memory holds."""
    with open("/proc/meminfo", encoding="utf-8") as file:
        free = 1024 * int(re.search(r"MemAvailable:\s+(\d+)", file.read())[1])
    return max(1, min(processors, free // ROOM))


class Pace:
    """How long the proofs took, and by that how long those that are left will take."""

    def __init__(self, libraries, most):
        self.libraries, self.most, self.seconds, self.lines = libraries, most, 0.0, 0

    def add(self, name, seconds):
        self.seconds += seconds
        self.lines += self.libraries.work[name]

    def left(self, done):
        """The minutes that are left: of the longest chain, or of all by as many as run at a time."""
        left = [it for it in self.libraries.lines if it not in done]
        lines = max([sum(map(self.libraries.work.get, left)) / self.most,
                     *map(self.libraries.chain, left)])
        return round(lines * self.seconds / max(self.lines, 1) / 60)


def tell(name, status, seconds, share):
    """One line where it is proved, else the end of its log."""
    if status == 0:
        print("%s proved in %d:%02d (%s)" % (name, seconds // 60, seconds % 60, share), flush=True)
        return
    log = os.path.join(OUT, name + ".log")
    with open(log, encoding="utf-8", errors="replace") as file:
        print("".join(file.readlines()[-TAIL:]), end="")
    print("%s NOT PROVED: status %d. Above is the end of %s." % (name, status, log), flush=True)


def main():
    libraries, processors = Libraries(), len(os.sched_getaffinity(0))
    most = places(processors)
    shutil.rmtree(os.path.join(OUT, "lanes"), ignore_errors=True)
    os.makedirs(OUT, exist_ok=True)
    print("Proving %d libraries, up to %d at a time." % (len(libraries.lines), most), flush=True)
    done, running, failed, pace = set(), {}, False, Pace(libraries, most)
    with ThreadPoolExecutor(most) as pool:
        while True:
            ready = [it for it in libraries.lines if it not in done and it not in running.values()
                     and done.issuperset(libraries.uses[it])]
            ready = sorted(ready, key=libraries.chain, reverse=True)[:most - len(running)]
            for name in [] if failed else ready:
                jobs = max(1, min(MOST_JOBS, processors // len({*running.values(), *ready})))
                running[pool.submit(prove, libraries, name, jobs)] = name
            if not running:
                break
            for it in wait(running, return_when=FIRST_COMPLETED).done:
                name, (status, seconds) = running.pop(it), it.result()
                done |= {name} if status == 0 else set()
                failed = failed or status != 0
                pace.add(name, seconds)
                tell(name, status, seconds, "%d of %d, about %d minutes left"
                     % (len(done), len(libraries.lines), pace.left(done)))
    if len(done) < len(libraries.lines):
        sys.exit("Not all libraries are proved.")


if __name__ == "__main__":
    try:
        main()
    except KeyboardInterrupt:
        sys.exit("Stopped. What was proved is kept.")
    finally:
        shutil.rmtree(os.path.join(OUT, "lanes"), ignore_errors=True)
