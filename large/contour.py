"""Contours of volumes of any size, by vizrun on the workers of a Dask cluster.

python3 large/contour.py VOLUME.. --level V..      docs/LARGE.md says what each option is

A volume is cut into slabs that share a plane. Each slab is contoured on whatever worker has it, and
the pieces are joined to one BINARY file for each volume and level.
"""
import argparse
import logging
import os
import shutil
import sys
import time

import numpy
from distributed import Client, LocalCluster, as_completed, get_worker

import join
import pieces
import slabs
import volume as volumes

HERE = os.path.dirname(os.path.abspath(__file__))


def words():
    """What is typed."""
    parser = argparse.ArgumentParser(description="Contours of volumes of any size.")
    add = parser.add_argument
    add("volume", nargs="+", help="a BINARY legacy file, or with --raw a file of numbers")
    add("--level", type=int, nargs="+", required=True, help="whole numbers")
    add("--out", default="surfaces", help="the folder of what is written, which all workers see")
    add("--raw", help="NXxNYxNZ:TYPE:ORDER, as 512x512x512:short:little")
    add("--origin", nargs=3, default=["0", "0", "0"], help="of raw numbers")
    add("--spacing", nargs=3, default=["1", "1", "1"], help="of raw numbers")
    add("--digits", type=int, default=3, help="decimals of a coordinate")
    add("--vizrun", default=os.path.join(os.path.dirname(HERE), "vizrun"), help="the program")
    add("--workers", type=int, default=4, help="of a cluster on this machine")
    add("--scheduler", help="the address of a cluster that runs already")
    add("--memory", type=int, default=2000, help="MB that vizrun may take on a worker")
    add("--planes", type=int, help="planes of a slab at most")
    add("--retries", type=int, default=3, help="so often a slab that failed is done again")
    add("--seconds", type=float, default=3600, help="that a slab may take")
    add("--keep", action="store_true", help="keep the pieces")
    return parser.parse_args()


def connect(asked):
    """The cluster that is named, or one of this machine, and this program's files on it."""
    if asked.scheduler:
        client = Client(asked.scheduler)
    else:
        client = Client(LocalCluster(n_workers=asked.workers, threads_per_worker=1, memory_limit=0,
                                     dashboard_address=None, silence_logs=logging.ERROR))
    for name in ("volume.py", "slabs.py", "pieces.py", "join.py"):
        client.upload_file(os.path.join(HERE, name))
    return client


class Log:
    """Lines with the seconds since the start, on the output and in a file."""

    def __init__(self, path):
        self.start, self.file = time.monotonic(), open(path, "a", encoding="utf-8")

    def say(self, text):
        line = "%8.1f  %s" % (time.monotonic() - self.start, text)
        print(line, flush=True)
        print(line, file=self.file, flush=True)


def tried(tries, work, *given):
    """Does a piece of work on this worker, and notes before that it is tried. Gives how often it
    was tried, where it was done, in how many seconds, and what came."""
    address, begun = get_worker().address, time.monotonic()
    with open(tries, "a", encoding="utf-8") as file:
        file.write(address + "\n")
    found = work(*given)
    with open(tries, encoding="utf-8") as file:
        count = len(file.readlines())
    return count, address, time.monotonic() - begun, found


class Run:
    """One run: its options, its cluster and its log."""

    def __init__(self, asked, client):
        self.asked, self.client = asked, client
        self.folder = os.path.abspath(os.path.join(asked.out, "pieces"))
        os.makedirs(self.folder, exist_ok=True)
        self.log = Log(os.path.join(asked.out, "log"))

    def submit(self, name, work, *given):
        """Hands a piece of work to the cluster, which does it again where it fails."""
        tries = os.path.join(self.folder, name + ".tries")
        if os.path.exists(tries):
            os.remove(tries)
        return self.client.submit(tried, tries, work, *given, retries=self.asked.retries,
                                  pure=False)

    def count(self, volume):
        """Has the cut edges of all planes counted for each level, on all workers."""
        planes, levels = volume.size[2], self.asked.level
        step = -(-planes // (4 * max(1, len(self.client.ncores()))))
        return [self.submit("%s-count%d" % (volume.name, first), slabs.survey, volume, levels,
                            first, min(first + step, planes)) for first in range(0, planes, step)]

    def plan(self, volume, counts):
        """Cuts a volume, and says what a slab takes. Gives the slabs with the points of each."""
        parts = [future.result()[3] for future in counts]
        rows = {level: numpy.concatenate([part[level] for part in parts])
                for level in self.asked.level}
        memory = self.asked.memory * 10 ** 6
        cut = slabs.cut_volume(volume, rows, memory, self.asked.planes or volume.size[2])
        points = [{level: slabs.points_between(rows[level], *planes) for level in rows}
                  for planes in cut]
        needs = [slabs.memory_of((last - first + 1) * volume.plane_bytes, max(count.values()))
                 for (first, last), count in zip(cut, points)]
        self.log.say("%s: %d x %d x %d %s, %d slabs of at most %d planes, and %d MB at most" % (
            volume.name, *volume.size, volume.type, len(cut),
            max(last - first + 1 for first, last in cut), max(needs) // 10 ** 6 + 1))
        return list(zip(cut, points))

    def start(self, volume, counts):
        """Hands all slabs of a volume to the cluster."""
        asked, started = self.asked, []
        for at, (planes, points) in enumerate(self.plan(volume, counts)):
            name = "%s-slab%d" % (volume.name, at)
            future = self.submit(name, pieces.contour_slab, volume, planes, asked.level,
                                 asked.digits, os.path.abspath(asked.vizrun),
                                 os.path.join(self.folder, name), asked.seconds)
            started.append((future, volume, at, planes, points))
        return started

    def told(self, slab, done, all_slabs):
        """Says what a slab came to, and compares its points with those that were counted."""
        future, volume, at, planes, points = slab
        try:
            tries, worker, seconds, found = future.result()
        except Exception as error:
            raise RuntimeError("slab %d of %s: %s" % (at, volume.name, error)) from error
        surfaces = ["level %d: %d triangles, %d points" % (level, it.triangles, it.points)
                    for level, it in zip(self.asked.level, found)]
        self.log.say("slab %d of %s, planes %d to %d, by %s, try %d, %.1f s; %s (%d of %d)" % (
            at, volume.name, *planes, worker, tries, seconds, "; ".join(surfaces), done, all_slabs))
        for level, it in zip(self.asked.level, found):
            if it.points != points[level]:
                raise ValueError("slab %d of %s has %d points at level %d, and %d edges are cut"
                                 % (at, volume.name, it.points, level, points[level]))
        return found

    def join(self, volume, found):
        """Has the pieces of a volume joined, a file for each level."""
        joins = []
        for at, level in enumerate(self.asked.level):
            path = os.path.abspath(os.path.join(self.asked.out, "%s-%d.vtk" % (volume.name, level)))
            mine = [slab[at] for slab in found]
            joins.append((volume, level, path, mine, self.submit(
                "%s-join%d" % (volume.name, at), join.join, mine, self.asked.digits, path)))
        return joins

    def told_join(self, volume, level, path, mine, future):
        """Says what came of the pieces of a surface: points and triangles add up."""
        points, triangles, seams = future.result()[3]
        if (points + seams, triangles) != (sum(it.points for it in mine),
                                           sum(it.triangles for it in mine)):
            raise ValueError("%s doesn't add up" % path)
        self.log.say("%s at %d: %d triangles, %d points, %d more at seams, %s" % (
            volume.name, level, triangles, points, seams, os.path.relpath(path)))

    def all(self):
        """Contours all volumes: the slabs of all are handed out before the first is waited for."""
        chosen = [self.volume(path) for path in self.asked.volume]
        names = [volume.name for volume in chosen]
        if len(set(names)) < len(names):
            raise ValueError("two volumes have one name: %s" % " ".join(names))
        counts = [self.count(volume) for volume in chosen]
        waiting, joins, found = {}, [], {}
        for volume, count in zip(chosen, counts):
            slabs_of = self.start(volume, count)
            found[volume.name] = [None] * len(slabs_of)
            waiting.update({slab[0]: slab for slab in slabs_of})
        for done, future in enumerate(as_completed(list(waiting)), 1):
            slab = waiting[future]
            volume, mine = slab[1], found[slab[1].name]
            mine[slab[2]] = self.told(slab, done, len(waiting))
            if None not in mine:
                joins += self.join(volume, mine)
        for one in joins:
            self.told_join(*one)
        if not self.asked.keep:
            shutil.rmtree(self.folder)

    def volume(self, path):
        """A volume, with a path that each worker finds."""
        path, asked = os.path.abspath(path), self.asked
        if asked.raw:
            return volumes.raw_volume(path, asked.raw, asked.origin, asked.spacing)
        return volumes.legacy_volume(path)


def main():
    asked = words()
    if not os.access(asked.vizrun, os.X_OK):
        sys.exit("contour: no program %s" % asked.vizrun)
    os.makedirs(asked.out, exist_ok=True)
    client = connect(asked)
    try:
        Run(asked, client).all()
    except (OSError, ValueError, RuntimeError) as error:
        sys.exit("contour: %s" % error)
    finally:
        client.close()


if __name__ == "__main__":
    main()
