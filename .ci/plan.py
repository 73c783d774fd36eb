#!/usr/bin/env python3
"""Reckons plans by a plain recursive program, for the table of crates/viz_plan_tests.

The rules are those of docs/DEFINITIONS.md: what a node makes for a request, what it asks its inputs
for, which kept request serves, and the plan of several requests. Nothing is remembered: each way
upstream is gone in full, and what an earlier need serves is left out at the end.

Without words it compares the table in the tests with what it reckons; with numbers it prints the
rows of the networks that chance makes of them.
"""
import os
import random
import re
import sys

TOP = os.path.dirname(os.path.dirname(os.path.abspath(__file__)))
TABLE = os.path.join(TOP, "crates/viz_plan_tests/src/table.rt")
WHOLE = (0, 3, 0, 3, 0, 3)
CROPPED = (1, 2, 0, 3, 0, 2)
DEFAULTS = {"Sample": (1, 1, 1), "Smooth": 1}
IMAGES = ("File", "Threshold", "Crop", "Smooth", "Sample", "Arith")


def slab(p, n, whole):
    planes = whole[5] - whole[4] + 1
    first, past = p * planes // n, (p + 1) * planes // n
    return None if first == past else whole[:4] + (whole[4] + first, whole[4] + past - 1)


def layers(p, n, ghosts, whole):
    count = whole[5] - whole[4]
    first, past = p * count // n, (p + 1) * count // n
    if first == past:
        return whole[:4] + (whole[4], whole[4])
    return whole[:4] + (
        max(whole[4], whole[4] + first - ghosts),
        min(whole[5], whole[4] + past + ghosts),
    )


def grown(block, by, whole):
    low = [max(whole[i], block[i] - by) for i in (0, 2, 4)]
    high = [min(whole[i], block[i] + by) for i in (1, 3, 5)]
    return (low[0], high[0], low[1], high[1], low[2], high[2])


def spread(block, rate):
    return tuple(bound * rate[i // 2] for i, bound in enumerate(block))


def all_of(own):
    return own if own else (0, 1, 0)


def widened(kind, own, request):
    return all_of(own) if kind in ("File", "Merge") else request


def asked(kind, setting, whole, request):
    """A block has six numbers, a piece three: its own, how many, and ghost levels."""
    if kind == "Merge":
        return all_of(whole)
    if kind == "Sample":
        return spread(request, setting)
    if kind == "Smooth":
        return grown(request, setting, whole)
    if kind in ("Tets", "Contour", "Cut") and whole:
        return layers(*request, whole)
    if kind == "Boundary":
        p, n, ghosts = request
        return (p, n, ghosts + 1)
    return request


def serves(kept, wanted):
    if len(kept) != len(wanted):
        return False
    if len(kept) == 6:
        return all(kept[i] <= wanted[i] for i in (0, 2, 4)) and all(
            wanted[i] <= kept[i] for i in (1, 3, 5)
        )
    return kept[:2] == wanted[:2] and (wanted[2] <= kept[2] or kept[1] == 1)


class Network:
    """Settings: the rates of samples and the radii of smooths, where they are not the defaults."""

    def __init__(self, lines, images, kept, settings=()):
        self.lines = {name: (kind, [n for n in ins if n]) for name, kind, *ins in lines}
        self.images = dict(images)
        self.kept = kept
        self.settings = dict(settings)

    def past_writers(self, name):
        while name and self.lines[name][0] == "Writer":
            ins = self.lines[name][1]
            name = ins[0] if ins else None
        return name

    def asked(self, name, request):
        kind, ins = self.lines[name]
        setting = self.settings.get(name, DEFAULTS.get(kind))
        return asked(kind, setting, self.images.get(ins[0]) if ins else None, request)

    def entry(self, name, wanted):
        for node, older, request in self.kept:
            if node == name and older == 0 and serves(request, wanted):
                return request
        return None

    def needs(self, name, request, used):
        name = self.past_writers(name)
        if name is None:
            return []
        kind, ins = self.lines[name]
        wanted = widened(kind, self.images.get(name), request)
        entry = self.entry(name, wanted)
        if entry is not None:
            if (name, entry) not in used:
                used.append((name, entry))
            return []
        found = []
        for up in ins:
            found += self.needs(up, self.asked(name, wanted), used)
        return found + [(name, wanted)]

    def levels(self, sink, pieces):
        """The tasks level by level, and the entries that are used."""
        own = self.images.get(sink)
        if own:
            requests = [s for s in (slab(p, pieces, own) for p in range(pieces)) if s]
        else:
            requests = [(p, pieces, 0) for p in range(pieces)]
        used, needs, tasks = [], [], []
        for request in requests:
            needs += self.needs(sink, request, used)
        for i, (name, request) in enumerate(needs):
            if not any(n == name and serves(r, request) for n, r in needs[:i]):
                tasks.append((name, request))
        levels = {}
        for task in tasks:
            levels[task] = self.level(*task, tasks, levels)
        count = max(levels.values(), default=-1) + 1
        return [[task for task in tasks if levels[task] == i] for i in range(count)], used

    def plan(self, sink, pieces):
        levels, used = self.levels(sink, pieces)
        return sum(map(len, levels)), len(levels), len(used)

    def level(self, name, request, tasks, levels):
        level = 0
        for up in self.lines[name][1]:
            up = self.past_writers(up)
            if up is None:
                continue
            wanted = widened(self.lines[up][0], self.images.get(up), self.asked(name, request))
            if self.entry(up, wanted) is None:
                first = next(t for t in tasks if t[0] == up and serves(t[1], wanted))
                level = max(level, levels[first] + 1)
        return level


def made(seed):
    """A network, its images, what is kept, the sink and the pieces, by chance."""
    chance = random.Random(seed)
    lines, images = [("a", "File", "", "")], [("a", WHOLE)]
    for i in range(1, 7):
        name, own = "abcdefg"[i], dict(images)
        blocks = [n for n, *_ in lines if n in own]
        meshes = [n for n, *_ in lines if n not in own]
        whole = [n for n in blocks if own[n] == WHOLE]
        kinds = ["Threshold", "Smooth", "Arith", "Contour", "Tets", "Writer", "Crop"]
        if meshes:
            more = ["Boundary", "Boundary", "Append", "Append", "Merge", "Select", "Writer"]
            kinds = more + kinds
        kind = chance.choice(kinds)
        second = ""
        if kind == "Arith":
            first, second = chance.choice(whole), chance.choice(whole)
        elif kind == "Append":
            first, second = chance.choice(meshes), chance.choice(meshes)
        elif kind in ("Boundary", "Merge", "Select") or kind == "Writer" and meshes:
            first = chance.choice(meshes)
        elif kind == "Crop":
            first = chance.choice(whole)
        else:
            first = chance.choice(blocks)
        lines.append((name, kind, first, second))
        if kind == "Crop":
            images.append((name, CROPPED))
        elif kind in IMAGES or kind == "Writer" and first in own:
            images.append((name, own[first]))
    pieces = chance.choice((1, 2, 3, 5))
    kept = []
    for name, kind, *_ in lines:
        if kind != "Writer" and chance.random() < 0.4:
            own = dict(images).get(name)
            request = chance.choice(
                [own, own[:4] + (own[4], own[4] + 1), own[:4] + (own[4], own[4])]
                if own
                else [(0, 1, 0), (0, pieces, 1), (pieces - 1, pieces, 0), (0, pieces, 0)]
            )
            kept.append((name, chance.choice((0, 0, 0, 1)), request))
    return lines, images, kept, chance.choice("fg"), pieces


def shown(request):
    words = ", ".join(map(str, request))
    return f"Asked::Block([{words}])" if len(request) == 6 else f"Asked::Piece({words})"


def row(seed):
    lines, images, kept, sink, pieces = made(seed)
    want = Network(lines, images, kept).plan(sink, pieces)
    text = ["    Row {"]
    text.append("        lines: &[")
    text += [f'            ("{n}", Kind::{k}, "{a}", "{b}"),' for n, k, a, b in lines]
    text.append("        ],")
    text.append("        images: &[")
    text += [f'            ("{n}", [{", ".join(map(str, e))}]),' for n, e in images]
    text.append("        ],")
    if kept:
        text.append("        kept: &[")
        text += [f'            ("{n}", {o}, {shown(r)}),' for n, o, r in kept]
        text.append("        ],")
    else:
        text.append("        kept: &[],")
    text.append(f'        sink: "{sink}",')
    text.append(f"        pieces: {pieces},")
    text.append(f"        want: ({want[0]}, {want[1]}, {want[2]}),")
    text.append("    },")
    return "\n".join(text)


def read(text):
    """The rows of the table, as Python values."""
    for part in re.findall(r"\n    Row \{\n(.*?)\n    \},", text, re.S):
        part = re.sub(r"Kind::(\w+)", r'"\1"', part)
        part = re.sub(r"Asked::\w+\(\[([^\]]*)\]\)", r"(\1)", part)
        part = re.sub(r"Asked::Piece(\([^)]*\))", r"\1", part)
        part = re.sub(r"\[([\d, ]+)\]", r"(\1)", part).replace("&[", "[")
        part = re.sub(r"^        (\w+): ", r'        "\1": ', part, flags=re.M)
        yield eval("{" + part + "}")


def main():
    if len(sys.argv) > 1:
        print("\n".join(row(int(seed)) for seed in sys.argv[1:]))
        return 0
    wrong = 0
    count = 0
    with open(TABLE, encoding="utf-8") as file:
        text = file.read()
    for one in read(text):
        count += 1
        network = Network(one["lines"], one["images"], one["kept"])
        got = network.plan(one["sink"], one["pieces"])
        if got != one["want"]:
            wrong += 1
            print(f"row {count}: {one['want']} stands there, {got} is reckoned")
    print(f"{count} plans, {wrong} wrong")
    return 1 if wrong or not count else 0


if __name__ == "__main__":
    sys.exit(main())
