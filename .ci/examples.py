#!/usr/bin/env python3
"""Types the examples of README, FILTERS and the pages of USING at the built program, and compares
what comes.

The program is crates/viz_cli/out/viz_cli, or the one that is named. All these pages are typed
in one fresh folder, where the program lies as `vizrun` beside `docs`:

- A block is a file where the line in front of it ends with the file's name in ticks and a colon.
- In any other block a line that begins with "$ " is typed in bash. The lines behind it, up to the
  next one or to the end, are what has to come, word for word.
- A file has one content on all pages: none is shown twice, and none is written over.

Then the kinds of node: each has a row in README's table, and in FILTERS a part with the ports,
values and defaults that FORMATS-OF-FILTERS has, the class of VTK that README has, and a script that adds a
node of it.
"""
import os
import re
import subprocess
import sys
import tempfile

TOP = os.path.dirname(os.path.dirname(os.path.abspath(__file__)))
PROGRAM = os.path.join(TOP, "crates/viz_cli/out/viz_cli")
README, FILTERS = "README.md", "docs/FILTERS.md"
USING = ["docs/USING.md", "docs/USING-SCRIPTS.md", "docs/USING-FILES.md",
         "docs/CONSOLE.md"]
TYPED_PAGES = [README, FILTERS] + USING
KINDS = "docs/FORMATS-OF-FILTERS.md"
# Lines that are shown and not typed: their first words, and why. No line that is typed reads a file
# that such a line writes.
NOT_TYPED = {
    "python3 docs/whole.py ": "it needs VTK and numpy, which the gate hasn't",
    "python3 docs/scaled.py ": "it needs VTK, which the gate hasn't",
    "python3 docs/mesh.py ": "it needs VTK and numpy, which the gate hasn't",
    "python3 docs/clip.py ": "it needs VTK and numpy, which the gate hasn't",
    "xvfb-run ": "it draws with VTK, which the gate hasn't",
    "pvpython ": "it is ParaView's Python, which the gate hasn't",
    "./vizrun once wavelet.vtk ": "it reads a file that ParaView has written",
}
# What is said of a kind, in this order; a kind has a line for each of its parameters.
WORDS = ["Ports", "Parameter", "Makes", "Faults", "VTK", "Example"]
# A parameter is typed by its name in small letters, but for these.
TYPED = {"Bounds": "box", "Style": "form"}
SECONDS = 1200
errors = []


def text(path):
    with open(os.path.join(TOP, path), encoding="utf-8") as file:
        return file.read()


# ---- examples


class Block:
    """A block of a page: its place, the file that it is, if any, and its lines."""

    def __init__(self, page, at, front):
        named = re.search(r"`(\w[\w.-]*)`:$", front)
        self.place = "%s:%d" % (page, at)
        self.file = named[1] if named else None
        self.lines = []

    def commands(self):
        """Each line that is typed, with what has to come."""
        found = []
        for line in [] if self.file else self.lines:
            if line.startswith("$ "):
                found.append((line[2:], []))
            elif found:
                found[-1][1].append(line)
        return [(line, "".join(it + "\n" for it in wanted)) for line, wanted in found]


def blocks_of(page):
    blocks, open_block, front = [], None, ""
    for at, line in enumerate(text(page).splitlines(), 1):
        if line.startswith("```"):
            if open_block:
                blocks.append(open_block)
                open_block, front = None, ""
            else:
                open_block = Block(page, at, front)
        elif open_block:
            open_block.lines.append(line)
        elif line:
            front = line
    return blocks


def stamps(folder):
    """When each file was written."""
    return {it.name: it.stat().st_mtime_ns for it in os.scandir(folder) if it.is_file()}


def show(block, folder):
    """Lays a file of a page down."""
    path = os.path.join(folder, block.file)
    if os.path.lexists(path) or any(line.startswith("$ ") for line in block.lines):
        errors.append("%s: there is a `%s` already, or it is no file" % (block.place, block.file))
        return
    with open(path, "w", encoding="utf-8") as file:
        file.write("".join(line + "\n" for line in block.lines))


def type_in(place, line, wanted, status, folder):
    """Types a line behind one of this status, compares, and gives its own status."""
    old = stamps(folder)
    typed = "(exit %d)\n%s" % (status, line)
    done = subprocess.run(["bash", "-c", typed], cwd=folder, stdin=subprocess.DEVNULL,
                          stdout=subprocess.PIPE, stderr=subprocess.STDOUT, timeout=SECONDS)
    found = done.stdout.decode("utf-8", errors="replace")
    if found != wanted:
        errors.append("%s: $ %s\nputs\n%sand the page has\n%s" % (place, line, found, wanted))
    new = stamps(folder)
    for name in sorted(it for it in old if new.get(it) != old[it]):
        errors.append("%s: $ %s\nwrites `%s` over" % (place, line, name))
    return done.returncode


def check_examples(program):
    """Types all pages, and gives how many lines were typed."""
    count, left_out = 0, set()
    with tempfile.TemporaryDirectory() as folder:
        os.symlink(program, os.path.join(folder, "vizrun"))
        os.symlink(os.path.join(TOP, "docs"), os.path.join(folder, "docs"))
        for block in (it for page in TYPED_PAGES for it in blocks_of(page)):
            status = 0
            if block.file:
                show(block, folder)
            for line, wanted in block.commands():
                others = [it for it in NOT_TYPED if line.startswith(it)]
                left_out.update(others)
                if not others:
                    status = type_in(block.place, line, wanted, status, folder)
                    count += 1
    for words in NOT_TYPED:
        if words not in left_out:
            errors.append("no page has a line `%s`, which isn't typed" % words)
    return count


# ---- kinds of node


def table(page, head):
    """The rows of the table with this head."""
    found = []
    for line in text(page).split("\n%s\n" % head, 1)[1].splitlines()[1:]:
        if not line.startswith("|"):
            break
        found.append([cell.strip() for cell in line.strip("|").split("|")])
    return found


def check_part(kind, ports, parameters, values, classes, part):
    """One kind of FILTERS: its words in order, ports, parameters, class of VTK, and a script."""
    name = kind.lower()
    lines = re.findall(r"^- \*\*(\w+)\*\*: (.*)$", part, re.M)
    wanted = WORDS[:1] + WORDS[1:2] * max(1, len(parameters)) + WORDS[2:]
    if [word for word, _ in lines] != wanted:
        errors.append("%s, %s: its words aren't %s" % (FILTERS, name, wanted))
        return
    if not re.match(ports + r"\b", lines[0][1]):
        errors.append("%s, %s: it has %s ports" % (FILTERS, name, ports))
    said = [line for word, line in lines if word == "Parameter"]
    for parameter, line in zip(parameters, said):
        typed = TYPED.get(parameter, parameter.lower())
        which, default = values[parameter]
        rule = r"`set NODE %s [^`]+`: %s; default %s(\.|$)" % (
            typed, re.escape(which), re.escape(default))
        if not re.match(rule, line):
            errors.append("%s, %s: %s isn't `set NODE %s ..`: %s; default %s"
                          % (FILTERS, name, parameter, typed, which, default))
    if not parameters and said != ["none"]:
        errors.append("%s, %s: it has no parameter" % (FILTERS, name))
    if not re.match(classes.split()[0] + r"\b", dict(lines)["VTK"]):
        errors.append("%s, %s: its class isn't %s, as in %s" % (FILTERS, name, classes, README))
    if not re.search(r"^1 add %s \w+$" % name, part, re.M) or "\n$ ./vizrun run " not in part:
        errors.append("%s, %s: it has no example" % (FILTERS, name))


def check_kinds():
    """README and FILTERS have the kinds of the code, in its order, as the page of filters says them."""
    code = text("crates/viz_kinds/src/kind.rt").split("pub enum Kind {")[1].split("}")[0]
    kinds = re.findall(r"^    (\w+),$", code, re.M)
    shown = table(README, "| Kind | Makes | VTK |")
    here = [re.search(r"\w+", row[0])[0] for row in shown]
    parts = re.split(r"^## (.*)$", text(FILTERS), flags=re.M)
    for page, names in ((README, here), (FILTERS, parts[1::2])):
        if names != [kind.lower() for kind in kinds]:
            errors.append("%s: its kinds of node are %s, and not %s" % (page, names, kinds))
    values = {row[0]: row[1:] for row in table(KINDS, "| Parameter | Values | Default |")}
    said = {row[0]: row[1:] for row in table(KINDS, "| Kind | Ports | Parameters |")}
    for kind, row, part in zip(kinds, shown, parts[2::2]):
        ports, parameters = said[kind]
        check_part(kind, ports, re.findall(r"\w+", parameters), values, row[-1], part)


def main():
    program = os.path.abspath(sys.argv[1]) if len(sys.argv) > 1 else PROGRAM
    if not os.access(program, os.X_OK):
        sys.exit("examples: no program %s" % program)
    count = check_examples(program)
    check_kinds()
    for error in errors:
        print("examples:", error)
    if errors:
        sys.exit(1)
    print("examples: %d lines of %d pages put what the pages say" % (count, len(TYPED_PAGES)))


if __name__ == "__main__":
    main()
