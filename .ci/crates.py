#!/usr/bin/env python3
"""The list of crates in docs/ARCHITECTURE.md: levels and order are those of crates.txt, and what a
crate is stands in the first sentence of its src/lib.rt, or of src/main.rt where it is a program.

    python3 .ci/crates.py          says where the list isn't that one
    python3 .ci/crates.py write    writes it
"""
import os
import re
import sys

TOP = os.path.dirname(os.path.dirname(os.path.abspath(__file__)))
PAGE = os.path.join(TOP, "docs", "ARCHITECTURE.md")
BEGIN = "<!-- made by .ci/crates.py: begin -->\n"
END = "<!-- made by .ci/crates.py: end -->\n"


def text(path):
    with open(path, encoding="utf-8") as file:
        return file.read()


def stop(message):
    print("crates:", message)
    sys.exit(1)


def levels():
    """Each crate of crates.txt with the number of its level, in order."""
    found, level = [], None
    for line in text(os.path.join(TOP, "crates.txt")).splitlines():
        head = re.match(r"#\s*level (\d+)\b", line)
        level = head[1] if head else level
        crate = re.match(r"\w+", line)
        if crate and not level:
            stop("crates.txt: %s stands in front of the first level" % crate[0])
        if crate:
            found.append((level, crate[0]))
    return found


def what_it_is(crate):
    """The first sentence of its documentation."""
    folder = os.path.join(TOP, "crates", crate, "src")
    path = next((it for it in (os.path.join(folder, name) for name in ("main.rt", "lib.rt"))
                 if os.path.exists(it)), None)
    if not path:
        stop("%s has neither src/lib.rt nor src/main.rt" % crate)
    paragraph = re.match(r"(?://! .*\n)+", text(path))
    words = " ".join(re.findall(r"^//! (.*)", paragraph[0], re.M)) if paragraph else ""
    sentence = re.match(r"(.*?)\.(?: |$)", words)
    if not sentence:
        stop("crates/%s/src: its first file doesn't open with a sentence behind //!" % crate)
    return sentence[1].replace("|", "\\|")


def made():
    """The list, a row for each level."""
    found = {}
    for level, crate in levels():
        found.setdefault(level, []).append("`%s`: %s" % (crate, what_it_is(crate)))
    rows = ["| Level | Crates, and what each is |", "|---|---|"]
    rows += ["| %s | %s |" % (level, "<br>".join(crates)) for level, crates in found.items()]
    return "\n".join(rows) + "\n"


def main():
    page = text(PAGE)
    front, begin, rest = page.partition(BEGIN)
    old, end, behind = rest.partition(END)
    if not begin or not end:
        stop("docs/ARCHITECTURE.md has no two lines that the list stands between")
    new = made()
    if sys.argv[1:] == ["write"]:
        with open(PAGE, "w", encoding="utf-8") as file:
            file.write(front + begin + new + end + behind)
    elif sys.argv[1:]:
        stop("its one word is write")
    elif old != new:
        for part in new.replace("<br>", "\n").splitlines():
            if part not in old.replace("<br>", "\n").splitlines():
                print("crates: docs/ARCHITECTURE.md lacks:", part)
        stop("docs/ARCHITECTURE.md has another list; python3 .ci/crates.py write mends it")
    print("crates: the list is that of %d crates" % len(levels()))


main()
