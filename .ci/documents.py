#!/usr/bin/env python3
"""Compares the documents with the code: paths, labels of clauses, definitions, examples."""
import glob
import os
import re
import subprocess
import sys

TOP = os.path.dirname(os.path.dirname(os.path.abspath(__file__)))
PROVED = ["docs/PROVED%s.md" % it for it in ("", "-OF-UPDATES", "-OF-DATA", "-OF-FILTERS")]
PAGES = sorted(os.path.relpath(it, TOP) for where in ("*.md", "bench/*.md", "docs/*.md")
               for it in glob.glob(os.path.join(TOP, where)))
# The pages whose blocks `.ci/examples.py` types.
TYPED = ["README.md", "docs/USING.md", "docs/USING-SCRIPTS.md", "docs/USING-FILES.md",
         "docs/CONSOLE.md"]
# A page is no longer than this many lines.
MOST_LINES = 400
SUFFIXES = (".md", ".rt", ".antt", ".txt", ".py", ".vtk", ".edit", ".sh")
errors = []


def text(path):
    with open(os.path.join(TOP, path), encoding="utf-8") as f:
        return f.read()


def crates():
    lines = (line.split("#")[0] for line in text("crates.txt").splitlines())
    return {re.split(r"[ :]", line.strip())[0] for line in lines if line.strip()}


def root_of(crate):
    """The name of a crate's root file: a crate of tests alone has no public item there."""
    here = os.path.join(TOP, "crates", crate, "src", "main.rt")
    return "main" if os.path.exists(here) else "lib"


def resolve(token):
    """A path from the top, or from the folder of crates."""
    for base in ("", "crates"):
        if os.path.exists(os.path.join(TOP, base, token)):
            return os.path.join(base, token)
    return None


def in_ticks(body):
    """What stands in code ticks, outside whole blocks of text."""
    return re.findall(r"`([^`\n]+)`", re.sub(r"```.*?```", "", body, flags=re.S))


def exported(crate):
    """The names that a library hands out."""
    path = "crates/%s/src/lib.rt" % crate
    page = text(path) if resolve(path) else ""
    names = re.findall(r"^pub (?:const )?(?:fn|struct|enum|trait) (\w+)", page, re.M)
    for several, one in re.findall(r"^pub use (?:\w+::)+(?:\{([^}]*)\}|(\w+));", page, re.M):
        names += re.findall(r"\w+", several or one)
    return set(names)


def owner_of(line):
    """The type or the trait whose calls follow, where a line opens an impl or a trait."""
    while "<" in line:
        line, count = re.subn(r"<[^<>]*>", "", line)
        if not count:
            break
    head = re.match(r"(?:pub )?(impl|trait) (?:\w+ (for) )?(\w+)", line)
    return (head[3], head[1] == "trait" or head[2] == "for") if head else None


def clauses(path):
    """Each function of a file: its name, with its type's in front, whether it is public, and the
    labels of its premises and of its promises."""
    found, owner, labels = [], None, {}
    for line in text(path).splitlines():
        if line and not line[0].isspace():
            owner = owner_of(line) or (None if line[0] == "}" else owner)
        head = re.match(r"\s*(pub )?(?:pub\([^)]*\) )?(?:const )?fn (\w+)", line)
        if head:
            name = "::".join([owner[0], head[2]] if owner else [head[2]])
            labels = {"requires": set(), "ensures": set()}
            found.append((name, bool(head[1] or owner and owner[1]), labels))
        clause = re.match(r"\s*(requires|ensures) (\w+) \{", line)
        if clause and found:
            labels[clause[1]].add(clause[2])
    return found


class Clauses:
    """The labels of all functions by their last name, and what each library's calls promise."""

    def __init__(self):
        self.of_any, self.of = {}, {}
        for crate in crates():
            self.of[crate], names = {}, exported(crate)
            paths = glob.glob(os.path.join(TOP, "crates", crate, "src/**/*.rt"), recursive=True)
            for name, is_public, labels in (it for path in paths for it in clauses(path)):
                self.of_any.setdefault(name.split("::")[-1], set()).update(*labels.values())
                if is_public and name.split("::")[0] in names:
                    self.of[crate].setdefault(name, set()).update(labels["ensures"])

    def has(self, left, label):
        """Whether the call has the label; a call without its crate may be any of that name."""
        crate, _, call = left.partition("::")
        if crate in self.of:
            return label in self.of[crate].get(call, ())
        return label in self.of_any.get(left.split("::")[-1], ())


def check_names(page, known):
    for token in in_ticks(text(page)):
        if "·" in token:
            left, word = (part.strip() for part in token.split("·"))
            if left.endswith(".antt"):
                path = resolve(left)
                kinds = r"^ *(?:abbrev pub|unfoldable pub|pub record|pub data|pub) %s\b"
                if not path or not re.search(kinds % re.escape(word), text(path), re.M):
                    errors.append("%s: no definition `%s`" % (page, token))
            elif not known.has(left, word):
                errors.append("%s: no clause `%s`" % (page, token))
        elif token.endswith(SUFFIXES) and "/" in token and " " not in token:
            if not resolve(token):
                errors.append("%s: no file `%s`" % (page, token))
    body = re.sub(r"```.*?```", "", text(page), flags=re.S)
    for link in re.findall(r"\]\(([^)#]+)(?:#[^)]*)?\)", body):
        if not os.path.exists(os.path.join(TOP, os.path.dirname(page), link)):
            errors.append("%s: no page %s" % (page, link))


def check_length(page):
    """No page is too long."""
    if len(text(page).splitlines()) > MOST_LINES:
        errors.append("%s: it has more than %d lines" % (page, MOST_LINES))


def headings(page):
    """The headings of a page, each with the name that links have for it."""
    body = re.sub(r"```.*?```", "", text(page), flags=re.S)
    return {title: re.sub(r"[^\w\- ]", "", title.lower()).replace(" ", "-")
            for title in re.findall(r"^#+ (.+)$", body, re.M)}


def check_anchors(page):
    """Each link into a page goes to a heading there."""
    body = re.sub(r"```.*?```", "", text(page), flags=re.S)
    for link, anchor in re.findall(r"\]\(([\w./-]*\.md)?#([^)]+)\)", body):
        there = os.path.normpath(os.path.join(os.path.dirname(page), link)) if link else page
        if resolve(there) and anchor not in headings(there).values():
            errors.append("%s: no heading %s#%s" % (page, link, anchor))


def check_cited():
    """Each heading that the code names is on its page."""
    for end in ("rt", "antt"):
        for path in glob.glob(os.path.join(TOP, "crates/*/s*/**/*." + end), recursive=True):
            body = re.sub(r"\n *(?://[!/]?|--) ?", " ", text(path))
            for page, titles in re.findall(r'(docs/[\w-]+\.md)((?:,? (?:and )?"[^"\n]+")+)', body):
                for title in re.findall(r'"([^"]+?),?"', titles):
                    if not resolve(page) or title not in headings(page):
                        errors.append("%s: no heading %s, %s"
                                      % (os.path.relpath(path, TOP), page, title))


def check_part(page, crate, body, known):
    """In a crate's part stand calls of that crate alone, each with the label of a promise."""
    calls, claims = known.of[crate], 0
    for token in in_ticks(body):
        left, dot, _ = (part.strip() for part in token.partition("·"))
        first, _, call = left.partition("::")
        if left.endswith(".antt"):
            continue
        if dot and first != crate:
            errors.append("%s, %s: `%s` names no call of this crate" % (page, crate, token))
        elif not dot and (left in calls or first in known.of and call):
            errors.append("%s, %s: `%s` has no label" % (page, crate, token))
        claims += bool(dot)
    if not claims and any(calls.values()):
        errors.append("%s, %s: no clause is named" % (page, crate))


def check_proved(known):
    """The pages of what is proved have one part for each crate but those of tests alone, and nothing
    is claimed without a clause."""
    here = []
    for page in PROVED:
        parts = re.split(r"^## (.*)$", text(page), flags=re.M)
        names = [name.strip("` ") for name in parts[1::2]]
        here += names
        for crate, body in zip(names, parts[2::2]):
            if crate in known.of:
                check_part(page, crate, body, known)
    said = {it for it in crates() if "\npub " in text("crates/%s/src/%s.rt" % (it, root_of(it)))}
    said |= {it for it in crates() if root_of(it) == "main"}
    if sorted(here) != sorted(said):
        wrong = sorted(it for it in set(here) | said if here.count(it) != (it in said))
        errors.append("%s: their parts aren't the crates of crates.txt: %s"
                      % (" and ".join(PROVED), wrong))


def shown(wanted, which):
    """Says which of these texts no block of README or USING has: a whole block, or a command with
    what it puts. `.ci/examples.py` types them; here they are rows that others have counted."""
    blocks = re.findall(r"```text\n(.*?)```", "".join(text(it) for it in TYPED), re.S)
    for block in wanted:
        if not any(block == it or block.startswith("$ ") and block in it for it in blocks):
            errors.append("%s: %s isn't there:\n%s" % (", ".join(TYPED), which, block))


def typed(words, answer):
    """A command as the pages show it, and what it puts."""
    return "$ ./vizrun %s\n%s" % (words, answer)


def check_example():
    words = " ".join(text("crates/viz_cli/args").split())
    shown([text("crates/viz_cli/data/b.vtk"), typed(words, text("crates/viz_cli/stdout"))],
          "the program's stored run")


def constant(page, name):
    """The text of a string constant."""
    found = re.search(r'^(?:pub )?const %s: &str =\s*"((?:[^"\\]|\\.)*)";' % name, page, re.M)
    if not found:
        errors.append("no constant %s" % name)
        return ""
    return found.group(1).replace("\\n", "\n")


def check_contour():
    """The contour of one command: the first row of the tests of contours."""
    page = text("crates/viz_once_tests/src/contour_texts.rt")
    front, values, level, report, surface = (
        constant(page, name) for name in
        ("CUBE", "FIRST_VALUES", "FIRST_LEVEL", "FIRST_REPORT", "FIRST_SURFACE"))
    if text("crates/viz_cli/data/c.vtk") != front + values:
        errors.append("crates/viz_cli/data/c.vtk isn't the file of the first contour's test")
    head = "$ head -n 7 corner.vtk\n" + "".join(it + "\n" for it in surface.splitlines()[:7])
    made = typed("once c.vtk corner.vtk contour " + level, report)
    shown([front + values, made + head], "the contour of the test")


def check_scripts():
    """The script of two levels and that of two actors, worked rows whose file has another name."""
    row, other = ".ci/rows/levels-by-a-batch/", ".ci/rows/two-actors-share-a-network/"
    levels, two = (text(it + "s.script").replace("a.vtk", "c.vtk") for it in (row, other))
    lines = text(row + "want/stdout").splitlines(keepends=True)
    shown([levels, typed("run levels.script levels.journal", "".join(lines[:-1])),
           typed("scratch levels.journal 3 iso again.vtk", lines[-1]),
           two, typed("run two.script two.journal", text(other + "want/stdout"))],
          "the script of a row")


def check_kit():
    """Says where README's kit isn't the one that is here. Kits change, so that fails nothing."""
    said = re.search(r"[Pp]roved with `([^`]+)`", text("README.md"))
    if not said:
        errors.append("README.md: no line of the kit that it is proved with")
        return
    try:
        here = subprocess.run(["rt", "version"], stdout=subprocess.PIPE, text=True).stdout.strip()
    except OSError:
        here = "no rt"
    if here != said[1]:
        print("documents: notice: README.md says %s, and here is %s" % (said[1], here))


known = Clauses()
for page in PAGES:
    check_names(page, known)
    check_anchors(page)
    check_length(page)
check_cited()
check_proved(known)
check_example()
check_contour()
check_scripts()
check_kit()
for error in errors:
    print("documents:", error)
if errors:
    sys.exit(1)
print("documents: %d pages agree with the code" % len(PAGES))
