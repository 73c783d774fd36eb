#!/usr/bin/env python3
"""Shows README's examples: lays its files down at the top, types its lines, and prints what comes.

`show.py PROGRAM` types them at that program. `show.py` alone has `rt try` build an unproved program
first, which is run with checks and then thrown away; its lines are typed one after the other too.
"""
import os
import subprocess
import sys
import tempfile

from examples import README, TOP, blocks_of

PROGRAM = "./vizrun "


def lay_down(blocks):
    """Writes README's files."""
    for block in blocks:
        if block.file:
            with open(os.path.join(TOP, block.file), "w", encoding="utf-8") as file:
                file.write("".join(line + "\n" for line in block.lines))


def tried(lines):
    """What an unproved build puts for each of these lines, or None where it can't be had."""
    with tempfile.TemporaryDirectory() as room:
        for at, line in enumerate(lines):
            case = os.path.join(room, "%03d" % at)
            with open(case, "w", encoding="utf-8"):
                pass
            with open(case + ".args", "w", encoding="utf-8") as file:
                file.writelines(word + "\n" for word in ["--dir", TOP, *line[len(PROGRAM):].split()])
        done = subprocess.run(["rt", "try", "--cases", room], stdin=subprocess.DEVNULL,
                              cwd=os.path.join(TOP, "crates/viz_cli"), stdout=subprocess.PIPE,
                              stderr=subprocess.PIPE, text=True)
    parts = done.stdout.split("== ")[1:]
    if len(parts) != len(lines):
        sys.exit(done.stderr + "The examples couldn't be tried.")
    return [part.partition("\n")[2] for part in parts]


def main():
    program = sys.argv[1] if len(sys.argv) > 1 else None
    blocks = blocks_of(README)
    lay_down(blocks)
    lines = [line for block in blocks for line, _ in block.commands()]
    own = [line for line in lines if line.startswith(PROGRAM)]
    texts = {} if program else dict(zip(own, tried(own)))
    for line in lines:
        print("$ " + line, flush=True)
        if line in texts:
            print(texts[line], end="", flush=True)
        else:
            typed = line.replace(PROGRAM, os.path.abspath(program) + " ", 1) if program else line
            subprocess.run(["bash", "-c", typed], cwd=TOP, stdin=subprocess.DEVNULL)


if __name__ == "__main__":
    main()
