#!/usr/bin/env bash
# Outside of the gate: refuses each request for memory of the built program in turn, and fails each
# open, read and write in turn, over the commands of refused_memory.py. The program is
# crates/viz_cli/out/viz_cli, or the one that is named. It wants gcc and Python 3.
set -eu
cd "$(dirname "$0")/.."
mkdir -p out/checks
gcc -O1 -Wall -shared -fPIC -o out/checks/refuse.so checks/refuse.c -ldl
exec python3 checks/refused_memory.py "$@"
