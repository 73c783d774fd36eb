#!/usr/bin/env bash
# Shows README's examples by an unproved build, in a minute or two; then proves and builds the
# program, and leaves it here as `vizrun` with the examples' files. What it makes is ignored by git.
set -eu
cd "$(dirname "$0")"

echo "First the examples of README, by a build that isn't proved yet and is thrown away."
python3 .ci/show.py

echo
echo "Now each proof is checked, before the program is built. The first time that takes half an"
echo "hour or more on four processors, later only what has changed is proved again."
python3 .ci/prove.py

echo "Proving and building the program itself, the last of the proofs: some minutes."
log=$PWD/out/viz_cli.log
# Without words the program says its usage, with status 1: that it ran says that it was built.
(cd crates/viz_cli && rt run) >"$log" 2>&1 || true
if ! grep -q '^rt: running ' "$log"; then
    tail -n 40 "$log"
    echo "The program wasn't built. Above is the end of $log."
    exit 1
fi
install -m 755 crates/viz_cli/out/viz_cli vizrun

echo "The same examples by the proved program:"
python3 .ci/show.py ./vizrun
echo "The program is $PWD/vizrun. It reads and writes files of the folder that it is started in."
