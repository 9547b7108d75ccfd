#!/bin/sh
# Runs the script of README's first session with no proof, in a folder that `rt try` makes and removes, and leaves nothing.
set -u
cd "$(dirname "$0")/../crates/nb_cli" || exit 1
command -v rt >/dev/null || { echo "rt, the command of the Rattle kit, is not on the PATH"; exit 1; }
said=$(mktemp) && trap 'rm -f "$said"' EXIT || exit 1
echo "examples/first is run, and nothing is proved: that takes some two minutes"
rt try --steps 1 --data first=../../examples/first -- run first 2>"$said"
status=$?
[ $status -eq 0 ] || cat "$said"
echo "Nothing was proved, and nothing is kept. 'make' proves the program and leaves it at bin/nehumiro."
exit $status
