#!/bin/bash
# Runs every measurement of the program that is named, or of bin/nehumiro: first those that judge what it says and leaves, or count its calls, which other
# work on the machine doesn't change; then those that judge times; and last the tables of speed, which judge nothing. Fails where one does.
set -u
here=$(cd "$(dirname "$0")" && pwd)
program=${1:-$here/../bin/nehumiro}
trials=$here/../crates/nb_trials/out/nb_trials
[ -x "$program" ] || { echo "$program is no program: make leaves one at bin/nehumiro"; exit 1; }
status=0
measure() { python3 -B "$here/$1.py" "${@:2}" || status=1; }

measure told
for it in rows acknowledged backup reads waiting faults short full chains nightly weeks standby scripts killed stops refused long damaged; do measure "$it" "$program"; done
if [ -x "$trials" ]; then measure counts "$trials"; else echo "counts.py is left out: the gate leaves its program at ${trials#"$here/../"}"; fi
echo "From here on times are judged or shown: the machine should have nothing else to do"
for it in start turns writes; do measure "$it" "$program"; done
if command -v rt >/dev/null; then measure cache; else echo "cache.py is left out: it needs the Rattle kit"; fi
for it in speed check inplace ship fold; do measure "$it" "$program"; done
exit $status
