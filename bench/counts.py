"""How much the trials of `nb_trials` judge: so many calls that are stopped, calls that fail, and files that these leave.

    python3 bench/counts.py PROGRAM     # PROGRAM is `nb_trials`, as the gate leaves it in crates/nb_trials/out

The program says itself how many calls each run of a trial makes; what is stopped of them, and how often, stands in the text.
"""

import collections
import re
import subprocess

from common import program
from trials import all_trials

MARK = "length no.file"  # before the steps that are counted


def lines_of(trial):
    """The trial, where it is told how many calls each run makes of those that are stopped, and nothing is judged."""
    lines = [f"== {trial.name}"]
    for step, below in trial.before:
        lines += [step, *below]
    lines += [" ".join(["begin", *trial.kept]), MARK]
    for step, below in trial.steps:
        lines += [step, *below] + ["calls"] * (step.split(" ")[0] in ("run", "words"))
    return lines


def count(trial, calls):
    """The stops or failures that are judged, and the files that they leave."""
    counts = collections.Counter()
    for kind, picks, *where in map(str.split, trial.verdicts):
        if kind == "ends":
            continue
        number = int(where[1]) if where[:1] == ["to"] else 1 if where else calls + (kind == "stops")
        counts[kind] += number
        # Where a call fails alone, what then stands is judged too.
        counts[f"left by {kind}"] += number * (int(picks) + (kind == "fails"))
    return counts


def main():
    path = program()
    text = all_trials()
    judged = [trial for trial in text if trial.verdicts]
    asked = "".join(f"{line}\n" for trial in judged for line in lines_of(trial))
    said = subprocess.run([path], input=asked.encode("utf-8"), stdout=subprocess.PIPE, check=True).stdout.decode("utf-8")
    counts = collections.Counter()
    for trial, told in zip(judged, said.split("== ")[1:], strict=True):
        counts += count(trial, sum(map(int, re.findall(r"^([0-9]+) calls$", told.split("no.file: none")[1], re.MULTILINE))))
    print(
        f"{len(judged)} of {len(text)} trials are stopped: {counts['stops']} calls, which leave {counts['left by stops']} files that are judged; "
        f"{counts['fails']} calls that fail, which leave {counts['left by fails']}"
    )


if __name__ == "__main__":
    main()
