#!/usr/bin/env python3
"""Tries the wrong bodies that stand in crates/NAME/wrong/*.edit: the prover must refuse each of them.

    tools/wrong.py            of every crate
    tools/wrong.py NAME ..    of these crates

`rt ci` tries them, in a copy of these crates and of those below in which wrong/ stands in the place of must-fail/. What it says is
shown as it says it; at the end stands for each crate how many were refused, with those that weren't, couldn't be tried, or were refused for
a lost name alone. The status is the number of those that weren't refused, 255 at the most."""
import os
import re
import shutil
import subprocess
import sys

import tree

# What rt says of an edit that was tried.
VERDICT = re.compile(r"rt: must-fail (\w+)/(\S+\.edit): (.*)")


def edits_of(name):
    folder = f"{tree.ROOT}/crates/{name}/wrong"
    return sorted(os.listdir(folder)) if os.path.isdir(folder) else []


def tried(names):
    """What was said of the edits of these crates, by crate and edit."""
    said = {}
    with tree.copy_of(names) as top:
        for name in names:
            shutil.copytree(f"{tree.ROOT}/crates/{name}/wrong", f"{top}/crates/{name}/must-fail")
        with subprocess.Popen(["rt", "ci"], cwd=top, stdout=subprocess.PIPE, text=True, errors="replace") as running:
            for line in running.stdout:
                print(line, end="", flush=True)
                found = VERDICT.match(line)
                if found:
                    said[found[1], found[2]] = found[3]
    return said


def show(name, said):
    """Shows how many edits of a crate were refused, and which weren't, or for a lost name alone. Answers how many weren't."""
    verdicts = {edit: said.get((name, edit), "not tried") for edit in edits_of(name)}
    refused = [edit for edit, why in verdicts.items() if why.startswith("refused")]
    print(f"{name}: {len(refused)} of {len(verdicts)} refused")
    for edit, why in verdicts.items():
        if edit not in refused or "(only " in why:
            print(f"  {edit}: {why}")
    return len(verdicts) - len(refused)


def main(names):
    tree.want_kit()
    every = [it for it in sorted(os.listdir(f"{tree.ROOT}/crates")) if edits_of(it)]
    unknown = [it for it in names if it not in every]
    if unknown:
        sys.exit(f"no crate of that name has a folder wrong/: {' '.join(unknown)}")
    names = names or every
    said = tried(names)
    left = sum(show(it, said) for it in names)
    print(f"{left} not refused")
    return min(left, 255)


if __name__ == "__main__":
    sys.exit(main(sys.argv[1:]))
