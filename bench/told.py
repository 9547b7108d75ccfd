"""The reader beside the trials of `nb_trials`: what it tells of each that has one session and statements alone, and `stdout` of the same trial.

    python3 bench/told.py
"""

import hashlib
import os
import re
import sys

import trials
from common import report
from reader import DEEDS, Gifts, lines_of, said_by

STDOUT = os.path.join(os.path.dirname(trials.TEXT), "stdout")
FIRST = re.compile(r"create database '[^']*' page_size \d+ raw \d+|open '[^']*'")


class Unread(Exception):
    """The trial has something that the reader doesn't do."""


class Counted(Gifts):
    """GUIDs and times as a host in memory draws them."""

    def guid(self):
        self.given.append(None)
        return bytes(8) + len(self.given).to_bytes(8, "big")

    def seconds(self, place):
        self.places.append(place)
        return 999_999_999 + len(self.places)


class Memory(trials.Files):
    """The files of a trial in memory, where the reader does what a run is asked for."""

    def __init__(self):
        self.files, self.gifts, self.digest, self.guids = {}, Counted(), None, []

    def names(self):
        return list(self.files)

    def read(self, name):
        return self.files.get(name)

    def write(self, name, data):
        self.files[name] = data

    def keep(self, names):
        """A new host with these files alone."""
        self.files, self.gifts = {name: self.files[name] for name in names}, Counted()

    def play(self, steps):
        return "".join(self.step(*step) for step in steps)

    def step(self, line, below):
        verb, *rest = line.split(" ")
        if verb == "run":
            self.write("s", trials.text_below(below))
            return self.run(["run", "s"])
        if verb == "words":
            return self.run(rest)
        if verb == "keep":
            self.keep(rest)
            return ""
        if verb == "digest":
            return f"{rest[0]}: {trials.either(self.digest == hashlib.sha256(self.read(rest[0])).hexdigest(), 'what was said last')}\n"
        if verb in ("runs", "calls", "reads", "line", "broken"):
            raise Unread(verb)
        return self.do(line, below)

    def run(self, words):
        self.is_read(words)
        said, status, files = said_by(self.files, words, self.gifts)
        self.files = {name: bytes(data) for name, data in files.items()}
        self.digest = (re.findall("sha256 ([0-9a-f]{64})", said) or [self.digest])[-1]
        return f"{said}status {status}\n"

    def is_read(self, words):
        """Whether the reader does all that the words ask for, one statement after the other."""
        if words[:1] not in (["run"], ["stat"], ["check"], ["reclaim"], ["activate"], ["-L"], ["-N"], ["-B"]) or words[0] == "run" and words[1:] != ["s"]:
            raise Unread(words)
        try:
            lines = lines_of(self.files, words)
        except (IndexError, KeyError, ValueError) as error:
            raise Unread(words) from error
        is_done = lines and all(len(line) == 2 for line in lines) and FIRST.fullmatch(lines[0][1]) and len({line[0] for line in lines}) == 1
        if not is_done or not all(statement.startswith(tuple(DEEDS)) and statement != "show cache" for _, statement in lines[1:]):
            raise Unread(lines)


def wanted():
    """What each trial has to tell, by its name."""
    with open(STDOUT, encoding="latin-1") as text:
        return dict(part.split("\n", 1) for part in text.read().split("== ")[1:])


def main():
    told_by, same, lines, wrong = wanted(), 0, 0, []
    for trial in trials.all_trials():
        if trial.rows or trial.steps:
            continue
        try:
            told = Memory().play(trial.before)
        except Unread:
            continue
        if told == told_by[trial.name]:
            same, lines = same + 1, lines + told.count("\n")
        else:
            wrong.append(trial.name)
    report("told", not wrong and same >= 40, f"the reader tells {lines} lines of {same} trials as they have to be told; {len(wrong)} others {wrong}")


if __name__ == "__main__":
    sys.exit(main())
