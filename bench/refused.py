"""Memory that is refused ends a run with status 4, and nothing that had a reply is lost.

The runs of the trials that `nb_trials` stops at each call are made on real files, and of each every allocation is refused in turn (`refused.c`,
loaded before the C library): alone, together with the next one, since a list that finds no room for twice its length asks for less, and with all
behind it. What was said is then a front of what the whole run says, and the files that are left are judged as those of a stop are, by the rows of
the trial: the database opens, every acknowledged write is there, and no half file is taken for a backup. Where the host itself finds no memory
the status is 3; either is said on the standard error. Where less memory serves, the run is the whole one.
"""

import collections
import concurrent.futures
import os
import shutil
import subprocess
import sys
import time

from common import Folder, in_memory, program, report
from trials import Files, runs_of, trials, what_is_wrong

COUNTS = (1, 2, 1 << 30)  # so many allocations are refused, one after another
LIMIT = 300  # seconds for all of it
MEMORY, DEVICE = 4, 3


class Library:
    """The C library that refuses memory, in a run."""

    def __init__(self, path):
        self.path = path

    def start(self, files, run, **settings):
        environment = {**os.environ, "LD_PRELOAD": self.path, **{name: str(value) for name, value in settings.items()}}
        return files.start(run.words, env=environment)

    def allocations(self, files, run):
        """How many there are in the run."""
        told, into = os.pipe()
        os.set_inheritable(into, True)
        files.restore(run.state)
        files.start(run.words, env={**os.environ, "LD_PRELOAD": self.path, "TOLD": str(into)}, pass_fds=(into,))
        os.close(into)
        with open(told, "rb") as number:
            return int(number.read())


def what_happened(run, said, status, error):
    """How the run ended, and None where it is no way in which it may. Behind the line that says so the standard error may say what stands."""
    lines = error.splitlines()
    if not run.is_front(said) or any(not line.startswith("nehumiro: ") for line in lines):
        return None
    if status == MEMORY and lines[:1] and lines[0].startswith("nehumiro: memory ran out"):
        return "memory"
    if status == DEVICE and lines[:1] == ["nehumiro: out of memory"]:
        return "host"
    return "whole" if (said, status) == (run.said, run.status) else None


def try_run(library, trial, files, run, until):
    """Refuses each allocation of a run. It answers how the runs ended, and what was wrong."""
    ended, wrong, judged = collections.Counter(), [], set()
    for number in range(1, library.allocations(files, run) + 1):
        for count in COUNTS:
            if time.monotonic() > until:
                return ended, wrong + [f"{trial.name}: no time was left"]
            files.restore(run.state)
            said, status, error = library.start(files, run, REFUSED=number, COUNT=count)
            how = what_happened(run, said, status, error)
            ended[how] += 1
            if how is None:
                wrong.append(f"{trial.name}: {run.words}, {count} refused from {number} on: status {status}, {error!r}, {said!r}")
                continue
            left = (said, frozenset(files.all()[0].items()))
            if left not in judged:
                judged.add(left)
                ended["left"] += 1
                wrong += [text for text in [what_is_wrong(trial, files, run.replies(said))] if text]
    return ended, wrong


def try_trial(library, path, trial, until):
    ended, wrong = collections.Counter(), []
    with Folder() as folder:
        files = Files(folder, path)
        for run in runs_of(trial, files):
            more, others = try_run(library, trial, files, run, until)
            ended += more
            wrong += others
    return ended, wrong


def main():
    path = program()
    in_memory()
    compiler = shutil.which("cc")
    if not compiler:
        sys.exit("cc is not installed: apt-get install gcc")
    until = time.monotonic() + LIMIT
    ended, wrong = collections.Counter(), []
    with Folder() as folder, concurrent.futures.ThreadPoolExecutor(os.cpu_count()) as pool:
        library = Library(folder.file("refused.so"))
        source = os.path.join(os.path.dirname(os.path.abspath(__file__)), "refused.c")
        subprocess.run([compiler, "-O1", "-shared", "-fPIC", "-o", library.path, source], check=True)
        all_trials = trials()
        for more, others in pool.map(lambda trial: try_trial(library, path, trial, until), all_trials):
            ended += more
            wrong += others
    report(
        "refused",
        not wrong and ended["memory"] > 0,
        f"{sum(ended.values()) - ended['left']} runs of {len(all_trials)} trials with memory refused: {ended['memory']} ended with status 4, {ended['host']} with status 3, "
        f"{ended['whole']} were whole with less memory; {ended['left']} files and replies that they left were judged, {len(wrong)} wrong{''.join(f' | {text}' for text in wrong[:3])}",
    )


if __name__ == "__main__":
    main()
