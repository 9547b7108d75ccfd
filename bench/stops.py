"""A program that is killed at any call of a file, or of which any one fails, has lost nothing of what it acknowledged.

The runs of the trials that `nb_trials` stops at each call of a host in memory are made on real files under strace. Each call that the program
makes of a file in turn is not made: the program is killed there; or the call fails with EIO, which ends the run with status 3 and a line on the
standard error; an opening fails with EMFILE too, and what takes room on the disk with ENOSPC. What was said is a front of what the whole run says,
and the files that are left are judged by the rows of the trial: the database opens, every acknowledged write is there, and no half file is taken
for a backup. Where a backup was under way, `-N` ends it. A kill leaves what the system holds in its memory, so no disk is needed.
"""

import collections
import concurrent.futures
import os
import re
import shutil
import sys
import time

from common import Folder, in_memory, program, report
from trials import Files, runs_of, trials, what_is_wrong

LIMIT = 300  # seconds for all of it
DEVICE = 3
CALLS = "statx openat flock read pread64 pwrite64 write fdatasync fsync ftruncate unlink unlinkat fchmod close".split()
LOOKS = {"statx", "openat", "flock", "read", "pread64"}
TAKES_ROOM = {"pwrite64", "write", "fdatasync", "fsync", "ftruncate"}
KILL, FIRST = "KILL", "statx(AT_FDCWD,"  # the loader makes no call of this kind, and the program begins with one
STATE, IN_A_BACKUP = 22, (1, 2)


class Call:
    """A call of a file: its name, its text, its number among those of that name, and whether it is made before the run or behind its last reply."""

    def __init__(self, name, text, number, is_outside):
        self.name, self.text, self.number = name, text, number
        # Whether it only looks at something, or says something on the standard error. Writes that waited come behind the last reply too.
        self.is_beside = is_outside and (name in LOOKS or text.startswith("write(2,"))

    def failures(self):
        """What is tried where it is made."""
        if self.name == "close":
            return [KILL]
        takes_room = self.name in TAKES_ROOM or "O_CREAT" in self.text
        return [KILL, "EIO"] + ["EMFILE"] * (self.name == "openat") + ["ENOSPC"] * takes_room


def calls_of(files, run):
    """The calls that a run makes of files. The program's own begin with the first of a kind that the system's loader doesn't make; what it looks at
    before the run isn't locked, and behind the run it says no reply."""
    files.restore(run.state)
    with Folder() as other:
        files.start(run.words, wrap=["strace", "-f", "-qq", "-o", other.file("log"), "-e", f"trace={','.join(CALLS)}"])
        with open(other.file("log"), encoding="ascii", errors="replace") as log:
            lines = [line.split(None, 1)[1] for line in log]
    first = next(at for at, line in enumerate(lines) if line.startswith(FIRST))
    locked = next((at for at, line in enumerate(lines) if line.startswith("flock(")), 0)
    replied = max((at for at, line in enumerate(lines) if line.startswith("write(1,")), default=len(lines))
    numbers, calls = collections.Counter(), []
    for at, line in enumerate(lines):
        name = re.match(r"\w+", line)[0]
        numbers[name] += 1
        if at >= first:
            calls.append(Call(name, line, numbers[name], at < locked or at > replied))
    return calls


def run_with(files, run, call, failure):
    """The run, in which that call isn't made."""
    error = "error=EIO:signal=KILL" if failure == KILL else f"error={failure}"
    files.restore(run.state)
    inject = f"inject={call.name}:{error}:when={call.number}"
    return files.start(run.words, wrap=["strace", "-f", "-qq", "-o", "/dev/null", "-e", f"trace={call.name}", "-e", inject])


def ends_so(run, said, status, error, failure, is_beside):
    """Whether a run that was kept from a call ended as it may. What is looked at before the run and behind it, to tell more on the standard error,
    may fail, and the run is the whole one."""
    if failure == KILL:
        return status == -9 and run.is_front(said)
    lines = error.splitlines()
    is_said = bool(lines) and all(line.startswith("nehumiro: ") for line in lines)
    return run.is_front(said) and status == DEVICE and is_said or is_beside and (said, status) == (run.said, run.status)


def databases_in_a_backup(files):
    """The databases of which a backup is under way."""
    names = [name.removesuffix(".delta") for name in files.names() if name.endswith(".delta")]
    return [name for name in names if (files.read(name) or b"").ljust(64, b"\0")[STATE] in IN_A_BACKUP]


def is_ended(files, name):
    said, status, _ = files.start(["-N", name])
    return status == 0 and said.startswith("1: ok scn ") and files.read(name)[STATE] == 0 and files.read(f"{name}.delta") is None


def try_run(trial, files, run, until):
    """Keeps a run from each of its calls. It answers what was tried, and what was wrong."""
    tried, wrong, judged = collections.Counter(), [], set()
    for call in calls_of(files, run):
        for failure in call.failures():
            if time.monotonic() > until:
                return tried, wrong + [f"{trial.name}: no time was left"]
            said, status, error = run_with(files, run, call, failure)
            tried[failure] += 1
            if not ends_so(run, said, status, error, failure, call.is_beside):
                wrong.append(f"{trial.name}: {run.words}, {failure} at {call.name} {call.number}: status {status}, {error!r}, {said!r}")
            left = files.all()
            key = (said, frozenset(left[0].items()))
            if key in judged:
                continue
            judged.add(key)
            tried["left"] += 1
            for name in databases_in_a_backup(files):
                tried["ended"] += 1
                if not is_ended(files, name):
                    wrong.append(f"{trial.name}: -N doesn't end {name}, {failure} at {call.name} {call.number}")
                files.restore(left)
            wrong += [text for text in [what_is_wrong(trial, files, run.replies(said))] if text]
    return tried, wrong


def try_trial(path, trial, until):
    tried, wrong = collections.Counter(), []
    with Folder() as folder:
        files = Files(folder, path)
        for run in runs_of(trial, files):
            more, others = try_run(trial, files, run, until)
            tried += more
            wrong += others
    return tried, wrong


def main():
    path = program()
    if not shutil.which("strace"):
        sys.exit("strace is not installed: apt-get install strace")
    in_memory()
    until = time.monotonic() + LIMIT
    tried, wrong = collections.Counter(), []
    all_trials = trials()
    with concurrent.futures.ThreadPoolExecutor(os.cpu_count()) as pool:
        for more, others in pool.map(lambda trial: try_trial(path, trial, until), all_trials):
            tried += more
            wrong += others
    report(
        "stops",
        not wrong and tried[KILL] > 0,
        f"{tried[KILL]} kills, and {tried['EIO']} calls that failed with EIO, {tried['ENOSPC']} with ENOSPC and {tried['EMFILE']} with EMFILE, in {len(all_trials)} trials; "
        f"{tried['left']} files and replies that they left were judged and {tried['ended']} backups that were under way ended, {len(wrong)} wrong"
        f"{''.join(f' | {text}' for text in wrong[:3])}",
    )


if __name__ == "__main__":
    main()
