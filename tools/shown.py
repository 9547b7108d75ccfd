#!/usr/bin/env python3
"""Runs the commands that docs/MANUAL.md shows, and compares what they answer: tools/shown.py PROGRAM.

An indented block that begins with `$ ` is a session: each such line is a command (with its here-document), and the lines after it are what it
answers on both outputs. All of them are run in order, in one new folder, with PROGRAM on the PATH as nehumiro, beside examples/. GUIDs, digests,
times and numbers of processes differ from run to run, and progress comes where a run takes long: none of them counts. `--fill` writes the answers into the manual instead.
"""
import os, re, shutil, subprocess, sys, tempfile

TOP = os.path.dirname(os.path.dirname(os.path.abspath(__file__)))
MANUAL = os.path.join(TOP, "docs", "MANUAL.md")
DIFFERS = [(r"[0-9a-f]{8}(-[0-9a-f]{4}){3}-[0-9a-f]{12}", "GUID"), (r"\b[0-9a-f]{64}\b", "DIGEST"), (r"process \d+", "process N"),
           (r"\d{4}-\d\d-\d\d \d\d:\d\d:\d\d UTC", "TIME"), (r"\d{4}-\d\d-\d\d", "DAY"), (r"backup_seconds \d+", "backup_seconds N"), (r"(?m)^nehumiro: \S+: \d+ MiB\n?", "")]


def sessions(lines):
    """The commands of the manual: their indent, where each begins and ends, and where its answer ends."""
    at = 0
    while at < len(lines):
        prompt = re.match(r" {4,}\$ ", lines[at])
        if not prompt:
            at += 1
            continue
        begin, indent = at, prompt[0][:-2]
        end = re.search(r"<<'(\w+)'", lines[at])
        while end and lines[at].strip() != end[1]:
            at += 1
        at += 1
        answered = at
        while answered < len(lines) and lines[answered].startswith(indent) and not lines[answered].startswith(prompt[0]):
            answered += 1
        yield indent, begin, at, answered
        at = answered


def same(text):
    for pattern, word in DIFFERS:
        text = re.sub(pattern, word, text)
    return text.rstrip()


def main():
    fill = "--fill" in sys.argv
    program = os.path.abspath(sys.argv[1])
    lines = open(MANUAL).read().split("\n")
    folder = tempfile.mkdtemp()
    os.mkdir(os.path.join(folder, "bin"))
    os.symlink(program, os.path.join(folder, "bin", "nehumiro"))
    work = os.path.join(folder, "work")
    os.mkdir(work)
    os.symlink(os.path.join(TOP, "examples"), os.path.join(work, "examples"))
    path = os.path.join(folder, "bin") + ":" + os.environ["PATH"]
    filled, last, wrong, count = [], 0, 0, 0
    for indent, begin, end, answered in sessions(lines):
        command = "\n".join(line[len(indent):] for line in lines[begin:end])[2:]
        done = subprocess.run(["sh", "-c", command], cwd=work, env=dict(os.environ, PATH=path), capture_output=True, text=True)
        told = (done.stdout + done.stderr).rstrip("\n")
        shown = "\n".join(line[len(indent):] for line in lines[end:answered])
        count += 1
        if not fill and same(told) != same(shown):
            wrong += 1
            print(f"docs/MANUAL.md:{begin + 1}: $ {command}\nshows\n{shown}\nand it answers\n{told}\n")
        filled += lines[last:end] + [indent + line for line in told.split("\n") if told]
        last = answered
    shutil.rmtree(folder)
    if fill:
        open(MANUAL, "w").write("\n".join(filled + lines[last:]))
    print(f"{count} commands, {wrong} answer otherwise than shown")
    return 1 if wrong else 0


sys.exit(main())
