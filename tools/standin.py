#!/usr/bin/env python3
"""Stand-ins of crates, in another clone: contracts, definitions and lemmas as they are, and each body a hole that is taken as proved.

    tools/standin.py CLONE CRATE ..             makes stand-ins of these crates
    tools/standin.py --back CLONE CRATE ..      puts their text back
    tools/standin.py --libraries CLONE CRATE .. builds the libraries of these crates and of all below them, two at a time

The library of a stand-in is built in half a minute, so an upper crate can be checked before those below it are proved, and several side by side. git doesn't
see the stand-ins there: a commit has none of them. A hole is a call of a C function that promises whatever is asked, so rt takes such a clone only where
RT_ALLOW_C=1 is set, and its verdict says which holes it rests on. Nothing is proved before the gate has passed on the text itself."""
import os
import re
import shutil
import subprocess
import sys
import threading

import tree

HOLE = "nb_hole"
DECLARED = f"""
/// A hole, in the place of a body.
unsafe extern "C" {{
    safe fn {HOLE}() -> usize
        ensures never {{ ⊥ }};
}}
"""
FUNCTION = re.compile(r"\bfn\s+[A-Za-z_]\w*")
CLAUSE = re.compile(r"(requires\*?|ensures\*?)(\s+[^\s{}]+)?\s*$")
LANES = 2


def past_text(text, at):
    """Where a comment, a string or a character that begins here ends, or the place itself."""
    if text.startswith("//", at):
        return text.find("\n", at) if "\n" in text[at:] else len(text)
    if text[at] == '"':
        end = at + 1
        while text[end] != '"':
            end += 2 if text[end] == "\\" else 1
        return end + 1
    character = re.compile(r"'(\\.[^']*|[^'\\])'").match(text, at)
    return character.end() if character else at


def past_bracket(text, at):
    """Where the bracket that opens here is closed."""
    depth = 0
    while True:
        after = past_text(text, at)
        if after != at:
            at = after
            continue
        depth += (text[at] in "([{") - (text[at] in ")]}")
        at += 1
        if depth == 0:
            return at


def body_of(text, at):
    """The place and the end of the body of a function whose name ends here; none, where a trait only declares it. Clauses come before it."""
    since = at
    while True:
        after = past_text(text, at)
        if after != at:
            at = after
        elif text[at] == ";":
            return None
        elif text[at] in "([":
            at = past_bracket(text, at)
        elif text[at] == "{":
            end = past_bracket(text, at)
            if not CLAUSE.search(re.sub(r"//[^\n]*", "", text[since:at])):
                return at, end
            at = since = end
        else:
            at += 1


def with_holes(text):
    """The text with a hole in the place of each body. A constant function keeps its body: it may be called where nothing else may."""
    parts, at, done = [], 0, 0
    while at < len(text):
        after = past_text(text, at)
        found = FUNCTION.match(text, at) if after == at else None
        if not found:
            at = max(after, at + 1)
            continue
        body = body_of(text, found.end())
        at = found.end() if body is None else body[1]
        if body and "const" not in text[text.rfind("\n", 0, found.start()) + 1 : found.start()].split():
            parts += [text[done : body[0]], f"{{ crate::{HOLE}(); unreachable!() }}"]
            done = body[1]
    return "".join(parts) + text[done:]


def tracked(clone, name):
    listed = subprocess.run(["git", "ls-files", "-z", f"crates/{name}"], cwd=clone, stdout=subprocess.PIPE, check=True)
    return listed.stdout.decode().split("\0")[:-1]


def hide(clone, name, option):
    subprocess.run(["git", "update-index", option, "--", *tracked(clone, name)], cwd=clone, check=True)


def is_standin(clone, name):
    return os.path.isdir(f"{clone}/crates/{name}/c")


def make(clone, name):
    folder = f"{clone}/crates/{name}"
    for file in os.listdir(f"{folder}/src"):
        with open(f"{folder}/src/{file}", encoding="utf-8") as it:
            text = with_holes(it.read())
        with open(f"{folder}/src/{file}", "w", encoding="utf-8") as it:
            it.write(text + DECLARED if file in ("lib.rt", "main.rt") else text)
    # rt looks for the C of a crate that declares a C function, and check runs none of it.
    os.mkdir(f"{folder}/c")
    # The answers of functions go; lemmas stay.
    answers = [it.path for it in os.scandir(f"{folder}/proofs") if it.is_dir()] if os.path.isdir(f"{folder}/proofs") else []
    for path in [*answers, f"{folder}/must-fail", f"{folder}/wrong"]:
        shutil.rmtree(path, ignore_errors=True)
    hide(clone, name, "--skip-worktree")


def put_back(clone, name):
    hide(clone, name, "--no-skip-worktree")
    os.rmdir(f"{clone}/crates/{name}/c")
    subprocess.run(["git", "checkout", "-q", "--", f"crates/{name}"], cwd=clone, check=True)


def uses_of(clone):
    """The crates that each crate uses."""
    with open(f"{clone}/crates.txt", encoding="ascii") as it:
        lines = [line.partition(":") for line in it if line.strip()]
    names = {name.split()[0] for name, _, _ in lines}
    return {name.split()[0]: [use for use in uses.split() if use in names] for name, _, uses in lines}


def build(clone, wanted):
    """Builds the libraries of these crates and of all below, each once those that it uses stand. Answers which failed."""
    uses, needed, turn = uses_of(clone), [], threading.Condition()

    def need(name):
        if name not in needed:
            for use in uses[name]:
                need(use)
            needed.append(name)

    for name in wanted:
        need(name)
    left, built, failed = list(needed), set(), set()

    def lane():
        while True:
            with turn:
                while not (ready := [it for it in left if built.issuperset(uses[it])]):
                    if failed or not left:
                        return turn.notify_all()
                    turn.wait()
                left.remove(ready[0])
            status = subprocess.run(["rt", "lib", "--jobs", "1"], cwd=f"{clone}/crates/{ready[0]}", env={**os.environ, "RT_ALLOW_C": "1"}, check=False)
            with turn:
                (failed if status.returncode else built).add(ready[0])
                turn.notify_all()

    lanes = [threading.Thread(target=lane) for _ in range(LANES)]
    for it in lanes:
        it.start()
    for it in lanes:
        it.join()
    return failed


def main(words):
    option = words.pop(0) if words and words[0].startswith("--") else ""
    if len(words) < 2 or option not in ("", "--back", "--libraries"):
        sys.exit(__doc__)
    clone, names = os.path.realpath(words[0]), words[1:]
    if clone == os.path.realpath(tree.ROOT):
        sys.exit("stand-ins are made in another clone, not in this one")
    unknown = [name for name in names if name not in uses_of(clone)]
    if unknown:
        sys.exit(f"no crate has that name: {' '.join(unknown)}")
    if option == "--libraries":
        return len(build(clone, names))
    for name in names:
        if is_standin(clone, name) == bool(option):
            (put_back if option else make)(clone, name)
    return 0


if __name__ == "__main__":
    sys.exit(main(sys.argv[1:]))
