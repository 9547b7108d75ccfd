#!/usr/bin/env python3
"""Counts the words that the glossary of CONTRIBUTING replaces, and the names that have two definitions or more.

    tools/words.py            both counts
    tools/words.py WORD       the lines that have that word
    tools/words.py -n         each name with two definitions or more, and where they stand

Words are counted in code, definitions, proofs and documents, also as a part of an identifier: `acked_front` is one of 'front'. The quoted names of the table that
tells old words from new aren't counted. Names are those of definitions in crates/NAME/specs.
"""
import collections
import glob
import os
import re
import sys

import tree

# Each word with the forms that it has; a part of an identifier ends at an underscore, a digit, a dash or a capital letter.
WORDS = {
    "front": "fronts?|Fronts?",
    "behind": "behind|Behind",
    "stroke": "strokes?|Strokes?",
    "account": "accounts?|Accounts?",
    "trail": "trails?|Trails?",
    "settled point": "settled?|settles|Settled?|Settles",
    "for good": "for good",
    "deed": "deeds?|Deeds?",
    "ask": "asks?|Asks?",
    "foretells": "foretells?|Foretells?",
    "gave": "gave|Gave",
    "come by": "c[oa]mes? by",
    "wants memory": "wants? memory|want of memory|Want of memory",
    "hidden": "hidden",
    "firm": "Firm|firm",
    "neat": "neat|Neat",
    "well": "(?<=Is)Well|well(?=_)|(?<=_)well",
    "sound": "sound|Sound",
}
DEFINITION = re.compile(r"^(?:abbrev |unfoldable |pub |record )*(?:pub )(?:record |abbrev |unfoldable )*([A-Za-z_][\w-]*)\s*(?::|\{|\()", re.MULTILINE)
TABLE_HEAD = "## Glossary"


def pattern_of(word):
    """Where a word stands by itself, or as a part of an identifier."""
    return re.compile(rf"(?:(?<![A-Za-z])|(?<=[a-z])(?=[A-Z]))(?:{WORDS[word]})(?![a-z])")


def texts():
    """Each text, by its path."""
    paths = [p for kind in ("src/*.rt", "specs/**/*.antt", "proofs/**/*.antt") for p in glob.glob(f"{tree.ROOT}/crates/*/{kind}", recursive=True)]
    paths += glob.glob(f"{tree.ROOT}/docs/*.md") + [f"{tree.ROOT}/{it}" for it in ("README.md", "CONTRIBUTING.md", "CHANGELOG.md")]
    for path in sorted(paths):
        with open(path, encoding="utf-8") as text:
            yield os.path.relpath(path, tree.ROOT), text.read().partition(TABLE_HEAD)[0]


def definitions():
    """The places where each name of a definition is defined."""
    found = collections.defaultdict(list)
    for path, text in texts():
        if "/specs/" in path:
            for name in sorted(set(DEFINITION.findall(text))):
                found[name].append(path)
    return {name: places for name, places in found.items() if len(places) > 1}


def show_words():
    kinds = ("src", "specs", "proofs", "documents")
    print("| Word | " + " | ".join(kinds) + " |\n|---|" + "---|" * len(kinds))
    for word in WORDS:
        counts = collections.Counter()
        for path, text in texts():
            kind = path.split("/")[2] if path.startswith("crates/") else "documents"
            counts[kind] += len(pattern_of(word).findall(text))
        print(f"| {word} | " + " | ".join(f"{counts[kind]:,}" for kind in kinds) + " |")


def main(words):
    if words and words[0] in WORDS and len(words) == 1:
        for path, text in texts():
            for number, line in enumerate(text.split("\n"), 1):
                if pattern_of(words[0]).search(line):
                    print(f"{path}:{number}: {line.strip()}")
    elif words == ["-n"]:
        for name, places in sorted(definitions().items(), key=lambda it: (-len(it[1]), it[0])):
            print(f"{name}: {' '.join(places)}")
    elif not words:
        show_words()
        twice = definitions()
        print(f"\n{len(twice)} names have two definitions or more, {sum(map(len, twice.values()))} in all")
    else:
        sys.exit(f"{__doc__}\nWORD is one of: {', '.join(WORDS)}")


if __name__ == "__main__":
    main(sys.argv[1:])
