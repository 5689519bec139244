"""Sums of what the verdict on the edits of a crate stands on, as scripts/wrong needs them."""
import hashlib
import os
import re
import subprocess

from wrong_edits import PARTS, functions_of, text_of

# Raised if scripts/wrong tells refused from not refused by other rules.
RULES = 1
# The proof of one function, which no other crate can cite.
OF_FUNCTION = re.compile(r"(Answers|Invariants|Proof)\.antt")
OF_TESTS = re.compile(r"(^|/)tests(\.rt|/)")


def files_of(crate):
    """Returns the paths of the crate's files, but for its tests, which no edit stands on."""
    found = []
    for part in PARTS:
        for at, _, names in os.walk(f"{crate.folder}/{part}"):
            found += [os.path.relpath(f"{at}/{name}", crate.folder) for name in names]
    return sorted(it for it in found if not (it.startswith("src/") and OF_TESTS.search(it)))


def stated(text):
    """Returns a source file without comments and the bodies of its functions."""
    lines = text.split("\n")
    for it in functions_of(text):
        for at in range(it.first, it.last + 1):
            lines[at] = "{}" if at == it.first else ""
    return "\n".join(it for it in lines if it.strip() and not it.strip().startswith("//"))


def statements_of(crate, known):
    """Returns the sum of what the crates above a library can cite of it."""
    if crate.name not in known:
        found = hashlib.sha256(repr((crate.name, sorted(it.name for it in crate.deps), sorted(crate.of_kit))).encode())
        for it in files_of(crate):
            if not OF_FUNCTION.fullmatch(os.path.basename(it)):
                text = text_of(f"{crate.folder}/{it}")
                found.update(repr((it, stated(text) if it.endswith(".rt") else text)).encode())
        known[crate.name] = found.hexdigest()
    return known[crate.name]


def sum_of_trial(crate, edits, logic, known):
    """Returns the sum of all on which the verdict on these edits of the crate stands."""
    found = hashlib.sha256(repr((RULES, logic, crate.name, crate.is_program, sorted(crate.of_kit))).encode())
    for it in files_of(crate):
        found.update(repr((it, text_of(f"{crate.folder}/{it}"))).encode())
    for it in edits:
        found.update(repr((os.path.basename(it.path), text_of(it.path))).encode())
    found.update(repr([statements_of(it, known) for it in crate.below()]).encode())
    return found.hexdigest()


def is_drawn(crate, root):
    """Returns whether the crate is one of the tenth that this commit has tried anew in any case."""
    ran = subprocess.run(["git", "-C", root, "rev-parse", "HEAD"], capture_output=True, text=True)
    drawn = hashlib.sha256(f"{ran.stdout.strip()} {crate.name}".encode()).hexdigest()
    return int(drawn, 16) % 10 == 0
