#!/usr/bin/env python3
"""Tests which errors tools/wrong_bodies.py counts as the rejection that a comment `# rejected:` names.

A stand-in for `rt` prints lines as the prover does (CONTRIBUTING.md). The last line is `N passed, M failed`; the status
is 0 if M is 0.
"""
import os
import subprocess
import sys
import tempfile

TOOL = os.path.join(os.path.dirname(os.path.dirname(os.path.abspath(__file__))), "tools", "wrong_bodies.py")
SOURCE = "fn one() -> u8 {\n    1\n}\n\n#[inline]\nfn two() -> u8 {\n    2\n}\n"
PROOF = "lemma : ℕ\nlemma = 0\n\npub returns-clause-some : goal.returns-clause-some\nreturns-clause-some c = refl\n"
NOT_PROVED = "note: src/a.rt:{}:1: it is not proved that what the function ensures holds when it returns (`{}`); .."
PROOF_ERROR = "proofs/a/two/Answers.antt:{}:1: error: {}"
# The proof of a method is with those of its type, and not with those of the file.
METHOD_ERROR = "proofs/b/{}/two/Answers.antt:5:1: error: these differ"
TYPE_ERROR = "src/a.rt:7:5: error[mismatched-types]: this is a `bool`"

# What the comment says after the name, a line of the prover, whether it is the rejection.
CASES = [
    ("its only clause", NOT_PROVED.format(5, "returns"), True),
    ("its only clause", NOT_PROVED.format(5, "returns-in-HalfEven"), True),
    ("its only clause", NOT_PROVED.format(1, "returns"), False),
    ("its only clause", NOT_PROVED.format(5, "loop-i-preserved"), False),
    ("its only clause", NOT_PROVED.format(5, "overflow_add-sum"), False),
    ("its only clause", NOT_PROVED.format(5, "callee-requires"), False),
    ("some", NOT_PROVED.format(5, "returns-in-Ok-clause-some"), True),
    ("some", NOT_PROVED.format(5, "returns-in-Ok-clause-some_more"), False),
    ("some", NOT_PROVED.format(5, "returns-in-Ok-clause-none"), False),
    ("some", NOT_PROVED.format(5, "callee-requires-clause-some"), False),
    ("some", NOT_PROVED.format(5, "returns-in-Ok-clause-none`, `returns-clause-some"), True),
    ("some, in a hand proof", PROOF_ERROR.format(5, "these differ"), True),
    ("some, in a hand proof", PROOF_ERROR.format(2, "these differ"), True),
    ("some", PROOF_ERROR.format(2, "these differ"), False),
    ("some", PROOF_ERROR.format(5, "`c.in-Ok` is not in scope"), False),
    ("none, in a hand proof", PROOF_ERROR.format(5, "these differ"), False),
    ("some", METHOD_ERROR.format("Kind"), True),
    ("some", METHOD_ERROR.format("Other"), False),
    ("the invariant of the loop", NOT_PROVED.format(5, "loop-i-preserved"), True),
    ("the invariant of the loop", NOT_PROVED.format(5, "returns"), False),
    ("the requires of callee", NOT_PROVED.format(5, "callee-requires-clause-some"), True),
    ("loop-i-preserved, in a hand proof", NOT_PROVED.format(5, "loop-i-preserved-then-x"), True),
    ("some", TYPE_ERROR, False),
    ("its type: a `u8` is no `bool`", TYPE_ERROR, True),
]


def write(path, text):
    os.makedirs(os.path.dirname(path), exist_ok=True)
    with open(path, "w", encoding="utf-8") as file:
        file.write(text)


def is_rejection(folder, clause, line):
    """Whether the tool takes a line of the prover for the rejection of a wrong body."""
    edit = f"file: src/a.rt\nold:     2\nnew:     3\n# rejected: Kind::two | {clause}\n"
    write(f"{folder}/wrong_bodies/crate/three.edit", edit)
    reached = "" if line == TYPE_ERROR else "logic=not-proved\n"
    write(f"{folder}/bin/rt", f"#!/bin/sh\ncat <<'END'\n{line}\n{reached}END\nexit 1\n")
    os.chmod(f"{folder}/bin/rt", 0o755)
    ran = subprocess.run([sys.executable, TOOL, "crate"], cwd=folder, capture_output=True, text=True,
                         env={**os.environ, "PATH": f"{folder}/bin:{os.environ['PATH']}"})
    last = ran.stdout.rpartition("\n")[0].rpartition("\n")[2]
    assert (ran.returncode, last) in [(0, "1 passed, 0 failed"), (1, "0 passed, 1 failed")], ran
    return ran.returncode == 0


def main():
    failed = 0
    with tempfile.TemporaryDirectory() as folder:
        write(f"{folder}/crates/crate/src/a.rt", SOURCE)
        for place in ("a", "b/Kind", "b/Other"):
            write(f"{folder}/crates/crate/proofs/{place}/two/Answers.antt", PROOF)
        for clause, line, wanted in CASES:
            if is_rejection(folder, clause, line) != wanted:
                print(f"{clause!r} {'does not count' if wanted else 'counts'} for: {line}")
                failed += 1
    print(f"{len(CASES) - failed} passed, {failed} failed")
    return 1 if failed else 0


if __name__ == "__main__":
    sys.exit(main())
