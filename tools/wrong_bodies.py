#!/usr/bin/env python3
"""Tries the wrong bodies of crates: `tools/wrong_bodies.py CRATE..`, in a copy of the repository, which it changes.

A wrong body is a file NAME.edit of wrong_bodies/CRATE or crates/CRATE/must-fail. It has a comment
`# rejected: FUNCTION | CLAUSE`, and often `# witness: ..`: an input, the result of the wrong body, and what is right.
The prover has to reject it at that function and clause.

FUNCTION ends with the name of the function, which is compared. The names before it say which function of this name is
meant: its module (`remainder::rounds_up`) or its type (`Steps::next`). They are for readers, and `rt check --only`
takes no module: it takes `rounds_up` or `Steps::next`. CLAUSE is one of

- the name of a clause: a goal `returns..-clause-NAME` is not proved, or a goal `returns..` of all clauses together
- `its only clause`, if the function has one clause, which has no name: a goal `returns..` is not proved
- `the invariant of the loop`: a goal `..-preserved` or `..-init` of the function is not proved
- `the requires of CALLEE`: a goal `..CALLEE-requires..` is not proved
- the name of a goal or its prefix, as `loop-bytes-preserved`
- `its type: ..`: the prover need not be reached

and more may follow after a comma. An error at another goal does not count, such as that of a sum that overflows: it
does not show that the clause rejects the body. `.., in a hand proof` also admits an error in a lemma of the function's
proof, or at a name that the body took away.

Wrong bodies of different functions are tried together, since a function is proved by the contracts of the others. One
that is not rejected so is tried alone, as is one that changes more than a body. A check takes JOBS jobs, by default 1.
"""
import glob
import os
import re
import subprocess
import sys

AT_ONCE = 24
PLACE = re.compile(r"(?:note: )?(?:\./)?(\S+?):(\d+):\d+: (.*)")
# The goals of an error: one, or several with commas.
GOALS = re.compile(r"\((`[\w.+-]+`(?:(?:, | and )`[\w.+-]+`)*)\)")
# A declaration of a proof: whether it answers a goal, and its name.
ANSWER = re.compile(r"^(pub )?([\w.+-]+) :", re.M)
TAKEN_AWAY = re.compile(r"has no field|is not in scope|has no `|was not admitted")


def read(path):
    with open(path, encoding="utf-8") as file:
        return file.read()


def write(texts):
    for path, text in texts.items():
        with open(path, "w", encoding="utf-8") as file:
            file.write(text)


class WrongBody:
    def __init__(self, path):
        self.name = os.path.basename(path)[: -len(".edit")]
        self.changes, file, old = [], "", ""
        text = read(path)
        for line in text.split("\n"):
            word, _, rest = line.partition(": ")
            if word == "file":
                file = rest.strip()
            elif word == "old":
                old = rest
            elif word in ("new", "new:"):
                self.changes.append((file, old, rest))
        wanted = re.search(r"^# rejected: (.*) \| (([^,\n]*).*)", text, re.M)
        self.place, self.wanted, self.clause = wanted.groups() if wanted else ("no comment `# rejected:`", "", "")
        self.function = self.place.split("::")[-1]

    def changed(self, texts):
        """The texts of the files with its changes, over those by their paths; None if one cannot be made."""
        made = {}
        for file, old, new in self.changes:
            text = made.get(file) or texts.get(file) or read(file)
            if text.count(old) != 1:
                return None
            made[file] = text.replace(old, new)
        return made

    def is_of_its_function(self):
        """Whether each change is in the body of the function where it is rejected."""
        for file, old, _ in self.changes:
            above, found, _ = read(file).partition(old)
            names = re.findall(r"\bfn (\w+)|^\}", above, re.M)
            if not file.startswith("src/") or not found or "fn " in old or names[-1:] != [self.function]:
                return False
        return True

    def is_at_its_clause(self, goal):
        """Whether a goal is one of the clause that the comment names. It is empty where an error names none."""
        if not goal:
            return self.wanted.endswith("in a hand proof")
        if self.clause == "the invariant of the loop":
            return re.search(r"-(?:preserved|init)\b", goal)
        if callee := re.fullmatch(r"the requires of (\w+)", self.clause):
            return re.search(rf"(?:^|-){callee[1]}-requires\b", goal)
        if "-" in self.clause:
            return f"{goal}-".startswith(f"{self.clause}-")
        clause = goal.partition("-clause-")[2]
        return re.match(r"returns\b", goal) and (clause == self.clause or not clause)

    def fault(self, errors, is_read):
        """What is wrong with how it is rejected, or None. Only for its type may the prover not be reached."""
        of_its_type = self.clause.startswith("its type")
        if not is_read and not of_its_type:
            return f"is not read: {errors[:1]}"
        files = {file for file, _, _ in self.changes} if self.is_of_its_function() else set()
        owner = self.place.split("::")[-2:-1]
        here = [error for error in errors if self.function in functions_at(*error[:2], files, owner)]
        if here and of_its_type or any(self.is_at_its_clause(goal) for error in here for goal in goals_of(*error)):
            return None
        found = [f"{' '.join(goals_of(*error)) or 'no goal'}: {error[2]}" for error in here]
        return f"to be rejected at {self.place} | {self.wanted}, but the check says {found or errors[:1] or 'proved'}"


def proofs_of(source):
    """The folder of the proofs of a source."""
    return "proofs/" if source in ("src/lib.rt", "src/main.rt") else f"proofs/{source[len('src/'):-len('.rt')]}/"


def functions_at(file, line, files, owner):
    """The function that a place belongs to, if it is of one of these sources or they are none: in a proof its folder,
    in a source the one around it, or the one after an attribute. The proof of a method is with those of its type, whose
    name is the owner."""
    if file.startswith("proofs/"):
        folders = file.split("/")[:-1]
        is_theirs = not files or folders[-2:-1] == owner or any(file.startswith(proofs_of(source)) for source in files)
        return {folders[-1].lstrip("+")} if is_theirs else set()
    if files and file not in files or not os.path.isfile(file):
        return set()
    lines = read(file).split("\n")
    above, below = (re.findall(r"\bfn (\w+)", "\n".join(part)) for part in (lines[:line], lines[line:]))
    return set(below[:1] if re.match(r"\s*(?:#\[|///)", lines[line - 1]) else above[-1:])


def goals_of(file, line, told):
    """The goals that an error is about: the one that is answered at this line of a proof, or those that the text names.
    Where a proof names what the body took away, the error says nothing of a goal, and there is an empty one."""
    if file.startswith("proofs/") and os.path.isfile(file):
        answers = ANSWER.findall("\n".join(read(file).split("\n")[:line]))
        if TAKEN_AWAY.search(told):
            return [""]
        if answers and answers[-1][0]:
            return [answers[-1][1]]
    named = GOALS.search(told)
    return re.findall(r"`(.*?)`", named[1]) if named else [""]


def checked(texts):
    """The errors of a check of the crate with these texts, and whether the prover was reached."""
    kept = {path: read(path) for path in texts}
    write(texts)
    words = ["rt", "check", "--jobs", os.environ.get("JOBS", "1")]
    ran = subprocess.run(words, stdin=subprocess.DEVNULL, stdout=subprocess.PIPE, stderr=subprocess.STDOUT, text=True)
    write(kept)
    lines = ran.stdout.split("\n")
    errors = [(found[1], int(found[2]), found[3]) for line in lines if (found := PLACE.match(line))]
    return errors if ran.returncode else [], any(line.startswith("logic=") for line in lines)


def faults_of(bodies):
    """Tries wrong bodies together, and returns what is wrong with each, by its name."""
    texts, faults, tried = {}, {}, []
    for body in bodies:
        if made := body.changed(texts):
            texts.update(made)
            tried.append(body)
        else:
            faults[body.name] = "a text of it is not in its file once"
    errors, is_read = checked(texts) if tried else ([], True)
    if not is_read and len(tried) > 1:
        lines = {texts[file].split("\n")[line - 1] for file, line, _ in errors if file in texts}
        unread = [body for body in tried if any(new and new in line for _, _, new in body.changes for line in lines)]
        faults.update({body.name: "is not read" for body in unread or tried})
        return faults | faults_of([body for body in tried if unread and body not in unread])
    return faults | {body.name: fault for body in tried if (fault := body.fault(errors, is_read))}


def batches_of(bodies):
    """Wrong bodies of different functions, at most AT_ONCE in a batch."""
    batches = []
    for body in bodies:
        places = {(file, body.function) for file, _, _ in body.changes}
        batch = next((it for it in batches if len(it[1]) < AT_ONCE and not it[0] & places), None)
        if batch:
            batch[0].update(places)
            batch[1].append(body)
        else:
            batches.append((places, [body]))
    return [batch for _, batch in batches]


def faults_in(crate):
    """Tries the wrong bodies of a crate, and returns how many there are, and what is wrong with each, by its name."""
    top = os.getcwd()
    os.chdir(f"crates/{crate}")
    paths = glob.glob(f"{top}/wrong_bodies/{crate}/*.edit") + glob.glob("must-fail/*.edit")
    bodies = [WrongBody(path) for path in sorted(paths)]
    print(f"{crate}: tries {len(bodies)} wrong bodies", flush=True)
    together = [body for body in bodies if body.is_of_its_function()]
    alone = [body for body in bodies if body not in together]
    for batch in batches_of(together):
        faults = faults_of(batch)
        alone += [body for body in batch if body.name in faults]
        print(f"{crate}: {len(batch) - len(faults)} of {len(batch)} rejected", flush=True)
    faults = {}
    for body in alone:
        faults |= faults_of([body])
        print(f"{crate}/{body.name}: {faults.get(body.name, 'rejected')}", flush=True)
    os.chdir(top)
    return len(bodies), faults


def main(crates):
    tried = [faults_in(crate) for crate in crates]
    # A crate without wrong bodies fails, and so does no crate.
    failed = sum(len(faults) for _, faults in tried) + tried.count((0, {})) + (not tried)
    print(f"{sum(count - len(faults) for count, faults in tried)} passed, {failed} failed")
    return 1 if failed else 0


if __name__ == "__main__":
    sys.exit(main(sys.argv[1:]))
