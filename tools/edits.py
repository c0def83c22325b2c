#!/usr/bin/env python3
"""Tries wrong bodies in rounds: the prover must refuse each at its own function.

    tools/edits.py [--all] [--list] [NAME ..]

Each file crates/CRATE/edits/*.edit changes a body of its crate, and so does each tools/wrong_bodies/CRATE/*.edit. A
file has lines `file:`, and pairs of `old:` and `new:`, each of one line; before them `function:`, the end of the name
of the changed function as a check prints it. Those of tools/wrong_bodies also have `promise:`, a contract that
docs/reference/contracts.md names, and `clause:`, the clause that refuses the body (`result` if the only `ensures` has
no name). An edit with the line `accepted: yes` means what was there before, so it has to be proved: it shows that the
prover looks at meanings.

The libraries are those that `rt ci` left in crates/*/out/rlib. In a round, one edit of each function of a crate is made
in a copy, and these functions are checked. An edit of a definition changes what other functions promise, so it is
alone in its round, and its function is a law about the definition. An edit is refused if the line of its own function
says that it isn't proved, and a goal of that function isn't; for a body of tools/wrong_bodies, its clause. If an edit
can't be read, nothing in its round has a verdict; the round is halved until the edit is alone.

One body for each promise is tried; with --all, all are. NAME selects the edits of a crate, or one edit. --list only
prints a table of the bodies for promises. The last line is 'N passed, M failed'.
"""
import concurrent.futures
import glob
import os
import re
import shutil
import subprocess
import sys
import tempfile
import time

HERE = os.path.dirname(os.path.abspath(__file__))
TOP = os.path.dirname(HERE)
PAGE = f"{TOP}/docs/reference/contracts.md"
KEYS = ("promise", "function", "clause", "accepted", "file", "old", "new")
# The line of a function in what a check prints.
LINE = re.compile(r"fn (\S+): (.*)")
# What the line says if the function's own body isn't proved, and if another one is to blame.
REFUSED = ("not proved", "expected answers", "no proof: expected answers")
WAITS = ("no proof: it calls", "depends on")
# What a check says of a goal that it doesn't prove: in a note, of a proof file, or in the line of a function whose
# proof it looked for.
NOTE = re.compile(r"note: \S+?:\d+:\d+: it is not proved that .*? \(`([^`]*)`\)")
ANSWER = re.compile(r"\S*?proofs/(\S+)\.antt:\d+:\d+: error: `([^`]*)`: (.*)")
SEARCH = re.compile(r"`search` did not prove ((?:`[^`]*`(?:, | and )?)*)")
# A proof file that names what the edit took away says nothing of a goal.
TAKEN = re.compile(r"has no field|is not in scope|has no `|was not admitted")


class Edit:
    """A changed body, as a file describes it."""

    def __init__(self, path):
        self.is_body = path.startswith(f"{TOP}/tools/")
        self.crate = path.split(os.sep)[-2 if self.is_body else -3]
        self.name = f"{self.crate}/{os.path.basename(path).removesuffix('.edit')}"
        self.lines = []
        for line in read(path).splitlines():
            key, _, value = line.partition(":")
            if key not in KEYS:
                sys.exit(f"{self.name}: a line begins with none of {', '.join(KEYS)}")
            self.lines.append((key, value.removeprefix(" ")))
        values = dict(self.lines)
        self.promise, self.function, self.clause, accepted = (values.get(key, "") for key in KEYS[:4])
        self.is_accepted = accepted == "yes"
        self.is_of_definition = any(key == "file" and value.startswith("specs/") for key, value in self.lines)

    def changed(self, folder):
        """The text of each changed file of the crate, whose sources the folder has, by its path there."""
        texts, path, old = {}, None, None
        for key, value in self.lines:
            if key == "file":
                path = value
            elif key == "old":
                old = value
            elif key == "new":
                text = texts.get(path) or read(f"{folder}/{path}")
                if text.count(old) != 1:
                    raise ValueError(f"`{old.strip()}` is in {path} {text.count(old)} times, and not once")
                texts[path] = text.replace(old, value)
        return texts


def read(path):
    with open(path, encoding="utf-8") as file:
        return file.read()


def crates():
    """The crates, lowest first, as crates.txt has them."""
    lines = [line.partition(":")[0].split() for line in read(f"{TOP}/crates.txt").splitlines() if line[:1] != "#"]
    return [words[0] for words in lines if words]


def edits_of(names):
    """The edits that are selected, by crate in the order of crates.txt."""
    order = crates()
    paths = glob.glob(f"{TOP}/crates/*/edits/*.edit") + glob.glob(f"{HERE}/wrong_bodies/*/*.edit")
    edits = sorted((Edit(path) for path in paths), key=lambda edit: (order.index(edit.crate), edit.name))
    unknown = [name for name in names if not any(name in (edit.crate, edit.name) for edit in edits)]
    if unknown:
        sys.exit(f"no crate or edit here is named {', '.join(unknown)}")
    return [edit for edit in edits if not names or edit.crate in names or edit.name in names]


def promises():
    """The contracts that the rows of contracts.md name, such as `checker::check`."""
    found = []
    for row in re.findall(r"^\|.*\|$", read(PAGE), re.M):
        cells = row.split(" | ")
        crate = None
        for name in re.findall(r"`([\w:]+)`", cells[2]) if len(cells) == 4 else []:
            if "::" in name:
                crate = name.split("::")[0]
            elif crate:
                name = f"{crate}::{name}"
            if "::" in name:
                found.append(name)
    return list(dict.fromkeys(found))


def has_result(promise):
    """Whether a function gives something back; one that doesn't is a law, whose body can't be wrong."""
    crate, function = promise.split("::")[0], promise.split("::")[-1]
    head = re.compile(rf"\bfn {function}\b(.*?)(?:\n *(?:requires|ensures|//)|\n? *\{{)", re.S)
    heads = [head.search(read(path)) for path in glob.glob(f"{TOP}/crates/{crate}/src/**/*.rt", recursive=True)]
    return any("->" in found[1] or "&mut" in found[1] for found in heads if found)


def untried(edits):
    """The promises for which there is no body."""
    return [name for name in promises() if has_result(name) and name not in {edit.promise for edit in edits}]


def one_each(edits):
    """The edits without a promise, and one body for each promise: one in the lowest crate, and there, if there is one,
    in another function than the promise's own, since the functions that it calls are checked with it."""
    chosen = {}
    for edit in edits:
        cost = (crates().index(edit.crate), edit.promise.endswith(f"::{edit.function.split('::')[-1]}"))
        if edit.promise not in chosen or cost < chosen[edit.promise][0]:
            chosen[edit.promise] = (cost, edit)
    return [edit for edit in edits if not edit.promise or chosen[edit.promise][1] is edit]


def rows(edits):
    """The lines of a table: its head, and a row for each body, in the order of the promises."""
    order = promises()
    told = sorted((edit for edit in edits if edit.promise), key=lambda edit: order.index(edit.promise))
    bodies = [edit.name.split(".", 1)[1].replace("_", " ") for edit in told]
    return ["| promise | wrong body | function and clause that refuse it |",
            *(f"| `{edit.promise}` | {body} | `{edit.crate}::{edit.function}`: {edit.clause} |"
              for edit, body in zip(told, bodies))]


def goals_in(line):
    """The goals that a line of a check says aren't proved, and the function, or the file of lemmas, if the line names
    it."""
    note, answer, search = (form.search(line) for form in (NOTE, ANSWER, SEARCH))
    if answer:
        # The proof of a function is in a folder; that of one that calls itself, in a folder +NAME.
        place = re.sub(r"/(Answers|Proof)$", "", answer[1]).replace("/", "::").replace("+", "")
        return [] if TAKEN.search(answer[3]) else [answer[2]], place
    return [note[1]] if note else re.findall(r"`([^`]*)`", search[1]) if search else [], ""


def clause_of(goal):
    """The clause that a goal at a return belongs to; the goal itself if it is another one, as an index in bounds."""
    return (goal.partition("clause-")[2] or "result") if goal.startswith("returns") else goal


def functions_in(told):
    """What a check says of each function, by its name: the end of its line, and the clauses and goals that it didn't
    prove. The lemmas that it didn't prove have the name "".

    In a proof file, a clause that isn't proved may be true, with a proof that doesn't fit the edit.
    """
    found, named, goals = {}, [], []
    for line in re.sub(r"\n  +", " ", told).splitlines():
        new, function = goals_in(line)
        if function:
            named += [(function, goal) for goal in new]
        else:
            goals += new
        own = LINE.match(line)
        if own:
            found[own[1]] = (own[2], goals)
            goals = []
    lemmas = found.setdefault("", ("", []))
    for function, goal in named:
        for _, own in [found[name] for name in ending(found, function)] or [lemmas]:
            own.append(goal)
    return {name: (said, {clause_of(goal) for goal in goals}) for name, (said, goals) in found.items()}


def ending(found, function):
    """The names that end with this one."""
    return [name for name in found if f"::{name}".endswith(f"::{function}")]


def judge(edit, found):
    """Whether an edit has passed, or None if it has to be tried again, and what to say."""
    names = ending(found, edit.function)
    if len(names) != 1:
        return False, f"the check has {len(names)} lines for {edit.function}"
    said, clauses = found[names[0]]
    if said.startswith(WAITS):
        return None, said
    if said.startswith("proved"):
        return edit.is_accepted, "proved, as it should be" if edit.is_accepted else "PROVED"
    if edit.is_accepted or not said.startswith(REFUSED):
        return False, f"NOT REFUSED BUT: {said[:200]}" if not edit.is_accepted else f"NOT PROVED: {said[:200]}"
    if edit.is_of_definition:
        clauses = clauses | found[""][1]
    if not clauses:
        return False, f"refused BY NO GOAL; its proof may name what is gone: {said[:200]}"
    if edit.clause and edit.clause not in clauses:
        return False, f"refused by {', '.join(sorted(clauses))}, and NOT BY {edit.clause}"
    return True, edit.clause or ", ".join(sorted(clauses))


class Room:
    """A copy of a crate, in which rounds are tried. What a check proves is kept for the next one."""

    def __init__(self, crate, folder):
        self.crate, self.folder = crate, folder
        for part in ("src", "specs", "proofs"):
            if os.path.isdir(f"{crate.folder}/{part}"):
                shutil.copytree(f"{crate.folder}/{part}", f"{folder}/{part}")
        self.words = [f"{rtlib().KIT}/bin/rattle", "check", *crate.words(["--jobs", "1"], keeps=False),
                      "--incremental", f"{folder}/kept"]

    def check(self, edits):
        """What a check prints of the functions of these edits, once they are made; the sources are put back."""
        before = {}
        try:
            for edit in edits:
                for path, text in edit.changed(self.folder).items():
                    before.setdefault(path, read(f"{self.folder}/{path}"))
                    write(f"{self.folder}/{path}", text)
            functions = dict.fromkeys(edit.function for edit in edits)
            words = [*self.words, *(word for name in functions for word in ("--only", name))]
            return subprocess.run(words, cwd=self.folder, stdin=subprocess.DEVNULL, stdout=subprocess.PIPE,
                                  stderr=subprocess.STDOUT, text=True, errors="replace").stdout
        finally:
            for path, text in before.items():
                write(f"{self.folder}/{path}", text)

    def tried(self, edits):
        """Each of these edits with what judge says; None if nothing in the round has a verdict."""
        try:
            told = self.check(edits)
        except ValueError as fault:
            told = f"error: it can't be made: {fault}"
        found = functions_in(told)
        if len(found) > 1 and re.search(r"(?m)^(only|logic)=", told):
            return [(edit, *judge(edit, found)) for edit in edits]
        if len(edits) > 1:
            return None
        faults = [line for line in told.splitlines() if "error" in line] or told.splitlines()[-1:] or ["no output"]
        return [(edits[0], False, f"NO VERDICT: {faults[0][:200]}")]


def write(path, text):
    with open(path, "w", encoding="utf-8") as file:
        file.write(text)


def rtlib():
    """The toolchain's module that knows how a crate is checked."""
    if "rtlib" not in sys.modules:
        sys.path.insert(0, os.path.join(os.path.dirname(os.path.realpath(shutil.which("rt"))), ""))
    return __import__("rtlib")


def next_round(edits):
    """The next edits that are tried together: at most one of each function, and one of a definition alone."""
    bodies = [edit for edit in edits if not edit.is_of_definition]
    return list({edit.function: edit for edit in reversed(bodies)}.values())[::-1] or edits[:1]


def try_crate(crate, edits):
    """Tries the edits of a crate, prints what became of each, and returns how many failed."""
    begun, rounds, failed, left, most = time.monotonic(), 0, 0, list(edits), len(edits)
    lines = []
    os.makedirs(f"{TOP}/.built", exist_ok=True)
    with tempfile.TemporaryDirectory(prefix="edits-", dir=f"{TOP}/.built") as folder:
        room = Room(crate, folder)
        while left:
            chosen = next_round(left)[:most]
            results = room.tried(chosen)
            rounds += 1
            if results is None:
                most = len(chosen) // 2
                continue
            done = [(edit, passed, said) for edit, passed, said in results if passed is not None]
            if not done:
                done = [(edit, False, said) for edit, _, said in results]
            lines += [f"{edit.name}: {said if passed else f'FAILED: {said}'}" for edit, passed, said in done]
            failed += sum(not passed for _, passed, _ in done)
            left = [edit for edit in left if edit not in {edit for edit, _, _ in done}]
            most = len(edits)
    print(*lines, f"{crate.name}: {len(edits)} edits in {rounds} rounds, {failed} failed, "
          f"{time.monotonic() - begun:.0f} s", sep="\n", flush=True)
    return failed


def try_all(edits):
    """Tries the edits of all crates, as many crates side by side as there are processors, and returns how many
    failed."""
    known = {crate.name: crate for crate in rtlib().crates_below(TOP)}
    by_crate = {name: [edit for edit in edits if edit.crate == name] for name in {edit.crate for edit in edits}}
    # The crates that take long come first: the highest ones.
    order = sorted(by_crate, key=crates().index, reverse=True)
    with concurrent.futures.ThreadPoolExecutor(len(os.sched_getaffinity(0))) as pool:
        return sum(pool.map(lambda name: try_crate(known[name], by_crate[name]), order))


def main():
    words = sys.argv[1:]
    if "--help" in words:
        print(__doc__.strip())
        return
    names = [word for word in words if word not in ("--all", "--list")]
    edits = edits_of(names)
    if "--list" in words:
        print("\n".join(rows(edits)))
        return
    lacking = [] if names else untried(edits)
    for name in lacking:
        print(f"{name}: FAILED: no body is for this promise")
    chosen = edits if "--all" in words or names else one_each(edits)
    failed = try_all(chosen) + len(lacking)
    if not names and sum(edit.is_accepted for edit in chosen) < 2:
        print("FAILED: fewer than two edits have to be accepted")
        failed += 1
    print(f"{len(chosen) + len(lacking) - failed} passed, {failed} failed")
    sys.exit(failed > 0)


if __name__ == "__main__":
    main()
