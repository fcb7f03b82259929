"""Tries of single wrong bodies by `rt ci`: those that are drawn beside a checkout's own must-fail edits, or in a copy in which they are the only ones.

So nothing below a crate is proved again for them, nor in the copy where the kit keeps it; and the verdict is the kit's. It gives one reason for each,
and cuts it. Where that is a name that is gone, goals may be open that it doesn't tell: then it shows nothing, and all reasons are read (tools/verdicts.py).
"""
import contextlib
import glob
import os
import re

import functions
from tries import CloneForCi, write
from verdicts import BAD, ERROR, GOAL, MISSED, NAMES, REFUSED, UNSURE, is_own

# How the kit's verdict on a must-fail edit begins, and what that means here where it gives no reason to be read: nothing where a name is gone.
REASON = "refused, as it must be: "
WORDS = (("refused, as it must be (only because", None), ("NOT REFUSED", MISSED), ("BAD EDIT", BAD))
# What the names of edits begin with that are tried beside a checkout's own.
PLANTED = "drawn_"
# How many bytes of a reason it prints; what an error says; and how it begins to say which name a goal, a module or a record lacks.
CUT, SAYS, LACKS = 160, re.compile(r": error(?:\[[^\]]*\])?: (?:`[^`]*`: )*(.*)"), re.compile(r"`goal\.|(module|record) `")


class Judge:
    """Reads what `rt ci` says of edits of a checkout."""

    def __init__(self, root):
        self.root, self.proofs = root, {}

    def folders(self, crate):
        """The folders of a crate's proofs, each by the parts of its path."""
        if crate not in self.proofs:
            top = f"{self.root}/crates/{crate}/proofs"
            self.proofs[crate] = [os.path.relpath(at, top).split("/") for at, _, files in os.walk(top) if at != top and files]
        return self.proofs[crate]

    def of_edit(self, edit):
        """The folders with proofs of the function that an edit changes and of the closures in it."""
        crate, found = crate_of(edit), self.folders(crate_of(edit))
        # (a closure's folder begins with its function's path)
        bare = [[crate, *[it.lstrip("+") for it in folder if it != "fn"]] for folder in found]
        names = {"::".join(it[:k]) for it, folder in zip(bare, found) for k in range(2 if "fn" in folder else len(it), len(it) + 1)}
        called = functions.names_of({edit.function}, names).get(edit.function)
        return [it for it in found if called and is_own(called, it)]

    def said_of(self, edit, text):
        """What `rt ci` said of an edit, in which words; or None where it shows nothing of the function."""
        said = verdict_of(edit, text)
        if said is None:
            return UNSURE, f"`rt ci` says nothing of it: {why_not(text)[:160]}"
        if said.startswith(REASON):
            return (REFUSED, said[:200]) if self.is_refusal(edit, said.removeprefix(REASON)) else None
        kind = next((kind for words, kind in WORDS if said.startswith(words)), UNSURE)
        return kind and (kind, said[:200])

    def is_refusal(self, edit, reason):
        """Whether a reason is an open goal of the edited function, or an error in its proof that is no lost name."""
        goal, error = GOAL.match(reason), ERROR.match(reason)
        if goal and (edit.function is None or edit.holds(goal[1], int(goal[2]))):
            return True
        is_own_proof = error and error[1].startswith("proofs/") and (edit.function is None or error[1].split("/")[1:-1] in self.of_edit(edit))
        return bool(is_own_proof) and is_no_lost_name(reason)


def is_no_lost_name(reason):
    """Whether an error in a proof says something else than that a name is gone. Where it is cut before it says what is wrong, it doesn't."""
    says = SAYS.search(reason)
    if re.search(NAMES, reason) or says and LACKS.match(says[1]):
        return False
    return len(reason.encode()) < CUT or bool(says and re.match(r"[a-z]+ \S", says[1]))


def verdict_of(edit, text):
    """The line of `rt ci` on an edit, without what it begins with; None where there is none."""
    found = re.search(rf"(?m)^rt: must-fail {re.escape(name_of(edit))}: (.*)$", text)
    return found and found[1]


def why_not(text):
    """The last that `rt ci` said before it counted, since there it says why it ended early."""
    lines = [it for it in text.strip().split("\n") if not re.match(r"\d+ passed, \d+ failed", it)]
    return lines[-1] if lines else "it printed nothing"


def crate_of(edit):
    return edit.label.partition("/")[0]


def name_of(edit):
    """The name that `rt ci` calls an edit by."""
    return f"{crate_of(edit)}/{os.path.basename(edit.label)}.edit"


def plant(root, edits):
    """Puts edits beside the must-fail edits of a checkout, for its next `rt ci`."""
    for edit in edits:
        crate, _, name = name_of(edit).partition("/")
        write(f"{root}/crates/{crate}/must-fail/{PLANTED}{name}", edit.text)


def clear(root):
    """Takes away what was put there."""
    for path in glob.glob(f"{root}/crates/*/must-fail/{PLANTED}*.edit"):
        os.remove(path)
        with contextlib.suppress(OSError):
            os.rmdir(os.path.dirname(path))


def said_of_planted(root, edits, text):
    """What `rt ci`, which said this, said of edits that had been put there; None of one that has to be tried otherwise."""
    judge, text = Judge(root), re.sub(rf"(?m)^(rt: must-fail \w+/){PLANTED}", r"\1", text)
    return {it: judge.said_of(it, text) for it in edits}


def try_drawn(root, folder, edits, minutes, tell):
    """What `rt ci` says of each of these edits, of which `tell` hears at once; None of one that has to be tried otherwise."""
    clone, judge = CloneForCi(root, folder, minutes), Judge(root)
    clone.copy({crate_of(edit) for edit in edits})
    for edit in edits:
        crate, _, name = name_of(edit).partition("/")
        write(f"{folder}/crates/{crate}/must-fail/{name}", edit.text)
    by_name, told = {name_of(it): it for it in edits}, {}

    def hear(line):
        found = re.match(r"rt: must-fail ([^:]+): ", line)
        edit = by_name.get(found[1]) if found else None
        if edit:
            told[edit] = judge.said_of(edit, line)
            if told[edit]:
                tell(edit, told[edit])

    _, text = clone.run(["ci"], folder, hear)
    return {it: told[it] if it in told else judge.said_of(it, text) for it in edits}
