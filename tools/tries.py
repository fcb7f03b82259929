"""Tries of wrong bodies in clones of a checkout, by plain `rt check` or by `rt ci`: those of many functions in one check, and many crates side by side."""
import os
import re
import shutil
import subprocess
import threading
import time

import functions
import refused_lines
import wrong_bodies
from checked_room import UNPROVED
from verdicts import BAD, MISSED, UNSURE, Found, Said, SaidByCi, judged_alone

# What `rt fmt` says of a file that it can't read, and a place of a file of code at the beginning of a line.
UNREAD, PLACE = re.compile(r"(?m)^/.*/((?:src|specs|proofs)/\S+): it does not parse: at (\d+:\d+): "), re.compile(r"(?m)^((?:note: )?(?:\./)?)(src/\S+?):(\d+):")


def free_memory():
    """The bytes that a new command finds free."""
    with open("/proc/meminfo", encoding="ascii") as it:
        return next(int(line.split()[1]) * 1024 for line in it if line.startswith("MemAvailable:"))


def wait_for_memory():
    """Waits, five minutes at most, until a check finds memory beside what else runs."""
    for _ in range(60):
        if Clone.is_ended or free_memory() > 2_000_000_000:
            return
        time.sleep(5)


class Ended(Exception):
    """All is to end."""


class Clone:
    """A copy of a checkout's crates in a folder of its own, with what its checks kept."""

    running, is_ended = [], False

    def __init__(self, root, folder, jobs, minutes):
        self.folder, self.jobs, self.minutes = folder, jobs, minutes
        os.makedirs(f"{folder}/.git")
        for name in ("crates.txt", "HANDLES"):
            if os.path.isfile(f"{root}/{name}"):
                shutil.copy(f"{root}/{name}", folder)
        shutil.copytree(f"{root}/crates", f"{folder}/crates", symlinks=True)

    def check(self, crate, texts):
        """What a check says of a crate with these texts in place of its files'."""
        at = f"{self.folder}/crates/{crate}"
        before = {path: wrong_bodies.read_text(f"{at}/{path}") for path in texts}
        wait_for_memory()
        try:
            for path, text in texts.items():
                write(f"{at}/{path}", text)
            return self.said(crate, at, texts)
        finally:
            for path, text in before.items():
                write(f"{at}/{path}", text)

    def said(self, crate, at, _):
        """What `rt check` says of a crate as it stands in the clone."""
        return Said(crate, *self.run(["check", "--jobs", str(self.jobs)], at))

    def run(self, words, at, hear=lambda line: None):
        """The status of the kit's command with these words in a folder, and what it printed. Each line is heard as it comes."""
        if Clone.is_ended:
            raise Ended
        how = {"stdin": subprocess.DEVNULL, "stdout": subprocess.PIPE, "stderr": subprocess.STDOUT, "cwd": at}
        told = []
        with subprocess.Popen(["rt", *words], **how) as it:
            Clone.running.append(it)
            end = threading.Timer(60 * self.minutes, lambda: (told.append(f"\nended after {self.minutes:g} minutes\n"), it.terminate()))
            end.start()
            try:
                for line in it.stdout:
                    told.append(line.decode(errors="replace"))
                    hear(told[-1])
            finally:
                end.cancel()
            Clone.running.remove(it)
        if Clone.is_ended:
            raise Ended
        return it.returncode, "".join(told)

    @staticmethod
    def end_all():
        """Ends the checks that run, and lets none begin."""
        Clone.is_ended = True
        for it in [*Clone.running]:
            it.terminate()


class CloneForCi(Clone):
    """A copy of the crate that is tried and of those below it, without edits of must-fail/, in which `rt ci` checks: from nothing, over what it has kept of
    those below beside the kit. It gets no names of crates, since a gate's machine refuses these."""

    def __init__(self, root, folder, minutes):
        self.root, self.folder, self.minutes, self.crates = root, folder, minutes, None

    def copy(self, crates):
        """Copies these crates and those below them, in place of those that were there."""
        if self.crates != crates:
            self.crates = None
            shutil.rmtree(self.folder, ignore_errors=True)
            copy_crates(self.root, self.folder, crates)
            self.crates = crates

    def check(self, crate, texts):
        """What a check says of a crate with these texts in place of its files'."""
        self.copy({crate})
        return super().check(crate, texts)

    def said(self, crate, at, texts):
        """What `rt ci` says of a crate as it stands in the clone, with the lines of its files as the texts have them: it takes no layout but that of
        `rt fmt`."""
        before = {path: functions.of_file(at, path) for path in texts if path.startswith("src/")}
        status, told = self.run(["fmt"], at) if texts else (0, "")
        if status:
            return SaidByCi(crate, status, UNREAD.sub(r"\1:\2: ", told))
        after = {path: functions.of_file(at, path) for path in before}
        status, told = self.run(["ci"], self.folder)
        return SaidByCi(crate, status, PLACE.sub(lambda it: f"{it[1]}{it[2]}:{line_before(int(it[3]), before.get(it[2], []), after.get(it[2], []))}:", told))


def line_before(line, before, after):
    """The line of a file before its functions were laid out anew, or 0 where they are others."""
    if len(before) != len(after):
        return 0
    last = 0, 0
    for old, new in zip(before, after):
        if line < new.lines[0]:
            break
        if line <= new.lines[1]:
            return min(line - new.lines[0] + old.lines[0], old.lines[1])
        last = old.lines[1], new.lines[1]
    return line - last[1] + last[0]


def copy_crates(root, folder, crates):
    """Copies these crates of a checkout and those below them into a folder, without what was built and without edits that have to be refused."""
    below, uses = refused_lines.Sums(root).below, refused_lines.uses_of(root)
    wanted = {it for crate in crates for it in (crate, *below(crate))}
    os.makedirs(f"{folder}/.git")
    if os.path.isfile(f"{root}/HANDLES"):
        shutil.copy(f"{root}/HANDLES", folder)
    write(f"{folder}/crates.txt", "".join(f"{line}\n" for crate, (_, line) in uses.items() if crate in wanted))
    tops = {f"{root}/crates/{crate}" for crate in wanted}
    for top in tops:
        shutil.copytree(top, f"{folder}/crates/{os.path.basename(top)}", symlinks=True, ignore=lambda at, _: UNPROVED if at in tops else ())


def write(path, text):
    os.makedirs(os.path.dirname(path), exist_ok=True)
    with open(path, "w", encoding="utf-8", newline="") as it:
        it.write(text)


class Calls:
    """Which function calls which, as far as checks have said so."""

    def __init__(self):
        self.direct = {}

    def learn(self, said):
        for name in said.states:
            self.direct.setdefault(name, set()).update(said.called(name))

    def reached(self, name):
        """All functions that a call of this one may run, as far as that is known."""
        seen, left = set(), [name]
        while left:
            new = self.direct.get(left.pop(), set()) - seen
            seen |= new
            left += new
        return seen

    def are_apart(self, one, other):
        return one not in self.reached(other) and other not in self.reached(one)

    def apart(self, edits):
        """The first of the edits, with the others of which none stands in the same function, and no function is known to call another's."""
        found = []
        for edit in edits:
            if all(edit.function != one.function and self.are_apart(edit.called, one.called) for one in found):
                found.append(edit)
        return found


class Tries:
    """The tries of a crate's edits: what each came to. Once the crate has been checked as it stands, that is told; and behind each check, what was found."""

    def __init__(self, clone, crate, edits, tell, keep):
        self.clone, self.crate, self.checks, self.calls, self.keep, self.names = clone, crate, 0, Calls(), keep, set()
        self.found = {it: (BAD, it.why) for it in edits if it.why}
        self.left = [it for it in edits if not it.why]
        self.plain = self.check({}) if self.left else None
        tell(crate)
        if self.left and not self.plain.is_proved:
            why = f"the crate is not proved as it stands: {self.plain.first_error()}"
            self.found.update({it: (UNSURE, why) for it in self.left})
            self.left = []
        if self.left:
            self.name(self.plain.names)
        self.try_together([it for it in self.left if it.called or it.function and not self.names])
        for edit in [it for it in self.left if it not in self.found]:
            self.found[edit] = judged_alone(edit, self.check(edit.texts))
            self.keep(self.found)

    def name(self, names):
        """Tells each edit by which name a check calls its function, once a check has told its names. (`rt ci` tells none of a crate that it has kept.)"""
        if names and not self.names:
            self.names = names
            found = functions.names_of({it.function for it in self.left if it.function}, names)
            for edit in self.left:
                edit.called = found.get(edit.function)

    def check(self, texts):
        self.checks += 1
        said = self.clone.check(self.crate, texts)
        self.calls.learn(said)
        return said

    def try_together(self, left):
        """Tries edits of functions, many by one check, and again what that leaves open: beside others, at last alone."""
        tries = {it: 0 for it in left}
        while left:
            alone = [it for it in left if tries[it] > 3]
            batch = alone[:1] or self.calls.apart(left)
            tries.update({it: tries[it] + 1 for it in batch})
            again = self.try_batch(batch)
            left = [it for it in left if (it in again or it not in batch) and (it.called or not self.names)]
            self.keep(self.found)

    def try_batch(self, batch):
        """Tries edits of different functions by one check; gives those of which it says nothing certain."""
        said = self.check(wrong_bodies.together(batch))
        if said.is_proved:
            self.found.update({it: (MISSED, f"the crate is proved with this edit{' and others' * (len(batch) > 1)}") for it in batch})
            return []
        was_ended = said.status not in (0, 1) and not said.unread()
        if was_ended or not said.has_ended and len(batch) == 1:
            self.found.update({it: judged_alone(it, said) for it in batch})
            return []
        if not said.has_ended:
            # (an edit with a bracket too many can make another function unreadable, so each that seems bad is tried alone)
            bad = [it for it in batch if any(it.holds(path, line) for path, line, _ in said.unread())]
            rest = [it for it in batch if it not in bad]
            parts = [rest, *[[it] for it in bad]] if bad else [rest[: len(rest) // 2], rest[len(rest) // 2 :]]
            return [it for part in parts if part for it in self.try_batch(part)]
        self.name({*said.states})
        if len(batch) == 1 and not batch[0].called:
            self.found[batch[0]] = judged_alone(batch[0], said)
            return []
        told = {it: Found(it, said).verdict(it.called, len(batch) == 1) for it in batch if it.called}
        self.found.update({it: given for it, given in told.items() if given})
        return [it for it in batch if not told.get(it)]


class Lanes:
    """Tries of the edits of many crates, some side by side, each lane in a clone of its own.

    A crate waits until those below it have been checked as they stand, so that no two lanes prove the same from nothing. What edits came to is kept
    behind each check.
    """

    def __init__(self, edits, below, make_clone, keep):
        self.edits, self.below, self.make_clone, self.keep, self.found = edits, below, make_clone, keep, {}
        self.left, self.unchecked, self.turn = [*edits], {*edits}, threading.Condition()

    def next(self):
        """The next crate that can be tried, or None where none is left."""
        with self.turn:
            while self.left:
                ready = [it for it in self.left if not self.unchecked & {*self.below(it)}]
                if ready:
                    self.left.remove(ready[0])
                    return ready[0]
                self.turn.wait()
            return None

    def is_checked(self, crate):
        with self.turn:
            self.unchecked.discard(crate)
            self.turn.notify_all()

    def note(self, found):
        """Keeps what edits came to."""
        with self.turn:
            self.found.update(found)
            self.keep(found)

    def run(self, number):
        """Tries one crate after another in the clone of this number, until none is left."""
        clone = self.make_clone(number)
        while (crate := self.next()) is not None:
            started = time.time()
            try:
                tries = Tries(clone, crate, self.edits[crate], self.is_checked, self.note)
            finally:
                self.is_checked(crate)
            self.note(tries.found)
            print(f"{crate}: {len(self.edits[crate])} edits by {tries.checks} checks, {time.time() - started:.0f} s", flush=True)
