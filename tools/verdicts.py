"""What a check with wrong bodies says of each of them, by the lines that `rt check` prints, or `rt ci` of the check that it begins with."""
import re

REFUSED, MISSED, BAD, UNSURE = "refused", "NOT REFUSED", "BAD", "NOT TRIED"
# What a proof file lacks that names what is not there; and where that is a goal, so that its answer is not tried.
NAMES, GONE = r"has no field|is not in scope|has no `|was not admitted|is no name", r"\.Goals` has no `"
# What is said of an open goal that no answer can close.
FALSE = "; the facts known there"
STATE = re.compile(r"fn (\S+): (.*)")
CALLED = re.compile(r"it (?:calls|passes the block) ([^;]*?), which (?:is|are) not proved")
GOAL = re.compile(r"note: (?:\./)?(\S+?):(\d+):\d+: it is not proved that")
ERROR = re.compile(r"(?:\./)?((?:src|specs|proofs)/\S+?):(\d+):\d+: error")
# What a check that came to its end says last, and what of that where the crate is proved. Only advice stands behind it.
ENDED, PROVED, ADVICE = re.compile(r"logic=(not-)?proved\b"), re.compile(r"logic=proved\b"), "rt: "


def is_state_proved(state):
    """Whether this is said of a function that is proved, as `proved, may wait`; or of a closure, `proved where its callers give what it asks`."""
    return bool(re.match(r"proved\b", state))


class Said:
    """What a check of one crate printed."""

    def __init__(self, crate, status, text):
        self.crate, self.status, self.states = crate, status, {}
        # (a first pass reads more than is proved, and what it says of a function holds for nothing)
        self.lines = (re.split(r"(?m)^rt: the quick pass above .*$", text)[-1].strip("\n") or text.strip("\n")).split("\n")
        for line in self.lines:
            state = STATE.match(line)
            if state and state[1].startswith(f"{crate}::"):
                self.states.setdefault(state[1], []).append(state[2])
        last = next((it for it in reversed(self.lines) if not it.startswith(ADVICE)), "")
        self.has_ended = status in (0, 1) and bool(ENDED.match(last)) and any(it.startswith(f"crate {crate}: ") for it in self.lines)
        self.is_proved = status == 0 and self.has_ended and bool(PROVED.match(last))
        self.names = {name for name, said in self.states.items() if len(said) == 1 and is_state_proved(said[0])}

    def called(self, name):
        """The functions of this crate that one calls and that are not proved."""
        told = [part for state in self.states.get(name, ()) for part in CALLED.findall(state)]
        return {it for part in told for it in re.findall(r"`([^`]+)`", part)} - {name}

    def unread(self):
        """Where the check stopped, since it can't read or type a file of the crate's code or definitions: file, line and message."""
        found = [] if self.has_ended else [ERROR.match(it) for it in self.lines]
        return [(it[1], int(it[2]), it.string) for it in found if it and not it[1].startswith("proofs/")]

    def first_error(self):
        return next((it for it in self.lines if re.search(r"\berror\b", it)), self.lines[-1])[:200]


class SaidByCi(Said):
    """What `rt ci` printed of one crate: between a head and the verdict what the check printed, and where the crate is kept that line alone."""

    def __init__(self, crate, status, text):
        verdict = re.search(rf"(?m)^rt: {crate} (proved|NOT PROVED)$", text)
        head = text.rfind(f"== {crate}\n", 0, verdict.start()) if verdict else -1
        super().__init__(crate, status, text[head : verdict.start()] if head >= 0 else text)
        self.is_proved = bool(verdict and verdict[1] == "proved" or re.search(rf"(?m)^rt: {crate} is kept: ", text))
        self.has_ended = self.is_proved or status == 1 and head >= 0 and sum(bool(ENDED.match(it)) for it in self.lines) == 1


def shown(goals, lost):
    """Which of these open goals and errors show something: where a goal's answer lost its name, an open goal may be that one, unless it is shown false."""
    if not any(re.search(GONE, it) for it in lost):
        return goals
    return [it for it in goals if FALSE in it or ERROR.match(it)]


def is_own(called, parts):
    """Whether this path below the crate, of a function or of a folder with its proof, is that of the function or of a closure in it."""
    own, bare = called.split("::")[1:], [it.lstrip("+") for it in parts if it != "fn"]
    return bare[: len(own)] == own and (len(bare) == len(own) or "fn" in parts)


class Found:
    """What a check says of one function and the closures in it: its states, its open goals, and the names that its proof lacks."""

    def __init__(self, edit, said):
        self.states, self.goals, self.lost = [], [], []
        for name, states in said.states.items():
            if is_own(edit.called, name.split("::")[1:]):
                self.states += [(name, it) for it in states]
                self.goals += [f"{name}: {it}" for it in states if "did not prove" in it]
        for line in said.lines:
            goal, error = GOAL.match(line), ERROR.match(line)
            if goal and edit.holds(goal[1], int(goal[2])):
                self.goals.insert(0, line)
            elif error and error[1].startswith("proofs/") and is_own(edit.called, error[1].split("/")[1:-1]):
                (self.lost if re.search(NAMES, line) else self.goals).append(line)

    def verdict(self, called, is_last):
        """What it came to, and why; or None, to try it again beside functions that it doesn't call."""
        of_itself = [it for name, it in self.states if name == called]
        waits = any(CALLED.search(it) for _, it in self.states)
        if len(of_itself) == 1 and not any("could not tell" in it for _, it in self.states):
            if all(is_state_proved(it) for _, it in self.states):
                return MISSED, f"{called} is proved with this edit"
            found = shown(self.goals, self.lost)
            if found:
                return REFUSED, found[0][:200] + " (and its proof names what is gone)" * bool(self.lost)
            # (beside a function that it calls and that is not proved, not all of its goals are tried)
            if is_last or self.lost and not waits:
                return BAD, f"no goal of {called} is shown to fail, but {(self.lost or of_itself)[0][:200]}"
        return (UNSURE, f"the check says nothing certain of {called}") if is_last else None


def judged_alone(edit, said):
    """What a check of the whole crate with one edit of any kind says of it."""
    if said.is_proved:
        return MISSED, "the crate is proved with this edit"
    if said.unread():
        return BAD, f"it can't be read: {said.unread()[0][2][:200]}"
    if not said.has_ended:
        return UNSURE, f"the check ended early (status {said.status}): {said.lines[-1][:160]}"
    goals = [it for it in said.lines if GOAL.match(it)] + [f"{name}: {it}" for name, states in said.states.items() for it in states if "did not prove" in it]
    errors = [it for it in said.lines if ERROR.match(it) and ERROR.match(it)[1].startswith("proofs/")]
    goals = shown(goals + [it for it in errors if not re.search(NAMES, it)], errors)
    if goals:
        return REFUSED, goals[0][:200]
    return (BAD, f"only a name is seen to fail: {errors[0][:200]}") if errors else (UNSURE, f"the check names no goal: {said.lines[-1][:160]}")
