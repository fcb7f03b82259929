"""All C functions on whose contracts the prover's verdict on a crate can rest, as `rt check --list-axioms` marks them. What it said is kept, in
~/.cache/ibcworld (or $XDG_CACHE_HOME/ibcworld), under a checksum of the sources and the kit."""
import hashlib
import os
import re
import subprocess
import sys

from checked_room import checked_room
from crates import cache, sum_of

NAME = re.compile(r"\b\w+(?:::\w+)+\b")
MOST = 16  # how many lists are kept, the newest
TIMES = "all that wasn't checked here before is checked first"


def counted(verdict):
    """How many C functions the line of a verdict counts."""
    found = re.search(r" axioms=(\d+)\b", verdict)
    return int(found[1]) if found else 0


def marked(said):
    """The names of the lines that say `reached`, in order and each once."""
    lines = (line for line in said.split("\n") if re.search(r"\breached\b", line) and not re.search(r"\b(?:not|none) reached\b", line))
    return sorted({name[0] for name in map(NAME.search, lines) if name})


def listed(said):
    """The names that a check marks, and what is wrong with them: without a verdict they say nothing, and as many have to be marked as it counts."""
    verdicts = re.findall(r"(?m)^logic=proved .*$", said)
    if not verdicts:
        return [], f"no verdict: {said.strip().rpartition(chr(10))[2]}"
    names = marked(said)
    count = counted(verdicts[-1])
    return names, "" if len(names) == count else f"the prover marks {len(names)} C functions, and its verdict counts {count}"


def asked(crate):
    """What the prover says of a crate: the names, and what is wrong."""
    print(f"trust: asking the prover what {crate} reaches: {TIMES}", file=sys.stderr, flush=True)
    with checked_room([crate]) as room:
        ran = subprocess.run(
            ["rt", "check", "--list-axioms"], cwd=f"{room}/crates/{crate}", stdin=subprocess.DEVNULL, capture_output=True, text=True, errors="replace", check=False,
        )
    names, fault = listed(ran.stdout)
    return names, fault or (f"`rt check` ended with status {ran.returncode}" if ran.returncode else "")


def place(crate, told):
    """Where the list of a crate is kept whose sources have this checksum."""
    return f"{cache()}/reached/{crate}-{told[:32]}"


def kept(path):
    """The names that are kept there, or None where there are none, or not as they were kept."""
    if not os.path.isfile(path):
        return None
    with open(path, encoding="utf-8", errors="replace") as file:
        told, _, text = file.read().partition("\n")
    return text.split() if told == hashlib.sha256(text.encode()).hexdigest() else None


def keep(path, names):
    """Keeps a list, whole or not at all, and drops the oldest of those that are kept."""
    folder, text = os.path.dirname(path), "".join(f"{it}\n" for it in names)
    os.makedirs(folder, exist_ok=True)
    new = f"{path}.{os.getpid()}"
    with open(new, "w", encoding="utf-8") as file:
        file.write(f"{hashlib.sha256(text.encode()).hexdigest()}\n{text}")
    os.replace(new, path)
    for older in sorted((f"{folder}/{it}" for it in os.listdir(folder)), key=os.path.getmtime)[:-MOST]:
        os.remove(older)


def reached(crate):
    """The C functions that a crate reaches, and what is wrong where the prover doesn't say it."""
    told = sum_of(crate)
    names = kept(place(crate, told))
    if names is not None:
        return names, ""
    names, fault = asked(crate)
    if not fault and sum_of(crate) != told:
        fault = "a source was changed meanwhile: call this again"
    if not fault:
        keep(place(crate, told), names)
    return names, fault
