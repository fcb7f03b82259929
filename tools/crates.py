"""The crates of this repository, as crates.txt names them, and the Rattle kit."""
import hashlib
import os
import re
import shutil
import subprocess
import sys

ROOT = os.path.dirname(os.path.dirname(os.path.abspath(__file__)))


def lines(root=ROOT):
    """Of each crate of a checkout its line of crates.txt, in order."""
    found = {}
    with open(f"{root}/crates.txt", encoding="utf-8") as file:
        for line in file:
            told = " ".join(line.partition("#")[0].split())
            if ":" in told:
                found[re.split(r"[ :]", told)[0]] = told
    return found


def uses(root=ROOT):
    """Of each crate of a checkout, in the order of crates.txt, the libraries that its line names."""
    return {name: line.partition(":")[2].split() for name, line in lines(root).items()}


def below(crate, found):
    """The repository's libraries below a crate, each once and behind those that it uses."""
    names = []

    def add(one):
        for name in found[one]:
            if name in found and name not in names:
                add(name)
                names.append(name)

    add(crate)
    return names


def sources(crate):
    """The files of a crate's code, in order."""
    found = [f"{at}/{it}" for at, _, names in os.walk(f"{ROOT}/crates/{crate}/src") for it in names]
    return sorted(it for it in found if it.endswith(".rt"))


def is_program(crate):
    return os.path.isfile(f"{ROOT}/crates/{crate}/src/main.rt")


def cache():
    """The folder in which this machine keeps what was made of sources, under their checksum."""
    folder = os.environ.get("XDG_CACHE_HOME") or os.path.expanduser("~/.cache")
    return os.path.join(folder, "ibcworld")


def proved_of(crate):
    """The files of which a crate is proved: its code, its definitions and its proofs, in order."""
    found = [f"{at}/{it}" for part in ("proofs", "specs", "src") for at, _, names in os.walk(f"{ROOT}/crates/{crate}/{part}") for it in names]
    return sorted(it for it in found if it.endswith((".rt", ".antt")))


def sum_of_file(path):
    with open(path, "rb") as file:
        return hashlib.sha256(file.read()).hexdigest()


def sum_of(crate):
    """A checksum of all of which a crate is proved: these files of it and of the crates below it, their lines of crates.txt, the leaves that
    the repository has, and the kit."""
    told, found = [kit_line(), sum_of_file(f"{ROOT}/HANDLES")], lines()
    for name in [*below(crate, uses()), crate]:
        told.append(found[name])
        told += [f"{os.path.relpath(it, ROOT)} {sum_of_file(it)}" for it in proved_of(name)]
    return hashlib.sha256("\n".join(told).encode()).hexdigest()


def kit_line():
    """What the kit calls itself: its name, and its logic."""
    fault = "rt is missing (the Rattle kit's)"
    if shutil.which("rt"):
        told = subprocess.run(["rt", "version"], stdin=subprocess.DEVNULL, capture_output=True, text=True, check=False)
        if told.returncode == 0 and told.stdout.strip():
            return told.stdout.strip()
        fault = f"rt version says nothing of the kit: {told.stderr.strip()}"
    print(f"{os.path.basename(sys.argv[0])}: {fault}", file=sys.stderr)
    sys.exit(2)
