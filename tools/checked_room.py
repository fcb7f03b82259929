"""A copy of some crates and of those below them, in which all of them were checked. A check keeps what it proved in out/ of its crate, and a kit may take nothing
of that elsewhere. So there is one copy, and it stays: in ~/.cache/ibcworld/checked (or below $XDG_CACHE_HOME). One caller at a time has it.

A command of the kit in a crate has those below it wait for each other, and proves them one after another. So each crate is checked in a room of its own, where
the crates below it stand with what was kept of them: several at a time, and each by as many jobs as are left."""
import contextlib
import fcntl
import filecmp
import os
import pathlib
import shutil
import subprocess
import sys
from concurrent.futures import FIRST_COMPLETED, ThreadPoolExecutor, wait

from crates import ROOT, below, cache, kit_line, lines, uses

MEMORY = 5 << 30  # what a check may take
UNPROVED = ("must-fail", "out", "wrong")  # folders of a crate of which nothing is proved


def jobs():
    """How many checks go on at a time: what $CHECK_JOBS says, else as many as there are processors and memory for."""
    told = os.environ.get("CHECK_JOBS", "")
    if told.isdigit() and int(told):
        return int(told)
    with open("/proc/meminfo", encoding="ascii") as file:
        free = next((int(line.split()[1]) << 10 for line in file if line.startswith("MemAvailable:")), 0)
    return max(1, min(len(os.sched_getaffinity(0)), free // MEMORY))


def files(crate):
    """The files of a crate, but for what is built and for wrong bodies: their paths within it."""
    found = set()
    for at, folders, names in os.walk(crate):
        if at == crate:
            folders[:] = [it for it in folders if it not in UNPROVED]
        found.update(os.path.relpath(f"{at}/{it}", crate) for it in names)
    return found


def renew(crate, copy):
    """Makes the files of a copy those of a crate. One that is the same stays as it is."""
    wanted = files(crate)
    for gone in files(copy) - wanted:
        os.remove(f"{copy}/{gone}")
        with contextlib.suppress(OSError):
            os.removedirs(os.path.dirname(f"{copy}/{gone}"))
    for it in wanted:
        if not os.path.isfile(f"{copy}/{it}") or not filecmp.cmp(f"{copy}/{it}", f"{crate}/{it}", shallow=False):
            os.makedirs(os.path.dirname(f"{copy}/{it}"), exist_ok=True)
            shutil.copyfile(f"{crate}/{it}", f"{copy}/{it}")


def drop_other_kits(top):
    """Drops what another kit kept."""
    kit, noted = kit_line(), pathlib.Path(f"{top}/kit")
    if noted.is_file() and noted.read_text(encoding="utf-8", errors="replace") != kit:
        for it in ("copy", "aside"):
            shutil.rmtree(f"{top}/{it}", ignore_errors=True)
    noted.write_text(kit, encoding="utf-8")


def empty_rooms(top):
    """Puts back into the copy what a run that was ended left in its rooms."""
    for name in os.listdir(f"{top}/rooms") if os.path.isdir(f"{top}/rooms") else ():
        left, there = f"{top}/rooms/{name}/crates/{name}", f"{top}/copy/crates/{name}"
        if os.path.isdir(left):
            shutil.rmtree(there, ignore_errors=True)
            os.rename(left, there)
    shutil.rmtree(f"{top}/rooms", ignore_errors=True)


def list_crates(root, names, folder):
    """Writes crates.txt of a folder, with these crates of a checkout, and HANDLES."""
    listed = "".join(f"{line}\n" for name, line in lines(root).items() if name in names)
    pathlib.Path(f"{folder}/crates.txt").write_text(listed, encoding="utf-8")
    shutil.copyfile(f"{root}/HANDLES", f"{folder}/HANDLES")


def put_together(root, names, top):
    """Makes the copy that of these crates of a checkout. Others are set aside, with what is kept of them: in the copy stands what crates.txt names alone."""
    there, aside = f"{top}/copy/crates", f"{top}/aside"
    for it in (there, aside):
        os.makedirs(it, exist_ok=True)
    for name in set(os.listdir(there)) - names:
        os.rename(f"{there}/{name}", f"{aside}/{name}")
    for name in names:
        if os.path.isdir(f"{aside}/{name}"):
            os.rename(f"{aside}/{name}", f"{there}/{name}")
        renew(f"{root}/crates/{name}", f"{there}/{name}")
    list_crates(root, names, f"{top}/copy")


class Checking:
    """The checks of the crates of a copy."""

    def __init__(self, root, names, top):
        self.root, self.copy, self.rooms = root, f"{top}/copy", f"{top}/rooms"
        found = uses(root)
        self.names = [name for name in found if name in names]
        self.below = {name: below(name, found) for name in names}
        above = {name: [it for it in names if name in self.below[it]] for name in names}
        self.behind = {name: sum(self.size(it) for it in [name, *above[name]]) for name in names}
        self.removals = []

    def size(self, name):
        """The bytes of a crate's files."""
        crate = f"{self.copy}/crates/{name}"
        return sum(os.path.getsize(f"{crate}/{it}") for it in files(crate))

    def check(self, name, count):
        """Checks a crate by so many jobs, in a room with the crates below it, and keeps what that kept. What it prints comes on standard error, at once in the
        end. Whether it is proved."""
        room, crate = f"{self.rooms}/{name}", f"{self.rooms}/{name}/crates/{name}"
        os.makedirs(f"{room}/crates")
        list_crates(self.root, {name, *self.below[name]}, room)
        for it in self.below[name]:
            subprocess.run(["cp", "-al", f"{self.copy}/crates/{it}", f"{room}/crates/{it}"], check=True)
        os.rename(f"{self.copy}/crates/{name}", crate)
        word = "check" if os.path.isfile(f"{crate}/src/main.rt") else "lib"
        try:
            said = subprocess.run(["rt", word, "--jobs", str(count)], cwd=crate, stdin=subprocess.DEVNULL, stdout=subprocess.PIPE, stderr=subprocess.STDOUT)
        finally:
            os.rename(crate, f"{self.copy}/crates/{name}")
            self.removals.append(subprocess.Popen(["rm", "-rf", room]))
        sys.stderr.write(f"== {name}\n{said.stdout.decode('utf-8', 'replace')}")
        sys.stderr.flush()
        return said.returncode == 0

    def shares(self, running, ended, most):
        """Which crates are checked next, those first on which most stands, and by how many jobs each."""
        ready = [name for name in self.names if name not in running and name not in ended and all(ended.get(it) for it in self.below[name])]
        ready.sort(key=lambda name: -self.behind[name])
        free = most - sum(running.values())
        for left in range(len(ready), 0, -1):
            share = max(1, free // left) if left < free else min(1, free)
            if share:
                free -= share
                yield ready[len(ready) - left], share

    def check_all(self, most):
        """Checks all, by so many jobs at a time. A crate above one that isn't proved is left out."""
        ended, running, tasks = {}, {}, {}
        with ThreadPoolExecutor(most) as pool:
            while True:
                for name, count in list(self.shares(running, ended, most)):
                    running[name] = count
                    tasks[pool.submit(self.check, name, count)] = name
                if not tasks:
                    break
                for it in wait(tasks, return_when=FIRST_COMPLETED).done:
                    name = tasks.pop(it)
                    del running[name]
                    ended[name] = it.result()
        for it in self.removals:
            it.wait()


@contextlib.contextmanager
def checked_room(crates, root=ROOT):
    """A folder, to be used by `with`, that has these crates of a checkout and those below them. They are proved, unless the check says otherwise on standard
    error: then whoever has one of them proved there is told of it too."""
    top = f"{cache()}/checked"
    os.makedirs(top, exist_ok=True)
    with open(f"{top}/lock", "w", encoding="ascii") as lock:
        fcntl.flock(lock, fcntl.LOCK_EX)
        drop_other_kits(top)
        empty_rooms(top)
        names = {it for crate in crates for it in (crate, *below(crate, uses(root)))}
        put_together(root, names, top)
        Checking(root, names, top).check_all(jobs())
        yield f"{top}/copy"
