"""Programs that are run with a library of this folder loaded before their own, which has them fail where they are told to."""
import collections
import os
import shutil
import subprocess
import sys

TOOLS = os.path.dirname(os.path.abspath(__file__))
SECONDS = 60
# How many runs go on at once.
JOBS = len(os.sched_getaffinity(0))

# How a run ended: the status, none where it didn't end, and what stood on standard output and standard error.
Ended = collections.namedtuple("Ended", "status out err")


class Program:
    """A program, and a library that was built of a file in C of this folder."""

    def __init__(self, path, source, folder):
        self.path, self.folder = os.path.abspath(path), folder
        self.library = os.path.join(folder, source + ".so")
        compilers = [it for it in ("cc", "gcc", "clang") if shutil.which(it)]
        if not compilers:
            sys.exit(f"no compiler of C (cc, gcc or clang) for tools/{source}")
        words = ["-O2", "-shared", "-fPIC", "-o", self.library, os.path.join(TOOLS, source)]
        subprocess.run([compilers[0], *words], check=True)

    def run(self, words, text=b"", **environment):
        """Runs the program on a text, with this added to its environment."""
        environment = {**os.environ, "LD_PRELOAD": self.library, **environment}
        words = [self.path, *words]
        try:
            it = subprocess.run(words, input=text, capture_output=True, timeout=SECONDS, env=environment)
        except subprocess.TimeoutExpired as late:
            return Ended(None, late.stdout or b"", late.stderr or b"")
        return Ended(it.returncode, it.stdout, it.stderr)

    def allocations(self, words, text=b""):
        """How many allocations a run takes, by refuse_nth.c: none where the program has an allocator of its own."""
        path = os.path.join(self.folder, "count")
        self.run(words, text, REFUSE_COUNT=path)
        if not os.path.exists(path):
            return 0
        with open(path, "rb") as file:
            return int.from_bytes(file.read(), sys.byteorder)


def far_apart(count, most):
    """The numbers from 1 to a count, or so many of them that lie as far from each other as they can."""
    return range(1, count + 1) if not most or count <= most else [1 + n * count // most for n in range(most)]


def verdict(passed, failed, behind=""):
    """Prints how many runs ended as they must and how many not, and gives the status. Where none passed something failed: a tool
    that tried nothing has shown nothing."""
    if not passed and not failed:
        print("nothing was tried")
        failed = 1
    print(f"{passed} passed, {failed} failed{behind}")
    return 1 if failed or not passed else 0
