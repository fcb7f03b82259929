"""The file tests/refused.txt: wrong bodies that were seen refused, a line each, with checksums of all that a refusal rests on.

A line has the edit, and three checksums. One is of its text. One is of the function that it changes as it stands, with all that its crate states under
the names in the two, and on and on: contracts, types, constants, definitions, private ones too. One is of what the crates below state of all these.
Other bodies, proofs, comments and the order of items are in none (tools/grounds.py). A word that abbreviates counts as what it means
(tools/unfolding.py). Of an edit that lies in no one function's body, or where a name's meaning isn't certain, the second is of the whole crate: src/,
specs/, proofs/ and its line of crates.txt. The third is then of what those below state under the words of these.
"""
import hashlib
import os
import subprocess

import grounds
import parts
import promises

PLACE = "tests/refused.txt"
HEAD = """\
# Wrong bodies that tools/try_edits saw refused: the edit, and checksums of its text, of its function with all that its crate states under the names in
# the two, and of what the crates below state under these. The tool writes this file. An edit whose line holds is not tried again, but for ten that the
# commit draws.
"""
DRAWN = 10


def sum_of(*texts):
    return hashlib.sha256("\0".join(texts).encode()).hexdigest()[:20]


def uses_of(root):
    """Of each crate, in the order of crates.txt, the libraries that its line names, and that line."""
    found = {}
    with open(f"{root}/crates.txt", encoding="utf-8") as lines:
        for line in lines:
            head, colon, names = line.partition("#")[0].partition(":")
            if colon:
                found[head.split()[0]] = names.split(), " ".join(line.partition("#")[0].split())
    return found


class Sums:
    """The checksums of a checkout's crates."""

    def __init__(self, root):
        self.root, self.uses, self.known, self.promised, self.grounds = root, uses_of(root), {}, None, {}

    def below(self, crate):
        """The checkout's crates below one, in the order of crates.txt."""
        found, left = set(), [crate]
        while left:
            new = {it for it in self.uses[left.pop()][0] if it in self.uses} - found
            found |= new
            left += new
        return [it for it in self.uses if it in found]

    def files_of(self, crate):
        """A crate's files of code, definitions and proofs."""
        folder = f"{self.root}/crates/{crate}"
        return [it for part, ending in (("src", ".rt"), ("specs", ".antt"), ("proofs", ".antt")) for it in parts.under(f"{folder}/{part}", ending)]

    def of_crate(self, crate):
        """A checksum of a crate's files and its line of crates.txt, and the words in these."""
        if crate not in self.known:
            told = [self.uses[crate][1], *[it for path in self.files_of(crate) for it in (os.path.relpath(path, self.root), parts.read(path))]]
            self.known[crate] = sum_of(*told), grounds.words_of("\n".join(told))
        return self.known[crate]

    def of_edit(self, crate, edit):
        """The checksums of an edit's text, and of what its refusal rests on in its crate and in those below it."""
        if crate not in self.grounds:
            self.promised = self.promised or promises.Promises(self.root)
            self.grounds[crate] = grounds.Grounds(self.promised, crate, self.below(crate))
        inside, below = self.grounds[crate].of_edit(edit) or self.of_whole_crate(crate, edit)
        return f"{sum_of(edit.text)} {sum_of(inside)} {sum_of(below)}"

    def of_whole_crate(self, crate, edit):
        """What a refusal rests on at most: its whole crate, and what the crates below state under names that stand in this or in the edit."""
        below, (of_crate, words) = {*self.below(crate)}, self.of_crate(crate)
        words = words | grounds.words_of(edit.text)
        return of_crate, self.promised.sum_of(self.promised.reached(self.promised.named_by(words, None, below), words, None, below))

    def lines_of(self, crate):
        """How many lines a crate has that are proved once more for its first edit."""
        return sum(parts.read(path).count("\n") for path in self.files_of(crate))


def read(root):
    """The checksums that the file has for each edit."""
    path = f"{root}/{PLACE}"
    lines = parts.read(path).split("\n") if os.path.isfile(path) else []
    told = [line.partition(" ") for line in lines if line and not line.startswith("#")]
    return {label: sums for label, _, sums in told}


def write(root, lines):
    """Writes the file anew where it says something else."""
    text = HEAD + "".join(f"{label} {sums}\n" for label, sums in sorted(lines.items()))
    path = f"{root}/{PLACE}"
    if not os.path.isfile(path) or parts.read(path) != text:
        os.makedirs(os.path.dirname(path), exist_ok=True)
        with open(f"{path}.new", "w", encoding="utf-8") as it:
            it.write(text)
        os.replace(f"{path}.new", path)


def seed_of(root, lines):
    """What draws: the commit, or a checksum of the lines where there is none."""
    told = subprocess.run(["git", "-C", root, "rev-parse", "HEAD"], capture_output=True, text=True, check=False)
    return told.stdout.strip() if told.returncode == 0 else sum_of(*sorted(f"{label} {sums}" for label, sums in lines.items()))


def chance(seed, word):
    """A number above 0 and below 1 that a seed gives a word."""
    return (int(sum_of(seed, word), 16) + 1) / (16**20 + 2)


def drawn(seed, covered, sums):
    """The ten edits that are tried again though their lines hold: of one crate, and of those below it where it has fewer.

    A crate's chance grows with how many draws its lines need, and falls with the root of the number of lines that are proved for its first edit. So a
    dear crate is seldom drawn, and each line's turn comes.
    """
    weights = {crate: max(len(edits), DRAWN) / sums.lines_of(crate) ** 0.5 for crate, edits in covered.items() if edits}
    if not weights:
        return []
    # (the greatest of these is drawn in proportion to its weight)
    first = max(weights, key=lambda it: chance(seed, it) ** (min(weights.values()) / weights[it]))
    found = []
    for crate in [first, *[it for it in reversed(sums.below(first)) if it in covered]]:
        found += sorted(covered[crate], key=lambda it: chance(seed, it.label))[: DRAWN - len(found)]
    return found
