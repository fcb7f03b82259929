"""What can be counted of the repository, for what the documents say of it."""
import functools
import glob
import os
import re

from crates import ROOT, uses

# Where the theorem stands, and with it all that one has to read to believe it.
THEOREM = "crates/ibc_world_core/specs/EveryWorld.antt"
# A document's `about N` may be so far off.
ROUNDED = 0.05


def lines_of(*patterns):
    """The lines of all files that a pattern names, under the top."""
    found = sorted({it for one in patterns for it in glob.glob(f"{ROOT}/{one}", recursive=True)})
    for path in found:
        if os.path.isfile(path) and "/out/" not in path:
            with open(path, encoding="utf-8", errors="replace") as it:
                yield from it


def imported(path):
    """The modules that a file of definitions imports, by their whole names."""
    with open(f"{ROOT}/{path}", encoding="utf-8") as it:
        return re.findall(r"(?m)^\s*(?:pub )?use ([\w.+]*\w)", it.read())


def definitions(*begin):
    """The files of definitions behind others, these first, each where it is met first. And the types of the code that they name."""
    files, types, queue = [], set(), list(begin or [THEOREM])
    while queue:
        path = queue.pop(0)
        if path in files:
            continue
        files.append(path)
        for name in imported(path):
            top, crate, kind, *rest = (name.split(".") + ["", ""])[:3] + name.split(".")[3:]
            if top != "Rattle" or not os.path.isdir(f"{ROOT}/crates/{crate}"):
                continue
            if rest and rest[0] == "declared":
                types.add(re.sub(r"\.TheVariants$", "", name))
            elif kind == "specs" and rest[:1] != ["contracts"]:
                queue.append(f"crates/{crate}/specs/{'/'.join(rest)}.antt")
    return files, sorted(types)


def says_something(line):
    """Whether a line of definitions is more than a blank, a comment or an import."""
    return not re.match(r"\s*(--|use |pub use |$)", line)


def refusals():
    """How many refusals there are: the numbers of the enum."""
    return sum(1 for line in lines_of("crates/ibc_ids/src/refusal.rt") if re.match(r"\s+\w+ = \d+,", line))


@functools.lru_cache
def all_counts():
    """Each thing that the documents count, by the words behind the number."""
    files, types = definitions()
    read = list(lines_of(*files))
    exports = sum(1 for line in lines_of("crates/ibc_c/src/**/*.rt") if "unsafe(no_mangle)" in line)
    return {
        "crates": len(uses()),
        "calls": exports,
        "refusals": refusals(),
        "kinds of messages": sum(1 for line in lines_of("crates/ibc_machine/specs/chain/Handlers.antt") if re.match(r"handle \(message\.", line)),
        "wrong bodies": len(glob.glob(f"{ROOT}/crates/*/wrong/*.edit")) + len(glob.glob(f"{ROOT}/crates/*/must-fail/*.edit")),
        "lines of code": sum(1 for _ in lines_of("crates/*/src/**/*.rt")),
        "lines of definitions": sum(1 for _ in lines_of("crates/*/specs/**/*.antt")),
        "lines of proof": sum(1 for _ in lines_of("crates/*/proofs/**/*.antt")),
        "lines of cases": sum(1 for _ in lines_of("crates/*/data/**/*")),
        "files of definitions": len(files),
        "lines in them": len(read),
        "lines define": sum(1 for line in read if says_something(line)),
        "types of the code": len(types),
    }


def wrong_numbers(text, counted):
    """Each number in a text that isn't what is counted. A number behind `about` may be rounded."""
    for noun, number in counted.items():
        for about, told in re.findall(rf"(?i)\b(about )?([1-9][\d,]*)\s+{noun}\b(?!\.\w)", re.sub(r"\s+", " ", text)):
            said = int(told.replace(",", ""))
            if said != number if not about else abs(said - number) > ROUNDED * number:
                yield f"it says {about}{told} {noun}, and there are {number:,}"


def rounded(number):
    """A number with as few digits as `about` allows."""
    for digits in range(1, len(str(number)) + 1):
        step = 10 ** (len(str(number)) - digits)
        near = (number + step // 2) // step * step
        if abs(near - number) <= ROUNDED * number:
            return near


def corrected(text, counted):
    """The text with each number as it is counted, where it isn't."""
    for noun, number in counted.items():
        def written(found):
            right = rounded(number) if found[1] else number
            return found[0] if not list(wrong_numbers(found[0], {noun: number})) else f"{found[1] or ''}{right:,}{found[3]}"

        text = re.sub(rf"(?i)\b(about\s+)?([\d,]*\d)(\s+{noun.replace(' ', chr(92) + 's+')})\b", written, text)
    return text
