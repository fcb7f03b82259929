"""Numbers of pages that come from elsewhere: the sums of the files in docs/figures, the answers of cases, the gate's own numbers, the kit,
and what is counted. Other numbers are compared by tools/check_docs."""
import re

from counts import all_counts, wrong_numbers
from shown import read

HOSTILE, README = "docs/HOSTILE.md", "README.md"
# Pages in which what is counted is compared, beside those of page_checks.
COUNTED = ("docs/TUTORIAL.md", "docs/SCRIPTS.md", HOSTILE, "docs/ARCHITECTURE.md")
# Of each file of figures: its lines, and the numbers of these whose sums HOSTILE has.
FIGURES = {
    "refuse_growths": r"^\S+: (\d+) allocations, (\d+) runs; no memory: (\d+), a step refused: (\d+), nothing changed: (\d+); failed: 0$",
    "refuse_by_call": r"^\S+: (\d+) allocations; .*; failed: 0$",
    "broken_streams": r"^\S+: (\d+) failing reads, (\d+) failing writes; failed: 0$",
    "wrong_bytes": r"^(\d+) passed, 0 failed$",
}


def words_of(page):
    """The page with one blank between its words."""
    return re.sub(r"\s+", " ", read(page))


def sums_of(name):
    """The sums of a file of figures."""
    rows = re.findall(FIGURES[name], read(f"docs/figures/{name}.txt"), re.M)
    rows = [it if isinstance(it, tuple) else (it,) for it in rows]
    return [sum(map(int, column)) for column in zip(*rows)] or [0]


def sums():
    """Each sum of a file of figures, which HOSTILE has."""
    page = words_of(HOSTILE)
    for name in FIGURES:
        for number in sums_of(name):
            is_there = number and re.search(rf"(?<![\d,]){number:,}(?![\d,])", page)
            yield f"{HOSTILE}: {number:,} of docs/figures/{name}.txt", "" if is_there else "the page doesn't have it"


def stored():
    """What the gate compares of each case: what it prints, by its title."""
    parts = re.split(r"(?m)^# ", read("crates/ibc_cases/stdout"))
    return {title: said for title, _, said in (it.partition("\n") for it in parts)}


def attacks():
    """Each line of HOSTILE's table of attacks: the cases that it names have each answer that it tells."""
    said, tried = stored(), []
    for attack, answers, named in re.findall(r"(?m)^\| ([^|]+) \| ([^|]+) \| ([^|]+) \|$", read(HOSTILE)):
        files = re.findall(r"`(\w+)`", named)
        tried = [*(tried if named.startswith("the same") else []), *files]
        titles = [it for file in tried for it in re.findall(r"(?m)^# (.*)", read(f"crates/ibc_cases/data/{file}.txt"))]
        lines = "\n".join(said.get(it, "") for it in titles)
        if numbers := re.findall(r"\b(\d+) `[A-Z]", answers):
            lacking = [it for it in numbers if not re.search(rf"\bno {it}\b", lines)]
            yield f"{HOSTILE}: {attack}", f"no case of {', '.join(tried)} is answered {', '.join(lacking)}" if lacking else ""


def sent():
    """How many messages with wrong bytes the gate sends, as cases and by a tool."""
    lines = re.findall(r"^wrong bytes \d+ (\d+)$", read("crates/ibc_cases/data/wrong_bytes.txt"), re.M)
    by_tool = re.search(r"tools/wrong_bytes --count (\d+)", read("test.sh"))[1]
    said = f"sends {sum(map(int, lines)):,} as cases of `ibc_cases`, and {int(by_tool):,} by this tool"
    yield f"{HOSTILE}: {said}", "" if said in words_of(HOSTILE) else "the page doesn't say so"


def kit():
    """The kit with which the proofs are checked, as the gate's file of verdicts has it."""
    name, logic = re.search(r"^kit (\S+) logic (\w+)$", read("tests/trust.txt"), re.M).groups()
    is_there = f"`{name}` (logic `{logic}`)" in words_of(README)
    yield f"{README}: {name}, {logic}", "" if is_there else "the page names another kit, or none"


def counted():
    """What is counted of the repository."""
    counts = all_counts()
    for page in COUNTED:
        yield f"{page}: what is counted", "; ".join(wrong_numbers(read(page), counts))


def faults():
    """Each number, and what is wrong with it."""
    for part in (sums, attacks, sent, kit, counted):
        yield from part()
