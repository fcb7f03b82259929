"""What the documents say beside names: numbers, printed lines, the theorem's text, the list of files to read, and long sentences."""
import os
import re

import page_numbers
import prose
from counts import THEOREM, all_counts, corrected, definitions, wrong_numbers
from crates import ROOT, uses

# How many words the README and the pages of docs may have, but for PERF, which tells a work's whole story.
WORDS = 30_000
STORIES = ("docs/PERF.md",)
# What the first command of the README prints.
PRINTED = "tests/explained/relay.txt"


def text_of(path):
    with open(os.path.join(ROOT, path), encoding="utf-8") as it:
        return it.read()


def code_blocks(text):
    """The blocks of code of a page, without their indentation."""
    for block in re.findall(r"(?m)(?:^    .*\n|^\n(?=    ))+", text):
        yield re.sub(r"(?m)^    ", "", block).strip("\n")


def numbers():
    """Each number in a page that isn't what is counted."""
    counted = all_counts()
    for page in page_numbers.PAGES:
        yield from (f"{page}: {it}" for it in wrong_numbers(text_of(page), counted))


def write_numbers():
    """Writes into the pages the numbers of what is counted, where they differ."""
    counted = all_counts()
    for page in page_numbers.PAGES:
        text = text_of(page)
        if corrected(text, counted) != text:
            with open(os.path.join(ROOT, page), "w", encoding="utf-8") as it:
                it.write(corrected(text, counted))


def compared():
    """Each number of a page that isn't what another tool or the source says, and each that nothing compares."""
    yield from page_numbers.faults()
    yield from (f"nothing compares {it}" for it in page_numbers.uncompared())


def table(page, first):
    """The lines of a block of code of a page that begins with a word, but for its head."""
    found = next((it for it in code_blocks(text_of(page)) if it.startswith(f"{first} ")), "")
    return found.split("\n")[1:]


def speed():
    """Each line of SPEED's table of scripts with a number that the file of figures doesn't have."""
    rows = [it.split() for it in text_of("docs/figures/speed.txt").split("\n")]
    lines = [it.split() for it in table("docs/SPEED.md", "script")]
    lost = [it for it in lines if not any(row[:2] == it[:2] and {*it} <= {*row} for row in rows)]
    yield from (f"docs/SPEED.md: docs/figures/speed.txt has no such line: {' '.join(it)}" for it in lost)
    if not lines:
        yield "docs/SPEED.md: the table of scripts is missing"


def perf():
    """Each row of numbers in PERF's tables that no row of the file of figures has: the same name, and these numbers in this order."""
    of_numbers = lambda text: re.findall(r"(?<![\w.])\d[\d,.]*", text)
    rows = [re.split(r"  +", it) for it in text_of("docs/figures/perf.txt").split("\n")]
    for row in re.findall(r"(?m)^\| .*\|$", text_of("docs/PERF.md")):
        name, *cells = [it.strip(" `") for it in row.strip("|").split("|")]
        told = [it for it in cells if re.fullmatch(r"[\d,.]+(?: \(.*\))?", it)]
        if told and not any(it[0] == name and [*map(of_numbers, told)] == [*filter(None, map(of_numbers, it[1:]))] for it in rows):
            yield f"docs/PERF.md: docs/figures/perf.txt has no such row: {row}"


def theorem():
    """Whether the README has the theorem as it stands in its file."""
    lines = text_of(THEOREM).split("\n")
    begin = next(k for k, line in enumerate(lines) if line.startswith("pub record IsLawful "))
    if "\n".join(lines[begin:]).strip("\n") not in list(code_blocks(text_of("README.md"))):
        yield f"README.md: the theorem isn't as in {THEOREM}"


def printed():
    """Each line of the README's first run that the program doesn't print, in its order."""
    lines = text_of(PRINTED).strip("\n").split("\n")
    if f"of {len(lines)} lines" not in text_of("README.md"):
        yield f"README.md: the first run prints {len(lines)} lines ({PRINTED})"
    left = iter(lines)
    block = next(it for it in code_blocks(text_of("README.md")) if it.startswith("$ ./run.sh"))
    for line in block.split("\n")[1:]:
        if line != ".." and line not in left:
            yield f"README.md: the program doesn't print '{line}' there ({PRINTED})"


def reading():
    """Each file of definitions behind the theorem that READING doesn't list, each that it lists beside them, and each sum of minutes that is wrong."""
    files = [it.removeprefix("crates/").removesuffix(".antt") for it in definitions()[0]]
    text = text_of("docs/READING.md")
    listed = re.findall(r"(?m)^- `(ibc_\w+/specs/[\w/]+)` \(\d+\):", text)
    yield from (f"docs/READING.md: {it} isn't listed" for it in files if it not in listed)
    yield from (f"docs/READING.md: {it} isn't behind the theorem" for it in listed if it not in files)
    hours = 0
    for title, minutes, part in re.findall(r"(?ms)^### ([^\n]*): (\d+) minutes$(.*?)(?=^##)", text):
        found = sum(map(int, re.findall(r"(?m)^- `ibc_[^`]*` \((\d+)\):", part)))
        hours += found / 60
        if found != int(minutes):
            yield f"docs/READING.md: {title}: the files take {found} minutes"
    told = re.search(r"some\s+(\w+)\s+hours", text)
    if not told or told.group(1) != dict(enumerate("no one two three four five six seven eight nine ten".split())).get(round(hours)):
        yield f"docs/READING.md: the files take {hours:.1f} hours"


def laws():
    """Each law of the page for which READING has no run, and each run for what is none."""
    record = text_of(THEOREM).partition("pub record IsLawful ")[2]
    found = re.findall(r"(?m)^  pub (\w+) :", record)
    rows = re.findall(r"(?m)^\| ((?:`\w+`(?:, )?)+) \|", text_of("docs/READING.md").partition("| law (`IsLawful`)")[2])
    told = re.findall(r"`(\w+)`", " ".join(rows))
    yield from (f"docs/READING.md: no run for the law {it}" for it in found if it not in told)
    yield from (f"docs/READING.md: {it} is no law of the page" for it in told if it not in found)


def verdict_words():
    """Each word of the prover's verdicts that TRUST doesn't explain."""
    for word in sorted(set(re.findall(r" ([a-z-]+=)", text_of("tests/trust.txt")))):
        if word not in text_of("docs/TRUST.md"):
            yield f"docs/TRUST.md: the word {word} of a verdict isn't explained"


def libraries():
    """Each library of the kit that a crate names, and that TRUST doesn't."""
    found = uses()
    for name in sorted({it for names in found.values() for it in names if it not in found}):
        if f"`{name}`" not in text_of("docs/TRUST.md"):
            yield f"docs/TRUST.md: the library {name} of the kit isn't named"


def measured():
    """The pages and headers whose sentences are measured, each with its text. What a tool writes has lists that are no sentences."""
    yield from ((it, text_of(it)) for it in page_numbers.PAGES if it not in page_numbers.WRITTEN)
    yield from ((f"include/{it}", prose.comments(text_of(f"include/{it}"))) for it in sorted(os.listdir(f"{ROOT}/include")))


def sentences():
    """Each sentence that is too long, and each page or header whose sentences are too long on the average."""
    for page, text in measured():
        for it in prose.too_long(text):
            yield f"{page}: {prose.length(it)} words, and at most {prose.LONGEST} are allowed: {it[:60]} .."
        if prose.average(text) > prose.AVERAGE:
            yield f"{page}: {prose.average(text):.1f} words a sentence, and at most {prose.AVERAGE} are allowed"


def words():
    """How many words the README and the pages of docs have, but for the stories."""
    pages = ["README.md", *(it for it in page_numbers.PAGES if it.startswith("docs/") and it not in STORIES)]
    return len(pages), sum(len(text_of(it).split()) for it in pages)


def size():
    """Whether these are too many."""
    _, count = words()
    if count > WORDS:
        yield f"the README and the pages of docs have {count:,} words, and at most {WORDS:,} are allowed: say a thing once, and link"


def faults():
    """All of it."""
    for part in (numbers, compared, speed, perf, theorem, printed, reading, laws, verdict_words, libraries, sentences, size):
        yield from part()


def lengths():
    """A line for each page that is measured: its longest sentence and its longest cell. And one for the words of all pages."""
    for page, text in measured():
        yield f"{page}: {prose.average(text):.1f} words a sentence, longest {prose.longest_sentence(text)[0]}, longest cell {prose.longest_cell(text)[0]}"
    count, found = words()
    yield f"the README and {count - 1} pages of docs have {found:,} words, of {WORDS:,}; not counted: {', '.join(STORIES)}"
