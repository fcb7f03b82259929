"""The blocks of code that pages show: runs with what they print, commands, and pieces of files.

A run begins with `$ ` and a command; behind it stands what the command prints, in which a line `..` stands for lines that are left out.
A block of commands has nothing but commands. Any other block stands in the file that the paragraph before it names last.
"""
import os
import re

from crates import ROOT

PAGES = ("README.md", "docs/TUTORIAL.md", "docs/SCRIPTS.md", "docs/HOSTILE.md")
BLOCK = re.compile(r"(?:^    .*\n|^\n(?=    ))+", re.M)
COMMAND = re.compile(r"(\./run\.sh|\./test\.sh|tools/[a-z_]+|\(cd crates/[a-z_]+; rt|rt)( |$)")
SCRIPT = re.compile(r"\./run\.sh (race --relayers [1-8] )?([\w./-]+)")
EXPLAINED = re.compile(r"\./run\.sh lab explain ([\w./-]+)")
CASES = re.compile(r"\(cd crates/ibc_cases; rt try -- ([\w./-]+)\)")
NAMED = re.compile(r"`(\.?[a-z][\w-]*(?:/[\w.-]+)+)`")
LEFT_OUT = ".."


def read(path):
    with open(os.path.join(ROOT, path), encoding="utf-8") as file:
        return file.read()


def blocks(page):
    """The blocks of code of a page: the text before each, and its lines."""
    text = read(page)
    for found in BLOCK.finditer(text):
        lines = [it.removeprefix("    ") for it in found[0].strip("\n").split("\n")]
        yield text[: found.start()], lines


def run_of(command):
    """The run that a command shows: the program, its words, and what it is given. None where it isn't one of those that a page can show."""
    of_script = SCRIPT.fullmatch(command)
    if of_script and os.path.isfile(os.path.join(ROOT, of_script[2])):
        return "ibcworld", tuple((of_script[1] or "run").split()), read(of_script[2]).encode()
    explained = EXPLAINED.fullmatch(command)
    if explained and os.path.isfile(os.path.join(ROOT, explained[1])):
        return "ibclab", ("explain", os.path.join(ROOT, explained[1])), b""
    if of_cases := CASES.fullmatch(command):
        return "ibc_cases", (of_cases[1],), b""
    return None


def command_of(lines):
    """The command of a block that shows a run."""
    return lines[0].removeprefix("$ ").partition("  #")[0].strip()


def runs(pages=PAGES):
    """The runs that pages show."""
    shown = [run_of(command_of(lines)) for page in pages for _, lines in blocks(page) if lines[0].startswith("$ ")]
    return [it for it in shown if it]


def pieces(shown):
    """The runs of lines between those that are left out, the first and the last perhaps empty."""
    found = [[]]
    for line in shown:
        if line == LEFT_OUT:
            found.append([])
        else:
            found[-1].append(line)
    return found


def place_of(piece, lines, begin):
    """Where lines stand one behind another from a place on, or none."""
    return next((k for k in range(begin, len(lines) - len(piece) + 1) if lines[k : k + len(piece)] == piece), None)


def is_shown(shown, lines):
    """Whether what is shown is what is printed, but for what is left out."""
    first, *middle = pieces(shown)
    if not middle:
        return first == lines
    *middle, last = middle
    at = len(first)
    if lines[:at] != first:
        return False
    for piece in middle:
        place = place_of(piece, lines, at)
        if place is None:
            return False
        at = place + len(piece)
    return len(lines) - len(last) >= at and lines[len(lines) - len(last) :] == last


def run_fault(lines, ended_of):
    """What is wrong with a run that a page shows, by how such a run ended."""
    run = run_of(command_of(lines))
    ended = ended_of(run) if run else None
    if not ended or ended.status != 0 or ended.err:
        return "it isn't run, or doesn't end well"
    return "" if is_shown(lines[1:], ended.out.decode("utf-8", "replace").split("\n")[:-1]) else "it doesn't print what the page shows"


def command_fault(line):
    """What is wrong with a command: what it names isn't there."""
    names = re.findall(r"[\w.-]+(?:/[\w.-]+)+|tools/\w+", line.partition("#")[0])
    return next((f"no file {it}" for it in names if not os.path.exists(os.path.join(ROOT, it))), "")


def quote_fault(before, lines):
    """What is wrong with a piece of a file: it isn't there as it stands in the file that was named last."""
    named = [it for it in NAMED.findall(before) if any(os.path.isfile(os.path.join(ROOT, it + ending)) for ending in ("", ".antt", ".rt"))]
    if not named:
        return "no file is named of which it is a piece"
    path = next(named[-1] + ending for ending in ("", ".antt", ".rt") if os.path.isfile(os.path.join(ROOT, named[-1] + ending)))
    whole = [it.rstrip() for it in read(path).split("\n")]
    return "" if place_of([it.rstrip() for it in lines], whole, 0) is not None else f"it isn't in {path}"


def faults(page, ended_of):
    """Each block of a page: its first line, and what is wrong with it. How a run ended, a function tells."""
    for before, lines in blocks(page):
        if lines[0].startswith("$ "):
            wrong = run_fault(lines, ended_of)
        elif all(COMMAND.match(it) for it in lines if it):
            wrong = next((it for it in map(command_fault, filter(None, lines)) if it), "")
        else:
            wrong = quote_fault(before.rpartition("\n## ")[2], lines)
        yield f"{page}: {lines[0]}", wrong
