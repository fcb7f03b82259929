"""The wrong bodies of a crate: its files *.edit, and what each changes in the crate's files.

An edit is lines `file: PATH`, and pairs `old: TEXT`, `new: TEXT`, each one line. Each old text stands once in its file as the pairs before left it.
"""
import os
import re

WORD = re.compile(r"(file|old|new):(?: (.*))?")


class Wrong(Exception):
    """Why an edit can't be applied."""


def read_text(path):
    """The text of a file, with the line ends that it has."""
    with open(path, encoding="utf-8", newline="") as it:
        return it.read()


def pairs_of(text):
    """The triples file, old text and new text of an edit."""
    file, old, found = None, None, []
    for line in text.splitlines():
        told = WORD.fullmatch(line)
        if not told:
            if line.strip():
                raise Wrong(f"a line is none of an edit: {line[:80]}")
            continue
        word, rest = told[1], told[2] or ""
        if word == "file":
            file = rest.strip()
        elif word == "old":
            if old is not None:
                raise Wrong("an old text has no new one")
            old = rest
        elif file is None or old is None:
            raise Wrong("a new text has no file or no old text")
        else:
            found.append((file, old, rest))
            old = None
    if old is not None or not found:
        raise Wrong("an old text has no new one" if found or old is not None else "it changes nothing")
    return found


def texts_of(folder, text):
    """The texts of a crate's files that an edit changes, as it leaves them."""
    texts = {}
    for file, old, new in pairs_of(text):
        path = os.path.normpath(file)
        if path.startswith("..") or os.path.isabs(path) or path.partition(os.sep)[0] not in ("src", "specs", "proofs"):
            raise Wrong(f"{file} is no file of the crate's src/, specs/ or proofs/")
        if path not in texts and not os.path.isfile(f"{folder}/{path}"):
            raise Wrong(f"there is no {file}")
        before = texts[path] if path in texts else read_text(f"{folder}/{path}")
        count = before.count(old) if old else 0
        if count != 1:
            raise Wrong(f"the old text stands {count} times in {file}: {old.strip()[:80]}")
        texts[path] = before.replace(old, new)
    return texts


class Edit:
    """A wrong body: what it makes of which files, and, where it lies in one function's body, that function and the place there."""

    def __init__(self, crate, folder, file, functions):
        self.file, self.label = file, f"{crate}/{os.path.relpath(file, folder)[:-5]}"
        self.text, self.why, self.function, self.called = read_text(file), None, None, None
        try:
            self.texts = texts_of(folder, self.text)
        except Wrong as it:
            self.texts, self.why = {}, str(it)
        if len(self.texts) != 1:
            return
        (self.path, new), = self.texts.items()
        self.old = read_text(f"{folder}/{self.path}")
        self.start = len(os.path.commonprefix([self.old, new]))
        same = len(os.path.commonprefix([self.old[self.start :][::-1], new[self.start :][::-1]]))
        self.end, self.new = len(self.old) - same, new[self.start : len(new) - same]
        around = [it for it in functions if it.path == self.path and it.body[0] <= self.start and self.end <= it.body[1]]
        if len(around) == 1 and self.old.count("\n", self.start, self.end) == self.new.count("\n"):
            self.function = around[0]

    def holds(self, path, line):
        """Whether a line of a file lies in the function that it changes, or, where that is none, in a file that it changes."""
        if self.function is None:
            return path in self.texts
        return path == self.path and self.function.lines[0] <= line <= self.function.lines[1]


def together(edits):
    """The texts of the files with all these edits, which change different functions; or those of one edit of any kind."""
    if len(edits) == 1:
        return edits[0].texts
    texts = {}
    for edit in sorted(edits, key=lambda it: -it.start):
        text = texts.get(edit.path, edit.old)
        texts[edit.path] = text[: edit.start] + edit.new + text[edit.end :]
    return texts


def edits_in(crate, folder, places, functions):
    """The edits of a crate in these folders of it, in order."""
    files = sorted(f"{folder}/{at}/{it}" for at in places if os.path.isdir(f"{folder}/{at}") for it in os.listdir(f"{folder}/{at}") if it.endswith(".edit"))
    return [Edit(crate, folder, it, functions) for it in files]
