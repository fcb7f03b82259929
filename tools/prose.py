"""The words of the documents: sentences and cells of tables, and how long they are."""
import re

# In pages and headers no sentence is longer than LONGEST words, and on the average AVERAGE at most.
LONGEST = 45
AVERAGE = 25


def blocks(text):
    """The paragraphs, items of lists and cells of tables of a page, each as one line. Code and headings are none."""
    text = re.sub(r"(?ms)^```.*?^```$", "", text)
    found, open_one = [], []

    def close():
        if open_one:
            found.append((" ".join(open_one), False))
            open_one.clear()

    for line in text.split("\n"):
        is_code = line.startswith("    ") and not open_one
        if is_code or not line.strip() or line.startswith("#"):
            close()
        elif line.lstrip().startswith("|"):
            close()
            cells = [it.strip() for it in re.split(r"(?<!\\)\|", line.strip().strip("|"))]
            found += [(it, True) for it in cells if not re.fullmatch(r"[-: ]*", it)]
        else:
            if re.match(r"\s*([-*]|\d+\.)\s", line):
                close()
            open_one.append(re.sub(r"^\s*([-*]|\d+\.)\s+", "", line).strip())
    close()
    return found


def comments(text):
    """The comments of a header as a page: a paragraph each."""
    found = re.findall(r"/\*(.*?)\*/", text, re.S)
    return "\n\n".join("\n".join(line.strip() for line in it.split("\n")) for it in found)


def plain(block):
    """A block without the marks of links and stress; code counts as one word."""
    block = re.sub(r"\[([^\]]*)\]\([^)]*\)", r"\1", block)
    block = re.sub(r"`[^`]*`", "Code", block)
    return re.sub(r"[*_]{1,2}", "", block)


def sentences(block):
    """The sentences of a block."""
    return [it for it in re.split(r"(?<=[.!?])[)\"']*\s+(?=[A-Z0-9(\"'])", plain(block)) if it.strip()]


def length(text):
    """How many words a text has."""
    return len([it for it in text.split() if re.search(r"\w", it)])


def longest_sentence(text):
    """The longest sentence of a page, and how many words it has."""
    found = [it for block, _ in blocks(text) for it in sentences(block)]
    return max(((length(it), it) for it in found), default=(0, ""))


def average(text):
    """How many words a sentence of a page has on the average, cells of tables left out."""
    found = [length(it) for block, is_cell in blocks(text) if not is_cell for it in sentences(block)]
    return sum(found) / max(len(found), 1)


def longest_cell(text):
    """The longest cell of a page's tables, and how many words it has."""
    return max(((length(plain(block)), block) for block, is_cell in blocks(text) if is_cell), default=(0, ""))


def too_long(text):
    """The sentences of a page that have more words than LONGEST."""
    found = [it for block, _ in blocks(text) for it in sentences(block)]
    return [it for it in found if length(it) > LONGEST]
