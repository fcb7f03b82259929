"""Files of journals, as sqlite3 sees them and as they are harmed."""
import os
import shutil
import sqlite3
import subprocess

TABLES = """CREATE TABLE meta(format INTEGER PRIMARY KEY, genesis BLOB NOT NULL) STRICT;
CREATE TABLE entries(place INTEGER PRIMARY KEY, chain INTEGER NOT NULL, kind INTEGER NOT NULL, log_place INTEGER NOT NULL, event BLOB NOT NULL, answer BLOB NOT NULL, digest BLOB NOT NULL) STRICT;
"""
COLUMNS = ("place", "chain", "kind", "log_place", "event", "answer", "digest")
ENTRIES = f"SELECT {', '.join(COLUMNS)} FROM entries ORDER BY place"
FILES = ("", "-wal", "-shm")
# What an accepted event gave, by its tag, where that is a text.
TEXTS = {2: "client", 3: "connection", 4: "channel", 6: "acknowledgement"}


def copy_files(path, copy):
    """Copies a journal with its log."""
    remove_files(copy)
    for ending in FILES:
        if os.path.exists(path + ending):
            shutil.copyfile(path + ending, copy + ending)


def remove_files(path):
    """Removes a journal with its log."""
    for ending in FILES:
        if os.path.exists(path + ending):
            os.remove(path + ending)


def journal_of(path, genesis, form, more=""):
    """Writes the tables of a journal of this format by sqlite3, and further statements."""
    file = sqlite3.connect(path)
    file.executescript(TABLES)
    with open(genesis, "rb") as text:
        file.execute("INSERT INTO meta VALUES (?, ?)", (form, text.read()))
    file.executescript(more)
    file.commit()
    file.close()


def write(path, content):
    with open(path, "wb") as file:
        file.write(content)


def mounted(folder, name, words):
    """A small disk in memory, or none where it can't be mounted."""
    disk = os.path.join(folder, name)
    os.mkdir(disk)
    ended = subprocess.run(["mount", "-t", "tmpfs", "-o", words, "tmpfs", disk], capture_output=True)
    return disk if ended.returncode == 0 else None


def change_file(path, text, values=()):
    """Changes a journal by sqlite3."""
    file = sqlite3.connect(path)
    with file:
        file.execute(text, values)
    file.close()


def rows(path, folder):
    """What sqlite3's integrity check says of a copy of a journal, and the entries of it."""
    copy = os.path.join(folder, "look.db")
    copy_files(path, copy)
    file = sqlite3.connect(copy)
    try:
        said = [row[0] for row in file.execute("PRAGMA integrity_check")]
        there = file.execute("SELECT name FROM sqlite_schema WHERE name = 'entries'").fetchall()
        return said, file.execute(ENTRIES).fetchall() if there else []
    finally:
        file.close()


def content(path):
    """What a file has: statements that make it again, or its bytes where it is no database."""
    file = sqlite3.connect(path)
    try:
        return list(file.iterdump())
    except sqlite3.DatabaseError:
        with open(path, "rb") as given:
            return given.read()
    finally:
        file.close()


def first_difference(one, other):
    """The first place where lists differ."""
    return next((at for at, (it, its) in enumerate(zip(one, other)) if it != its), min(len(one), len(other)))


def flipped(value, draw):
    """A number below 2^31, or bytes, with another bit."""
    if isinstance(value, int):
        return value ^ 1 << draw.randrange(31)
    at = draw.randrange(len(value))
    return value[:at] + bytes([value[at] ^ 1 << draw.randrange(8)]) + value[at + 1 :]


def told(answer):
    """What a line tells of an event whose entry has an answer of these bytes."""
    if answer[0] == 2:
        return {"no": answer[1]}
    tag, rest = answer[1], answer[2:]
    if tag == 1:
        return {"ok": {}}
    if tag == 5:
        return {"ok": {"sequence": int.from_bytes(rest[:8], "big")}}
    if tag == 7:
        return {"ok": {"height": int.from_bytes(rest[:8], "big"), "root": rest[8:40].hex()}}
    text = rest[2 : 2 + int.from_bytes(rest[:2], "big")]
    return {"ok": {TEXTS[tag]: text.hex() if tag == 6 else text.decode()}}
