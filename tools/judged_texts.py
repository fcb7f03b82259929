"""The texts of the cases that are judged (`> texts`), whose titles say whether they are scripts."""
import glob
import os

from crates import ROOT


def judged_texts():
    """The judged texts: file, line, text, and whether it is a script."""
    for path in sorted(glob.glob(os.path.join(ROOT, "crates/ibc_cases/data/*.txt"))):
        wanted = front = back = None
        for number, line in enumerate(open(path, "rb").read().split(b"\n"), 1):
            if line.startswith(b"# "):
                front = None
                wanted = not line.endswith(b"no scripts") if line.endswith(b"scripts") else None
            elif line.startswith(b"> texts "):
                front, back = line.removeprefix(b"> texts ").split(b"~")
            elif line and not line.startswith(b"> ") and front is not None and wanted is not None:
                yield f"{os.path.basename(path)}:{number}", front + line + back, wanted
