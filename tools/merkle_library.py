"""An RFC 6962 library that isn't this project's: Debian's golang-github-nebulouslabs-merkletree-dev, called by tools/third_party.go."""
import hashlib
import os
import random
import shutil
import subprocess
import sys

from crates import ROOT

LEFT_OUT = 77  # the status where nothing was tried
GOPATH = "/usr/share/gocode"
LIBRARY = "github.com/NebulousLabs/merkletree"
PACKAGES = "golang-go golang-github-nebulouslabs-merkletree-dev"


def built(folder):
    """The program over the library, built into a folder; or why there is none."""
    if not shutil.which("go"):
        return None, "Go isn't installed"
    if not os.path.isdir(f"{GOPATH}/src/{LIBRARY}"):
        return None, f"the library {LIBRARY} isn't installed"
    around = {**os.environ, "GO111MODULE": "off", "GOPATH": GOPATH, "GOCACHE": f"{folder}/cache", "GOFLAGS": ""}
    words = ["go", "build", "-o", f"{folder}/judge", f"{ROOT}/tools/third_party.go"]
    it = subprocess.run(words, env=around, capture_output=True, text=True)
    return (f"{folder}/judge", "") if it.returncode == 0 else sys.exit(f"{sys.argv[0]}: Go doesn't build it:\n{it.stderr}")


def leaf(key, value):
    """The data of a leaf: the varint of the key's length, the key, and the digest of the value as a part of 32 bytes."""
    size, length = len(key), b""
    while size >= 0x80:
        length += bytes([size & 0x7F | 0x80])
        size >>= 7
    return length + bytes([size]) + key + b"\x20" + hashlib.sha256(value).digest()


def sibling(operation):
    """The hash beside the child of an operation, which is a prefix and a suffix."""
    prefix, suffix = operation
    return suffix or prefix[1:]


def turned(asked, luck):
    """The same question with one bit turned, of the root or of one of the parts."""
    kind, root, words, parts = asked
    parts = [root, *parts]
    which = luck.randrange(len(parts))
    bit = luck.randrange(8 * len(parts[which]))
    changed = bytearray(parts[which])
    changed[bit // 8] ^= 1 << bit % 8
    parts[which] = bytes(changed)
    return kind, parts[0], words, parts[1:]


def answers(program, questions):
    """What the library says to each question: a kind (`root` or `proof`), a root, words and parts, as tools/third_party.go has them."""
    lines = (" ".join([kind, root.hex(), *words, *(it.hex() for it in parts)]) + "\n" for kind, root, words, parts in questions)
    said = subprocess.run([program], input="".join(lines), capture_output=True, text=True, check=True).stdout.split()
    return [it == "yes" for it in said]


def luck():
    """The same luck each time."""
    return random.Random(1)
