"""The parts of this repository's files, by their text alone: the items of `.rt` files with their clauses, the definitions of `.antt` files.

Nothing is type-checked or proved here.
"""
import os
import re

OPEN, SHUT = "([{", ")]}"
QUOTED = re.compile(r'b?r(#*)".*?"\1|b?"(?:\\.|[^"\\])*"', re.DOTALL)
CHARACTER = re.compile(r"b?'(?:\\(?:x..|u\{[^}]*\}|.)|[^'\\\n])'")
WORD = re.compile(r"[A-Za-z_]\w*")


def read(path):
    """The text of a file."""
    with open(path, encoding="utf-8") as it:
        return it.read()


def under(folder, ending):
    """The paths of a folder's files with this ending, below it too, in order."""
    return sorted(f"{at}/{it}" for at, _, names in os.walk(folder) for it in names if it.endswith(ending))


def split(text, mark=","):
    """The parts of a text between marks that stand in no bracket; behind a letter `<` opens one."""
    depth, part, found = 0, "", []
    for piece in re.findall(r"->|=>|.", text, re.DOTALL):
        opens = piece in OPEN or piece == "<" and part[-1:].isalnum()
        shuts = piece in SHUT or piece == ">" and depth > 0
        depth += opens - shuts
        if piece == mark and depth == 0:
            found.append(part)
            part = ""
        else:
            part += piece
    return [it.strip() for it in [*found, part] if it.strip()]


# ---- .rt files

class Code:
    """A `.rt` file, or a text, with spaces in place of its comments. It knows where its strings are, and where a bracket is closed."""

    def __init__(self, path, text=None):
        self.path, self.text, self.literals = path, read(path) if text is None else text, {}
        at, out = 0, []
        comment = re.compile(r"//[^\n]*|/\*.*?\*/", re.DOTALL)
        while at < len(self.text):
            found = comment.match(self.text, at)
            if found:
                out.append(re.sub(r"[^\n]", " ", found.group()))
            else:
                found = None if re.match(r"[\w']", self.text[at - 1 : at]) else QUOTED.match(self.text, at) or CHARACTER.match(self.text, at)
                if found:
                    self.literals[at] = found.end()
                out.append(found.group() if found else self.text[at])
            at = found.end() if found else at + 1
        self.text = "".join(out)

    def shut(self, at):
        """The place behind the bracket that closes the one that stands here."""
        depth = 0
        while at < len(self.text):
            if at not in self.literals:
                depth += (self.text[at] in OPEN) - (self.text[at] in SHUT)
                if depth == 0:
                    return at + 1
            at = self.literals.get(at, at + 1)
        return at

    def first(self, at, end, wanted):
        """The first place from here on, in no bracket, at which `wanted` stands."""
        while at < end and not wanted.match(self.text, at):
            word = WORD.match(self.text, at)
            if at in self.literals or not word:
                at = self.literals.get(at) or (self.shut(at) if self.text[at] in OPEN else at + 1)
            else:
                at = word.end()
        return min(at, end)

    def line(self, at):
        """The number of the line of a place."""
        return self.text.count("\n", 0, at) + 1


class Item:
    """An item: its kind and name; its head, as places; its clauses; its body, as places, or None; the items in it."""

    def __init__(self, code, kind, name, public, attributes, start):
        self.code, self.kind, self.name, self.public, self.attributes, self.start = code, kind, name, public, attributes, start
        self.clauses, self.items, self.body = [], [], None

    def text(self):
        """The text of its head; of an import, a constant or a ghost member, of all behind the first word."""
        return self.code.text[slice(*self.head)]


SPACE = re.compile(r"\s*")
SHOWN = re.compile(r"pub\b(\s*\((?:crate|super|self|in [^)]*)\))?\s*")
KIND = re.compile(r'(?:(?:unsafe|const|extern|"C"|default)\s+(?=fn\b|unsafe\b|extern\b|"C"|trait\b|impl\b))*'
                  r"(ghost\s+use|ghost|use|mod|const|static|type|struct|enum|union|trait|impl|fn|macro_rules!)")
CLAUSE = re.compile(r"\s*(requires|ensures)(\*?)\s*(\w+)?\s*\{")
HEAD_END = re.compile(r"(?:requires|ensures)\b|\{|;")
BODY = re.compile(r"\{|;")
LAST = re.compile(";")


def items(code, at=0, end=None):
    """The items that stand in a file between two places, in order."""
    end, found = len(code.text) if end is None else end, []
    while True:
        at = start = SPACE.match(code.text, at).end()
        if at >= end:
            return found
        while re.compile(r"#!?\[").match(code.text, at):
            at = SPACE.match(code.text, code.shut(code.text.index("[", at))).end()
        attributes = code.text[start:at]
        shown = SHOWN.match(code.text, at)
        at = shown.end() if shown else at
        kind = KIND.match(code.text, at)
        if not kind:
            at = code.first(at, end, BODY)
            at = code.shut(at) if code.text[at : at + 1] == "{" else at + 1
            continue
        name = WORD.match(code.text, SPACE.match(code.text, kind.end()).end())
        it = Item(code, re.sub(r"\s+", " ", kind.group(1)), name and name.group(), bool(shown) and not shown.group(1), attributes, start)
        at = it.end = take(code, it, at, kind.end(), end)
        found.append(it)


def take(code, it, at, behind, end):
    """Reads an item from its first word on; gives the place behind it."""
    if it.kind in ("ghost use", "ghost", "use", "const", "static", "type"):
        stop = code.first(behind, end, LAST)
        it.head = (at if it.kind in ("const", "static", "type") else behind, stop)
        return stop + 1
    stop = code.first(behind, end, HEAD_END if it.kind == "fn" else BODY)
    it.head = (at, stop)
    clause = CLAUSE.match(code.text, stop) if it.kind == "fn" else None
    while clause:
        stop = code.shut(clause.end() - 1)
        it.clauses.append((clause.group(1) + clause.group(2), clause.group(3), code.text[clause.end() : stop - 1], code.line(clause.start(1))))
        clause = CLAUSE.match(code.text, stop)
    stop = code.first(stop, end, BODY)
    if code.text[stop : stop + 1] != "{":
        return stop + 1
    it.body = (stop, code.shut(stop))
    if it.kind in ("trait", "impl", "mod"):
        it.items = items(code, stop + 1, it.body[1] - 1)
    if it.kind == "impl":
        it.of, it.target = sides(it.text()[4:])
    return it.body[1]


def angles(text, at):
    """The place behind the `>` that closes the `<` that stands here."""
    depth = 0
    for found in re.compile(r"->|=>|[<>]").finditer(text, at):
        depth += (found.group() == "<") - (found.group() == ">")
        if depth == 0:
            return found.end()
    return len(text)


def sides(head):
    """Of what follows the word `impl`: the trait, or None, and the type."""
    head = re.sub(r"\s+", " ", head).strip()
    head = head[angles(head, 0) if head.startswith("<") else 0 :]
    of, word, target = re.split(r"\bwhere\b", head)[0].partition(" for ")
    return (of.strip(), target.strip()) if word else (None, of.strip())


def head_path(text):
    """The names of the path at the head of a type, as a list."""
    found = re.match(r"(?:&\s*(?:'\w+\s*)?(?:mut\s+)?)*([A-Za-z_]\w*(?:\s*::\s*[A-Za-z_]\w*)*)", text.strip())
    return re.split(r"\s*::\s*", found.group(1)) if found else [text]


def paths(tree, before=()):
    """The paths that a Rust `use` names, each with the name that it gives."""
    head, brace, rest = tree.strip().partition("{")
    comps = [*before, *[it for it in re.split(r"\s*::\s*", re.split(r"\s+as\s+", head.strip())[0]) if it]]
    if brace:
        for part in split(rest[: rest.rindex("}")]):
            yield from paths(part, comps)
    else:
        comps = comps[:-1] if comps[-1] == "self" else comps
        yield comps, re.split(r"\s+as\s+", head.strip())[-1] if " as " in head else comps[-1]


def without_attributes(text):
    """The text of a field without attributes."""
    return re.sub(r"^(\s*#\[(?:[^\[\]]|\[[^\]]*\])*\])+", "", text).strip()


class Field:
    """A field or a variant: its name, what shows it, its text behind the name, whether it is ghost, and a variant's own fields' names."""

    def __init__(self, name, shown, text, ghost=False, inner=()):
        self.name, self.shown, self.text, self.ghost, self.inner = name, shown, text, ghost, inner
        self.public = ghost or shown == "pub"


def field(text, name=None):
    """A field of a struct, or of a variant."""
    text = without_attributes(text)
    shown = SHOWN.match(text)
    rest = text[shown.end() :] if shown else text
    ghost = re.match(r"ghost\s+", rest)
    rest = rest[ghost.end() :] if ghost else rest
    if name is None:
        name = WORD.match(rest).group()
        rest = re.sub(r"^\s*:?\s*", "", rest[len(name) :])
    return Field(name, re.sub(r"\s", "", shown.group()) if shown else "", rest, bool(ghost))


def fields(it):
    """The fields of a struct, or the variants of an enum."""
    if it.kind not in ("struct", "enum", "union"):
        return []
    if it.body:
        inside = split(it.code.text[it.body[0] + 1 : it.body[1] - 1])
    else:
        head = it.text()
        return [field(part, str(k)) for k, part in enumerate(split(head[head.index("(") + 1 : head.rindex(")")]))] if "(" in head else []
    if it.kind != "enum":
        return [field(part) for part in inside if without_attributes(part)]
    found = []
    for part in inside:
        variant = field(part)
        if variant.text.startswith("{") and not variant.ghost:
            variant.fields = [field(one) for one in split(variant.text[1 : variant.text.rindex("}")])]
            variant.inner = [one.name for one in variant.fields]
        variant.public = True
        found.append(variant)
    return found


def parameters(head):
    """The names of a function's type parameters, and of its parameters."""
    at = re.search(r"\bfn\s+\w+\s*", head).end()
    kinds = []
    if head[at] == "<":
        shut = angles(head, at)
        kinds = type_parameters(head[at:shut])
        at = head.index("(", shut)
    depth, stop = 0, at
    for stop in range(at, len(head)):
        depth += (head[stop] in OPEN) - (head[stop] in SHUT)
        if depth == 0:
            break
    names = []
    for part in split(head[at + 1 : stop]):
        if not re.match(r"(&\s*('\w+\s*)?)?(mut\s+)?self\b", without_attributes(part)):
            names += [it for it in WORD.findall(without_attributes(part).split(":")[0]) if it not in ("mut", "ref")]
    return kinds, names


def type_parameters(text):
    """The names of the type parameters between the first `<` of a text and its `>`."""
    at = text.find("<")
    if at < 0:
        return []
    inside = split(text[at + 1 : angles(text, at) - 1])
    return [re.sub(r"^const\s+", "", re.split(r"[:=]", it)[0]).strip() for it in inside if not it.startswith("'")]


# ---- .antt files

class Definition:
    """A definition: its name, its lines, what it is (`record`, `data` or none), and the names of its fields or constructors."""

    def __init__(self, name, lines, sort):
        self.name, self.lines, self.sort, self.inner = name, lines, sort, []


DECLARED = re.compile(r"(?:(?:abbrev|unfoldable|pub)\s+)*(?:(record|data)\s+)?(\S+)")


def without_comments(text):
    """The text of an `.antt` file without comments, each line where it was."""
    return re.sub(r'("(?:\\.|[^"\\\n])*")|(?<!\S)--[^\n]*', lambda found: found.group(1) or "", text)


def definitions(text):
    """The imports of an `.antt` file, each with whether it passes names on, and its definitions."""
    uses, found, before = [], [], []
    for group in grouped(without_comments(text)):
        first = re.match(r"(pub\s+)?(use|mod)\b\s*", group[0])
        if first:
            if first.group(2) == "use":
                uses.append((bool(first.group(1)), " ".join(group)[first.end() :]))
        elif group[0].startswith("infix"):
            before = group
        elif re.match(r"(abbrev|unfoldable|pub|record|data)\s", group[0]) or re.match(r"\S+\s+:\s", group[0] + " "):
            sort, name = DECLARED.match(group[0]).groups()
            it = Definition(name, [*before, *group], sort)
            before = []
            if sort:
                it.inner = members(it.lines)
            found.append(it)
        elif found:
            found[-1].lines += group
    return uses, found


def grouped(text):
    """The lines of a file, by what begins at the margin outside of brackets."""
    group, depth = [], 0
    for line in text.split("\n"):
        if not line.strip():
            continue
        if group and depth <= 0 and not line.startswith((" ", ")", "}", "]")):
            yield group
            group, depth = [], 0
        group.append(line.rstrip())
        line = re.sub(r'"(?:\\.|[^"\\])*"', "", line)
        depth += sum((it in OPEN) - (it in SHUT) for it in line)
    if group:
        yield group


def members(lines):
    """The fields of a record, or the constructors of a `data`, by the lines behind `where`."""
    found, inside = [], False
    for line in lines:
        named = re.match(r"  (?:pub\s+)?(\S+(?:\s+[^\s:]+)*)\s+:(?:\s|$)", line)
        if inside and named and not line.startswith("   "):
            found += named.group(1).split()
        inside = inside or bool(re.search(r"(^|\s)where$", line))
    return found


def imports(text):
    """Of an import without its word `use`: each name that it gives, with the path that it stands for."""
    head, brace, rest = text.strip().rstrip(";").partition("{")
    if not brace:
        path, _, other = re.sub(r"\s+", " ", head.strip()).partition(" as ")
        comps = path.strip().split(".")
        return [(other or comps[-1], comps)]
    before, found = [it for it in head.strip().split(".") if it], []
    for part in rest[: rest.rindex("}")].split(","):
        name, _, other = re.sub(r"\s+", " ", part.strip()).partition(" as ")
        if name:
            comps = [name] if "◌" in name else [it.strip("«»") for it in name.split(".")]
            found.append((other or comps[-1], [*before, *comps]))
    return found
