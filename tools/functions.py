"""The functions of a crate by its own text: where the body of each stands, and which of the prover's names can be its name."""
import collections
import os
import re

import parts

# A function with a body: its file, its name, its first and last line, the places of its body, and what its impl or trait is called (or "").
Function = collections.namedtuple("Function", "path name lines body owner")
WORDS = re.compile(r"->|\w+|[<>&]|\S")


def last_name(text):
    """The last name of a type or a trait that stands in no angle bracket, as `ListOf` of `list::ListOf<T>`."""
    depth, name = 0, "?"
    for word in WORDS.findall(text):
        depth += (word == "<") - (word == ">")
        if depth == 0 and re.fullmatch(r"[A-Za-z_]\w*", word) and word not in ("mut", "dyn", "where"):
            name = word
    return name


def words_of(text):
    """The letters of a type or a trait with all that it is given, as `FromAllocError` of `From<AllocError>`."""
    return "".join(re.findall(r"[A-Za-z_]\w*", text))


def owner_of(item):
    """What the prover's name for an impl or a trait begins with, as a pattern: Type, TypeTrait or Trait."""
    if item.kind == "trait":
        return re.escape(item.name) + r"(\W|$)"
    if not item.of:
        return re.escape(last_name(item.target)) + r"(\W|$)"
    target, given = last_name(item.target), item.of.partition("<")[2]
    rest = re.escape(words_of(given)) if re.fullmatch(r"\w+>", given) else r"(\W|[A-Z]|$)"
    return re.escape(target + last_name(item.of)) + rest


def in_items(path, code, found, owner=""):
    """The functions among these items, but for those inside others."""
    for item in found:
        if item.kind == "fn" and item.body:
            lines = code.line(item.start), code.line(item.body[1] - 1)
            yield Function(path, item.name, lines, (item.body[0] + 1, item.body[1] - 1), owner)
        elif item.items:
            yield from in_items(path, code, item.items, owner if item.kind == "mod" else owner_of(item))


def of_file(folder, path):
    """The functions of one file of a crate."""
    code = parts.Code(f"{folder}/{path}")
    return list(in_items(path, code, parts.items(code)))


def of_crate(folder):
    """The functions of a crate's files."""
    return [it for file in parts.under(f"{folder}/src", ".rt") for it in of_file(folder, os.path.relpath(file, folder))]


def module_of(path):
    """The module that a file is, as the prover writes it: `store::keys` of src/store/keys.rt."""
    return re.sub(r"^src/((lib|main)\.rt$)?|(/mod)?\.rt$", "", path).replace("/", "::")


def is_called(function, name):
    """Whether the prover's name, as ibc_ids::list::ListOfClone::clone, can be this function's, but for its module."""
    *module, last = name.split("::")[1:]
    if last != function.name or "fn" in module or "++" in name:
        return False
    return bool(module and re.match(function.owner, module[-1])) if function.owner else "::".join(module) == module_of(function.path)


def is_there(function, name):
    """Whether a method's name stands in the module that its impl stands in. It can stand in the type's module too."""
    return not function.owner or "::".join(name.split("::")[1:-2]) == module_of(function.path)


def names_of(functions, names):
    """Of each function the name under which a check tells of it, where that is one."""
    by_last = collections.defaultdict(list)
    for name in names:
        by_last[name.rpartition("::")[2]].append(name)
    found = {}
    for function in functions:
        fits = [it for it in by_last[function.name] if is_called(function, it)]
        fits = [it for it in fits if is_there(function, it)] or fits
        if len(fits) == 1:
            found[function] = fits[0]
    return found
