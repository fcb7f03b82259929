"""What the refusal of a wrong body rests on that lies in one function: that function as it stands, and what is stated of all that it names.

The prover proves nothing that is false. So a body that doesn't do what its function ensures is refused as long as these statements stay, whatever other
bodies and proofs say.
"""
import collections
import os
import re

import parts

# A function with a body: its item; what it stands in, the item itself where that is a file; and the part of the promises that has its contract.
Function = collections.namedtuple("Function", "item around part")
# What stands in a file's code behind one another, and the paths in it.
PIECE = re.compile(r"\w+|&&|\|\||->|=>|::|\.\.=?|<<=?|>>=?|[-+*/%^&|=!<>]=|.", re.DOTALL)
PATH = re.compile(r"[A-Za-z_]\w*(?:\s*::\s*[A-Za-z_]\w*)*")
# Functions that call each other have this attribute. Whether these end is seen in their bodies alone.
CYCLE = re.compile(r"\bcycle\s*\(")
# A `use` among the statements of a body, and what a closure's clauses begin with.
USE, CLAUSE = re.compile(r"\buse \w"), re.compile(r"\b(?:requires|ensures|ghost)\b")


def words_of(text):
    """What in a text can be the last part of a name: a Rust name, or a definition's, as `least'` or `◌≤◌`."""
    return {*re.findall(r"\w+", text), *re.split(r"[\s()\[\]{}.,;:]+", text)}


def bare(code, start, end):
    """What stands between two places of a file, its words and marks apart by one space. What stands in quotes is as it is."""
    found = []
    while start < end:
        stop = code.literals.get(start) or PIECE.match(code.text, start).end()
        found.append(code.text[start:stop] if start in code.literals else code.text[start:stop].strip())
        start = stop
    return " ".join(it for it in found if it)


def text_of(function):
    """A function as it stands but for its clauses and attributes, with the head of what it is in: without comments and layout."""
    it, around = function.item, function.around
    head = [] if around is it else [bare(it.code, *around.head)]
    return "\n".join([*head, bare(it.code, *it.head), bare(it.code, *it.body)])


def text_with(edit):
    """The body that an edit makes of a function's."""
    start, end = edit.function.body
    new = edit.texts[edit.path]
    code = parts.Code(edit.path, new[start : end + len(new) - len(edit.old)])
    return bare(code, 0, len(code.text))


class Grounds:
    """What refusals rest on in one crate."""

    def __init__(self, promises, crate, below):
        self.promises, self.tree, self.crate, self.crates = promises, promises.tree, crate, {crate, *below}
        self.functions = {(os.path.relpath(it.item.code.path, self.tree.root), it.item.body[0]): it for it in self.all_functions()}
        self.traits = {}

    def all_functions(self):
        """The functions of the crate that have a body."""
        for name, it in self.tree.items.items():
            if it.crate == self.crate and it.kind == "fn" and it.body:
                yield Function(it, it, name)
            elif it.crate == self.crate and it.kind == "trait":
                yield from [Function(one, it, name) for one in it.items if one.kind == "fn" and one.body]
        for block in [it for it in self.tree.impls if it.crate == self.crate]:
            for it in block.items:
                if it.kind == "fn" and it.body:
                    yield Function(it, block, block.target_id if block.of else f"{block.target_id}.{it.name}")

    def meanings(self, around, text):
        """The names in a text that have a meaning where a function stands, each with that meaning. Code names no definition, but for a closure's clauses."""
        names, found = self.tree.modules.get((self.crate, around.module), {}), set()
        for path in PATH.findall(text):
            comps = re.split(r"\s*::\s*", path)
            if comps[0] in names or comps[0] in ("crate", "self", "super") or (comps[0], ()) in self.tree.modules:
                found.add(("::".join(comps), self.tree.rust_id(self.crate, around.module, comps)))
        for word in words_of(text) & names.keys():
            found.update((word, self.meaning(around.module, *one)) for one in names[word])
        scope = self.promises.scope(around) if CLAUSE.search(text) else {}
        for word in words_of(text) if scope else ():
            found.update((it, self.tree.canonical(scope[it])) for it in (word, f"◌{word}◌", f"{word}◌", f"◌{word}") if it in scope)
        return found

    def meaning(self, module, sort, what, _):
        """What a name means that a module gives: an item, a module, or what a `use` brings."""
        if sort == "item":
            return what.id
        return ".".join([self.crate, *what]) if sort == "mod" else self.tree.rust_id(self.crate, module, what)

    def is_known(self, meaning):
        """Whether a name of this meaning leads to a part, or is one of a module, a file or another library."""
        crate, *module = meaning.split(".")
        is_place = (crate, tuple(module)) in self.tree.modules or meaning in self.tree.scopes
        return is_place or crate not in self.tree.crates or bool(self.promises.parts_of(meaning))

    def traits_in(self, module):
        """The traits that a module names, each with the names of its functions."""
        if module not in self.traits:
            names = self.tree.modules.get((self.crate, module), {})
            found = {self.meaning(module, *one) for meanings in names.values() for one in meanings}
            items = [self.tree.items[it] for it in found if it in self.tree.items and self.tree.items[it].kind == "trait"]
            self.traits[module] = {it.id: {one.name for one in it.items} for it in items}
        return self.traits[module]

    def is_sure(self, function, text):
        """Whether no name in a function with this text can be brought from where that isn't seen, and whether its end rests on no other body."""
        names = self.tree.modules.get((self.crate, function.around.module), {})
        return not ("*" in names or USE.search(text) or CYCLE.search(function.item.attributes))

    def roots(self, function, text, meanings):
        """The parts that the names in a function with this text lead to first."""
        found, words = {it for _, meaning in meanings for it in self.promises.parts_of(meaning)}, words_of(text)
        if CLAUSE.search(text):
            found |= self.promises.named_by(words, self.crate, self.crates)
        found |= {trait for trait, names in self.traits_in(function.around.module).items() if names & words}
        return found | {function.part} & self.promises.sums.keys()

    def of_edit(self, edit):
        """What the refusal of an edit in one function rests on, in its crate and in those below it; or None where that isn't certain."""
        function = edit.function and self.functions.get((f"crates/{self.crate}/{edit.path}", edit.function.body[0] - 1))
        text = function and f"{text_of(function)}\n{text_with(edit)}"
        if not function or not self.is_sure(function, text):
            return None
        meanings = self.meanings(function.around, text)
        found = self.promises.reached(self.roots(function, text, meanings), words_of(text), self.crate, self.crates)
        if found & self.promises.unsure or not all(self.is_known(meaning) for _, meaning in meanings):
            return None
        inside = {it for it in found if it.partition(".")[0] == self.crate}
        stands = f"{' '.join(function.item.attributes.split())}\n{text_of(function)}"
        told = [stands, *sorted(f"{name} means {meaning}" for name, meaning in meanings), self.promises.sum_of(inside)]
        return "\n".join(told), self.promises.sum_of(found - inside)
