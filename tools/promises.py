"""What crates state, in parts: a definition; a function; a type with its fields and what its crate implements for it; a method; a trait; and what another
crate implements for a type. A part is the lines that tools/frozen prints, private things too, and it names others. Terms are in one form
(tools/unfolding.py), and parameters and bound names are numbers. Of a body, a proof, a comment or a layout it knows nothing."""
import hashlib
import re

import parts
from unfolding import Numbers, Words, frozen


class Promises(frozen["Printer"]):
    """All that the crates of a checkout state, each part with the parts that it names."""

    def __init__(self, root):
        options = frozen["Options"]()
        options.at = root
        super().__init__(options)
        self.sums, self.named, self.unsure, self.unknown_of, self.signed = {}, {}, set(), {}, set()
        self.open = {it.id for it in self.tree.items.values() if it.reached}
        for it in self.tree.items.values():
            it.reached = True
        self.impls = self.impls_of_types()
        self.methods, self.foreign, self.by_word, self.words = self.methods_of_types(), {}, {}, Words(self)
        self.gather()

    # ---- reading

    def impls_of_types(self):
        """What is implemented for each type, under the type itself where an alias names it."""
        found = {}
        for block in self.tree.impls:
            block.target_id = self.behind_alias(block.target_id)
            found.setdefault(block.target_id, []).append(block)
        return found

    def behind_alias(self, name, depth=0):
        """What an alias names, through others too."""
        if not self.is_alias(name) or depth > 9:
            return name
        it = self.tree.items[name]
        return self.behind_alias(self.tree.rust_id(it.crate, it.module, parts.head_path(it.text().partition("=")[2])), depth + 1)

    def is_alias(self, name):
        return name in self.tree.items and self.tree.items[name].kind == "type"

    def methods_of_types(self):
        """Of each type its methods by name, each with the blocks that it stands in."""
        found = {}
        for block in self.tree.impls:
            for it in block.items if block.of is None else ():
                if it.kind == "fn":
                    found.setdefault(block.target_id, {}).setdefault(it.name, []).append((it, block))
        return found

    def gather(self):
        """Reads all parts."""
        for name in self.tree.antt:
            self.take(name, lambda name=name: self.definition(name))
        for name in self.tree.items:
            self.take(name, lambda name=name: self.item(name))
        for file in [it for it in self.tree.scopes if isinstance(it, str)]:
            self.take(file, lambda file=file: self.file(file))
        for name, methods in self.methods.items():
            for method, found in methods.items():
                self.take(f"{name}.{method}", lambda name=name, found=found: self.method(name, found))
        for name, crate, blocks in self.foreign_blocks():
            self.foreign.setdefault(name, {})[crate] = f"{crate}.for {name}"
            self.take(f"{crate}.for {name}", lambda name=name, blocks=blocks: self.foreign_part(name, blocks))
        for name in [*self.tree.antt, *self.tree.items]:
            self.by_word.setdefault(name.rpartition(".")[2], []).append(name)

    def take(self, part, read):
        """Reads a part."""
        self.lines, self.cites, self.unknown, self.lost_in = [], set(), {}, set()
        read()
        told = "\n".join([part, *[line for line, _ in self.lines]])
        self.sums[part], self.named[part] = hashlib.sha256(told.encode()).hexdigest(), self.cites - {part}
        for name in self.lost_in:
            files = [it for it in above(name) if it in self.tree.scopes]
            self.named[part].update(files)
            self.unsure.update([] if files else [part])
        words = {word for found in self.unknown.values() for it in found for word in it.split(".")}
        if words:
            self.unknown_of[part] = words

    def add(self, reader, tokens, indent="", field=None):
        """One line of a part, and the parts that it names."""
        is_term = isinstance(tokens, list)
        tokens = self.words.unfolded(tokens, reader.fixed) if is_term else [Numbers(reader.fixed).of_text(tokens)]
        for it in {it for token in tokens for it in re.findall("\0([^\0]*)\0", token)}:
            found = self.parts_of(it)
            self.cites.update(found)
            if not found and "." in it and it.partition(".")[0] in self.tree.crates:
                self.lost_in.add(it)
        self.lines.append((indent + " ".join(tokens), field))

    def parts_of(self, name):
        """The parts that an id is of: a definition, an item, and a method of it."""
        def is_part(owner, last, it):
            return it in self.tree.antt or it in self.tree.items or last in self.methods.get(owner, ())
        return [it for it in above(name) if is_part(it.rpartition(".")[0], it.rpartition(".")[2], it)]

    def file(self, file):
        """A whole file of definitions, for a name in it that is found nowhere."""
        crate, _, *rest = file.split(".")
        text = parts.without_comments(parts.read(f"{self.tree.root}/crates/{crate}/specs/{'/'.join(rest)}.antt"))
        self.lines.append((" ".join(text.split()), None))
        self.cites.update(it.id for it in self.tree.antt.values() if it.file == file)

    def item(self, name):
        super().item(name)
        it = self.tree.items[name]
        if it.kind == "macro_rules!":
            self.unsure.add(name)
        if it.kind == "trait":
            self.members(name, it, it)

    def method(self, name, found):
        """A method: its heads and clauses."""
        blocks = []
        for it, block in found:
            head, self.lines = block.text(), []
            kinds = parts.type_parameters(head[4:]) if head[4:].lstrip().startswith("<") else []
            self.function(f"{name}.{it.name}", name, it, block, kinds, (), "  ", head if kinds else "")
            blocks.append(self.lines)
        self.lines = [line for block in sorted(blocks, key=str) for line in block]

    def impls_of(self, name, it):
        """Those of the type's own crate alone."""
        return [one for one in super().impls_of(name, it) if one.crate == it.crate]

    def implementation(self, name, it, one, blocks):
        """What a type implements of a trait, and the types and constants that a block gives it."""
        if one.of is not None:
            super().implementation(name, it, one, blocks)
        else:
            self.lines = []
            blocks.append(self.lines)
        self.members(name, it, one)

    def members(self, name, it, block):
        """The types and constants of a block."""
        for one in block.items:
            if one.kind == "const" or one.kind == "type" and block is not it:
                reader = frozen["Reader"](self, name)
                self.add(reader, reader.code(one.text(), block), "    ")

    def foreign_blocks(self):
        """What a crate implements for a type of another, or for a type of no crate: then under each type and trait that its head names."""
        found = {}
        for block in self.tree.impls:
            it = self.tree.items.get(block.target_id)
            if it is None or it.crate != block.crate:
                for name in self.named_in_head(block) if it is None else [block.target_id]:
                    found.setdefault((name, block.crate), []).append(block)
        return [(name, crate, blocks) for (name, crate), blocks in found.items()]

    def named_in_head(self, block):
        """The items that the head of a block names, by aliases too."""
        reader = frozen["Reader"](self, block.target_id)
        reader.code(block.text(), block)
        found = {self.tree.owner(it) for it in reader.cited}
        return (found | {more for it in found if self.is_alias(it) for more in self.named[it]}) & self.tree.items.keys()

    def foreign_part(self, name, found):
        blocks = []
        for one in found:
            self.implementation(name, self.tree.items[name], one, blocks)
        self.lines = [line for block in sorted(blocks, key=self.order) for line in block]

    # ---- what names lead to

    def named_by(self, words, own, crates):
        """What has one of these words as its name, as far as a crate can name it: all of its own, and what is public of the others."""
        found = {it for word in words for it in self.by_word.get(word, ())}
        return {it for it in found if it.partition(".")[0] == own or it.partition(".")[0] in crates and (it in self.tree.antt or it in self.open)}

    def reached(self, roots, words, own, crates):
        """All that these parts lead to: what they name, on and on, what the crates implement for it, and each of its methods that has one of the words as
        its name."""
        found, left = set(), [*roots]
        while left:
            part = left.pop()
            if part in found:
                continue
            found.add(part)
            left += self.named[part]
            left += [more for crate, more in self.foreign.get(part, {}).items() if crate in crates]
            methods = self.methods.get(part, {})
            left += [f"{part}.{it}" for it in words & methods.keys() if part.partition(".")[0] == own or any(fn.public for fn, _ in methods[it])]
            left += self.named_by(self.unknown_of.get(part, ()), own, crates)
        return found

    def sum_of(self, found):
        """A checksum of parts."""
        return hashlib.sha256("\n".join(f"{it} {self.sums[it]}" for it in sorted(found)).encode()).hexdigest()


def above(name):
    """An id, and those of which it is a part."""
    while name:
        yield name
        name = name.rpartition(".")[0]
