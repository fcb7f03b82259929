"""What the names of a tree stand for: of Rust's paths and of the paths of definitions one id each, by text alone.

A definition's id is the path of its file with its name (`ibc_ledger.specs.Held.plain_entry`); an item's is the path by which another crate names it
(`ibc_ledger.Ledger`), or else where it stands (`ibc_ledger.node.Node`); a member's is its owner's with its name.
"""
import os
import re

import parts


class Tree:
    """The crates of a folder: `antt`, the definitions by id; `items`, the Rust items by id; `impls`; and who has a member of a name."""

    def __init__(self, root):
        self.root = root
        self.crates = sorted(os.listdir(f"{root}/crates"))
        self.antt, self.scopes, self.passed_on, self.bare = {}, {}, {}, {}
        self.modules, self.at, self.items, self.impls, self.members = {}, {}, {}, [], {}
        for crate in self.crates:
            self.read_specs(crate)
            for top in ("lib.rt", "main.rt"):
                if os.path.exists(f"{root}/crates/{crate}/src/{top}"):
                    self.read_module(crate, (), f"{root}/crates/{crate}/src/{top}")
        self.give_ids()
        self.find_members()

    # ---- reading

    def read_specs(self, crate):
        folder = f"{self.root}/crates/{crate}/specs"
        for path in parts.under(folder, ".antt"):
            file = f"{crate}.specs." + os.path.relpath(path, folder)[:-5].replace("/", ".")
            uses, found = parts.definitions(parts.read(path))
            scope = self.scopes[file] = {}
            for public, use in uses:
                for local, comps in parts.imports(use):
                    scope[local] = comps
                    if public:
                        self.passed_on[f"{file}.{local}"] = comps
            for it in found:
                it.file, it.id = file, f"{file}.{it.name}"
                self.antt[it.id] = it
                scope[it.name] = [*file.split("."), it.name]
                if it.sort == "data":
                    for name in it.inner:
                        self.bare[f"{file}.{name}"] = f"{it.id}.{name}"
                        scope[name] = [*file.split("."), name]

    def read_module(self, crate, module, path):
        code = parts.Code(path)
        self.take(crate, module, code, parts.items(code))

    def take(self, crate, module, code, items):
        names = self.modules.setdefault((crate, module), {})
        ghost = self.scopes.setdefault((crate, module), {})
        for it in items:
            if "cfg(test)" in it.attributes:
                continue
            it.code, it.crate, it.module = code, crate, module
            if it.kind == "use":
                for comps, local in parts.paths(it.text()):
                    names.setdefault(local, []).append(("use", comps, it.public))
            elif it.kind == "ghost use":
                ghost.update(parts.imports(it.text()))
            elif it.kind == "mod":
                inner = (*module, it.name)
                names.setdefault(it.name, []).append(("mod", inner, it.public))
                path = f"{self.root}/crates/{crate}/src/{'/'.join(inner)}.rt"
                if it.body:
                    self.take(crate, inner, code, it.items)
                elif os.path.exists(path):
                    self.read_module(crate, inner, path)
            elif it.kind == "impl":
                self.impls.append(it)
            elif it.name:
                names.setdefault(it.name, []).append(("item", it, it.public))
                self.at[".".join((crate, *module, it.name))] = it

    # ---- Rust's paths

    def look(self, crate, module, name, seen=()):
        """What a name means in a module: an item, ("mod", crate, module), or a path of another library; None where it has no meaning."""
        if (crate, module, name) in seen:
            return None
        for sort, what, _ in sorted(self.modules.get((crate, module), {}).get(name, []), key=lambda it: it[0]):
            if sort == "item":
                return what
            there = ("mod", crate, what) if sort == "mod" else self.follow(crate, module, what, (*seen, (crate, module, name)))
            if there is not None:
                return there
        return None

    def follow(self, crate, module, comps, seen=()):
        """What a path means in a module: as `look`, or an item with the names behind it."""
        comps = list(comps)
        if comps[0] == "crate":
            module, comps = (), comps[1:]
        elif comps[0] in ("self", "super"):
            while comps and comps[0] in ("self", "super"):
                module, comps = module[:-1] if comps[0] == "super" else module, comps[1:]
        elif (comps[0], ()) in self.modules and not self.modules[crate, module].get(comps[0]):
            crate, module, comps = comps[0], (), comps[1:]
        elif (crate, module) in self.modules and not self.modules[crate, module].get(comps[0]):
            return ".".join(comps)
        if not comps:
            return ("mod", crate, module)
        there, rest = self.look(crate, module, comps[0], seen), comps[1:]
        if there is None:
            return ".".join([crate, *module, *comps])
        if not rest:
            return there
        if isinstance(there, str):
            return ".".join([there, *rest])
        if isinstance(there, tuple) and there[0] == "mod":
            return self.follow(there[1], there[2], ["self", *rest], seen)
        return (there, rest) if isinstance(there, parts.Item) else (there[0], [*there[1], *rest])

    def rust_id(self, crate, module, comps):
        """The id that a path means in a module."""
        there = self.follow(crate, module, comps)
        if isinstance(there, parts.Item):
            return there.id
        if isinstance(there, str):
            return there
        return ".".join([there[1], *there[2]] if there[0] == "mod" else [there[0].id, *there[1]])

    def give_ids(self):
        """To each item its id, and whether another crate can name it."""
        reached = {}
        for crate in self.crates:
            self.reach(crate, crate, (), reached)
        for path, it in self.at.items():
            it.id = reached.get(it, path)
            it.reached = it in reached
            if "no_mangle" in it.attributes:
                it.id, it.reached = f"{it.crate}.{it.name}", True
            self.items[it.id] = it

    def reach(self, path, crate, module, reached):
        for name, meanings in self.modules.get((crate, module), {}).items():
            for sort, what, public in meanings:
                if not public:
                    continue
                there = what if sort == "item" else ("mod", crate, what) if sort == "mod" else self.follow(crate, module, what)
                if isinstance(there, parts.Item):
                    if there.crate == crate:
                        reached[there] = min(reached.get(there, f"{path}.{name}"), f"{path}.{name}", key=lambda it: (it.count("."), it))
                elif isinstance(there, tuple) and there[:2] == ("mod", crate):
                    self.reach(f"{path}.{name}", crate, there[2], reached)

    def find_members(self):
        """Who has a field, a variant, a method or a ghost member of a name."""
        def add(owner, name):
            self.members.setdefault(name, set()).add(f"{owner}.{name}")
        for it in self.antt.values():
            for name in it.inner:
                add(it.id, name)
        for it in self.items.values():
            it.fields = parts.fields(it)
            for field in it.fields:
                add(it.id, field.name)
                for name in field.inner:
                    add(f"{it.id}.{field.name}", name)
            if it.kind == "trait":
                for one in it.items:
                    add(it.id, one.name)
        for it in self.impls:
            it.target_id = self.rust_id(it.crate, it.module, parts.head_path(it.target))
            it.of_id = it.of and self.rust_id(it.crate, it.module, parts.head_path(it.of))
            for one in it.items:
                if it.of is None and one.kind == "fn":
                    add(it.target_id, one.name)

    # ---- the paths of definitions and clauses

    def canonical(self, comps):
        """The id that a path of a definition's file, or of a clause, means."""
        comps = list(comps[1:] if comps[0] == "Rattle" else comps)
        if comps[0] not in self.crates:
            return ".".join(comps)
        if comps[1:3] in (["specs", "declared"], ["specs", "contracts"]):
            return self.declared(comps[0], comps[3:])
        for k in range(len(comps), 2, -1):
            name = ".".join(comps[:k])
            if name in self.passed_on:
                return ".".join([self.canonical(self.passed_on[name]), *comps[k:]])
            if name in self.bare:
                return ".".join([self.bare[name], *comps[k:]])
        return ".".join(comps)

    def declared(self, crate, comps):
        """The id of what the kit declares for a Rust item: the type, its variants, what lies inside."""
        for k in range(len(comps), 0, -1):
            it = self.at.get(".".join([crate, *comps[:k]]))
            if it is not None:
                rest = comps[k:]
                if rest[:1] in (["TheVariants"], ["TheInside"], [comps[k - 1]]):
                    rest = rest[1:]
                return ".".join([it.id, *rest])
        return ".".join([crate, "specs", "declared", *comps])

    def owner(self, name):
        """The definition or the item that an id is of, or is a part of; None where it is another library's."""
        while name:
            if name in self.antt or name in self.items:
                return name
            name = name.rpartition(".")[0]
        return None

    def has(self, owner, name):
        """Whether an id has a part of this name: what is no definition and no item of the tree has each."""
        if owner in self.antt:
            return name in self.antt[owner].inner
        if owner in self.items:
            return any(it.name == name for it in self.items[owner].fields) or name == "Inside"
        return self.owner(owner) is None
