"""Terms in one form: each word that abbreviates stands as what it means, each `let` as what it binds, and no bracket stands that tells nothing.

A word that abbreviates is an `abbrev` of specs/ by one equation, whose left side has names alone. A term comes as a list of tokens, as tools/frozen reads
it: `\\0ID\\0` is a name with a meaning, and `\\1NAME\\2NUMBER\\1` a bound one. Here it is a list of these and of brackets, each a pair of its mark and a list.
"""
import os
import re
import runpy

import parts

frozen = runpy.run_path(os.path.join(os.path.dirname(os.path.abspath(__file__)), "frozen"), run_name="frozen")
SHUTS = {"(": ")", "[": "]", "{": "}"}
NAMED, BOUND = re.compile("\0([^\0]*)\0"), re.compile("\1([^\2]*)\2(\\d+)\1")
# Words of the language that are terms by themselves, and those behind which no name is the head of a term.
ATOMS, NO_HEAD = {"tt", "Unit", "_", "⊥", "absurd", "Type"}, {"elim", "record", "open"}
# How many tokens a meaning may have that is put in the place of its word, and a value in the places of its name.
LONGEST, LONGEST_VALUE = 400, 60


def tree_of(tokens):
    """A list of tokens and brackets; or None where the brackets don't fit."""
    open_ones = [(None, [])]
    for token in tokens:
        if token in SHUTS:
            open_ones.append((token, []))
        elif token in SHUTS.values():
            mark, inside = open_ones.pop()
            if SHUTS.get(mark) != token:
                return None
            open_ones[-1][1].append((mark, inside))
        else:
            open_ones[-1][1].append(token)
    return open_ones[0][1] if len(open_ones) == 1 else None


def flat(items):
    """The tokens of a term."""
    for it in items:
        if isinstance(it, str):
            yield it
        else:
            yield from (it[0], *flat(it[1]), SHUTS[it[0]])


def is_field(item):
    return isinstance(item, str) and item[0] == "." and item not in frozen["KEYWORDS"]


def is_atom(item):
    """Whether this is a term by itself: a bracket, a name that is no operator, a number, a text."""
    if not isinstance(item, str):
        return item[0] != "{"
    if item in frozen["KEYWORDS"]:
        return item in ATOMS
    name = NAMED.match(item)
    return "◌" not in name[1] if name else item == "[]" or bool(re.match('[\\w\1"«]', item))


def ends_term(item):
    """Whether what stands behind this is an argument."""
    return item is not None and (is_atom(item) or is_field(item) or not isinstance(item, str))


def put(items, given, shift):
    """A term with other terms in the places of bound names, by their numbers. All other bound names get numbers that are greater by so much."""
    out = []
    for it in items:
        bound = isinstance(it, str) and re.fullmatch("\1[^\2]*\2(\\d+)\1(.*)", it, re.DOTALL)
        if not isinstance(it, str):
            out.append((it[0], put(it[1], given, shift)))
        elif not bound:
            out.append(it)
        elif int(bound[1]) not in given:
            out.append(f"\1\2{int(bound[1]) + shift}\1{bound[2]}")
        else:
            one = given[int(bound[1])]
            out += [one[0] + bound[2]] if len(one) == 1 and isinstance(one[0], str) else [*one, bound[2]] if bound[2] else one
    return out


class Numbers:
    """The numbers of bound names in one line: parameters keep theirs, up to `fixed`, and others get them as they come, at each `λ` anew."""

    def __init__(self, fixed):
        self.fixed, self.count, self.given = fixed, fixed, {}

    def of_text(self, text, is_new=False):
        return BOUND.sub(lambda found: f"\1\2{self.of(int(found[2]), is_new)}\1", text)

    def of(self, number, is_new):
        if number > self.fixed and (is_new or number not in self.given):
            self.count += 1
            self.given[number] = self.count
        return self.given.get(number, number)

    def of_term(self, items, binds=False):
        out, is_new = [], binds
        for it in items:
            if isinstance(it, str):
                is_new = binds or it == "λ" or is_new and it != "."
                out.append(self.of_text(it, is_new))
            else:
                colon = it[1].index(":") if ":" in it[1] else len(it[1])
                names = it[1][:colon] if is_new else []
                out.append((it[0], self.of_term(names, True) + self.of_term(it[1][len(names) :])))
        return out


def plain(items, mark=None):
    """A term without the brackets that tell nothing: round a term by itself, round a call that is no argument, and round all between two marks."""
    out = []
    for k, it in enumerate(items):
        behind = items[k + 1] if k + 1 < len(items) else None
        inside = [it] if isinstance(it, str) else plain(it[1], it[0])
        if not isinstance(it, str) and (it[0] != "(" or not inside or is_needed(out[-1] if out else None, inside, behind, mark)):
            inside = [(it[0], inside)]
        out += inside
    return out


def is_needed(before, inside, behind, mark):
    """Whether the brackets round a term are needed between these two."""
    is_call = is_atom(inside[0]) and all(ends_term(it) for it in inside)
    if is_call and all(is_field(it) for it in inside[1:]):
        return is_field(behind) and isinstance(inside[0], str)
    if is_call and not ends_term(before) and not ends_term(behind):
        return False
    begins = before in ("=", "→", ".", "\n") or before is None and mark != "["
    ends = behind in (";", "\n") or behind is None and mark != "["
    return not (begins and ends) or "," in inside or ":" in inside


class Words:
    """The words of a tree that abbreviate, and what they mean."""

    def __init__(self, printer):
        self.printer, self.tree, self.known, self.serial = printer, printer.tree, {}, 0

    def unfolded(self, tokens, fixed):
        """The tokens of a term in the one form, with so many parameters."""
        items = tree_of(tokens)
        return tokens if items is None else [*flat(Numbers(fixed).of_term(plain(self.open(items))))]

    def meaning(self, name):
        """How many parameters a word has, and what it means, these by their numbers; or None where it stays."""
        if name not in self.known:
            self.known[name] = None
            self.known[name] = self.read(self.tree.antt[name]) if name in self.tree.antt else None
        return self.known[name]

    def read(self, it):
        groups = [one for one in parts.grouped("\n".join(it.lines)) if not one[0].startswith("unfolding")]
        if len(groups) != 2 or not groups[0][0].startswith("abbrev ") or "◌" in it.name:
            return None
        tokens, unknown, self.printer.unknown = frozen["tokens_of"]("\n".join(groups[1])), self.printer.unknown, {}
        left = frozen["until"](tokens, 0, ("=",))
        reader = frozen["Reader"](self.printer, it.id, self.tree.scopes[it.file])
        reader.pattern(left[1:])
        count = len(left) - 1
        body = self.unfolded(reader.terms(tokens[len(left) + 1 :]), count)
        is_sure, self.printer.unknown = not self.printer.unknown, unknown
        is_plain = left[:1] == [it.name] and [reader.frames[0].get(one) for one in left[1:]] == [*range(1, count + 1)]
        body = tree_of(body) if is_plain and is_sure and "\n" not in body and len(body) <= LONGEST else None
        return body and (count, body)

    def open(self, items):
        """The term with each word replaced by its meaning, together with what it is given, and each `let` by what it binds."""
        out, k = [], 0
        while k < len(items):
            it = items[k]
            name, before, behind = isinstance(it, str) and NAMED.fullmatch(it), out[-1] if out else None, items[k + 1] if k + 1 < len(items) else None
            is_head = not (isinstance(before, str) and before in NO_HEAD) and (behind is None or isinstance(behind, str) or behind[0] != "{")
            found = name and is_head and self.meaning(name[1])
            if found:
                given, k = arguments(items, k + 1, 0 if ends_term(before) else found[0])
                out.append(self.given_to(*found, [self.open(one) for one in given]))
            elif it == "let" and (parted := let_at(items, k)):
                number, value, rest, k = parted
                out.append(("(", self.open(put(rest, {number: [("(", value)]}, 0))))
            else:
                out.append(it if isinstance(it, str) else (it[0], self.open(it[1])))
                k += 1
        return out

    def given_to(self, count, body, given):
        """What a word means of what it is given, as one term. What it isn't given stays bound."""
        self.serial += 10000
        free = [f"\1\2{self.serial + number}\1" for number in range(len(given) + 1, count + 1)]
        body = put(body, dict(enumerate([*given, *[[it] for it in free]], 1)), self.serial)
        return ("(", ["λ", *free, ".", *body] if free else body)


def arguments(items, at, count):
    """The next arguments, at most so many, each with its fields, and the place behind them."""
    found = []
    while len(found) < count and at < len(items) and is_atom(items[at]):
        end = at + 1
        while end < len(items) and is_field(items[end]):
            end += 1
        found.append(items[at:end])
        at = end
    return found, at


def let_at(items, at):
    """Of a `let` of one name: its number, its value, the term that it is for, and the place behind that; None where it stays."""
    bound = re.fullmatch("\1[^\2]*\2(\\d+)\1", items[at + 1]) if at + 2 < len(items) and isinstance(items[at + 1], str) and items[at + 2] == "=" else None
    depth, middle = 1, at + 3
    while bound and middle < len(items) and depth:
        depth += (items[middle] == "let") - (items[middle] == "in")
        middle += 1
    value = items[at + 3 : middle - 1]
    if not bound or depth or len([*flat(value)]) > LONGEST_VALUE:
        return None
    end = next((k for k in range(middle, len(items)) if items[k] in (",", ";", "|", "\n")), len(items))
    return int(bound[1]), value, items[middle:end], end
