"""The numbers that pages say outside of code: each with what it is compared with, and those that nothing compares.

A number is compared by a rule below with the source, or stands in one of the files of docs/figures that the page names (with the sums of their
columns, and a short one beside the same word), in a script that it names, or in one of its blocks of code, which other tools compare."""
import base64
import collections
import functools
import glob
import json
import os
import re

from counts import all_counts, refusals
from crates import ROOT

# The pages whose numbers and sentences are looked at.
PAGES = ("README.md", "CONTRIBUTING.md", "SECURITY.md", *sorted(os.path.relpath(it, ROOT) for it in glob.glob(f"{ROOT}/docs/*.md")))
NUMBER = re.compile(r"(?<![\w.^-])\d[\d,.]*\d|(?<![\w.^-])\d")
# What is a name, and no figure.
MONTHS = "January|February|March|April|May|June|July|August|September|October|November|December"
NAMES = (
    r"\bICS \d+(?:(?:,| and) \d+)*|\bRFC \d+(?:, section [\d.]*\d)?|\bICS\d+-[a-zA-Z]+-\d+(?:, \d+\b)*|\bnote-\d(?:, \d+\b)*"
    r"|\bApache-2\.0|\bx86-64(?:-v\d)?|\bSSE4\.2|\bPython 3|\bSHA-256|\b(?:\d{1,2} )?(?:" + MONTHS + r") \d{4}|\bIn 20\d\d\b"
    r"|\b2\^64(?: - [12])?|\b[hn] [+-] 1\b|\b\dn\b|(?m:^(?:\| )?\d+\.(?= ))"
)
# Pages that a tool writes and compares as a whole.
WRITTEN = ("docs/REFUSALS.md",)
GENESIS = "crates/ibc_machine/specs/chain/Genesis.antt"
SCRIPT = "crates/ibc_script/src/script.rt"
NAME = "crates/ibc_ids/specs/Names.antt"
CALLS = "crates/ibc_calls/specs/CallAnswers.antt"
PACKETS = "crates/ibc_machine/specs/ics04/Packets.antt"
KINDS = "crates/ibc_wire/specs/Kinds.antt"
# Where a page says a limit, and where the source has it. The numbers of the groups are the same, one behind another.
LIMITS = [
    (r"(?:object .{0,30}at most|script has) ([\d,]+) bytes", SCRIPT, r"MOST_BYTES: usize = ([\d_]+)"),
    (r"how many heights a chain may publish: (\d+) to ([\d,]+)", GENESIS,
     r"nat_le (\d+) genesis\.capacity && nat_le genesis\.capacity (\d+)"),
    (r"keeps for others, (\d+) to ([\d,]+)", GENESIS, r"nat_le (\d+) genesis\.window\s*&& nat_le genesis\.window (\d+)"),
    (r"capacity says, ([\d,]+) at most", GENESIS, r"nat_le genesis\.capacity (\d+)"),
    (r"smaller of the capacity and ([\d,]+)", "crates/ibc_script/src/reading.rt", r"USUAL_WINDOW: u64 = ([\d_]+)"),
    (r"\| (\d+) to (\d+) chains", GENESIS, r"nat_le (\d+) \(length genesis\.chains\) && nat_le \(length genesis\.chains\) (\d+)"),
    (r"at most ([\d,]+) steps", SCRIPT, r"MOST_STEPS: usize = ([\d_]+)"),
    (r"`turns`, 1 to ([\d,]+)", SCRIPT, r"MOST_TURNS: u16 = ([\d_]+)"),
    (r"(?:list of|script names|\(1 byte,) (\d+) to (\d+)(?: tokens| `\[denom|\))", "crates/ibc_wire/specs/Tokens.antt",
     r"nat_le (\d+) .*nat_le .* (\d+)"),
    (r"(?:relayers, |threads, |digit from )(\d) to (\d)", "crates/ibc_script_cli/src/program.rt", r"(\d) ≤ relayers × relayers ≤ (\d)"),
    (r"(?:acknowledgement has|Acknowledgements of|acknowledgement, of|Data has) (\d+) to ([\d,]+) bytes", PACKETS,
     r"nat_le (\d+) \(length text\) && nat_le \(length text\) (\d+)"),
    (r"notes and acknowledgements of ([\d,]+) bytes", PACKETS, r"nat_le \(length text\) (\d+)"),
    (r"(?:S|A s)equences? (?:are|is) 1 to 2\^(\d+) - 2", PACKETS, r"not \(p\.sequence == 0\) && not \(p\.sequence == 2 \^ (\d+) - 1\)"),
    (r"timeout that isn't (\d)", PACKETS, r"is_reached limit now = not \(limit == (\d)\)"),
    (r"below 2\^(\d+)", GENESIS, r"2 \^ (\d+)"),
    (r"(?:fit|Amounts have) (\d+) bits|above (\d+) bits", GENESIS, r"2 \^ (\d+)"),
    (r"\| chain \| (\d+) to (\d+)", "crates/ibc_script/specs/", r"is_made_of is_chain_name_byte (\d+) (\d+)"),
    *((rf"\| {kind} \| (\d+) to (\d+)", NAME, rf"(?m)^is_{kind.replace('base denomination', 'base_denom')} = is_made_of \w+ (\d+) (\d+)")
      for kind in ("user", "receiver", "memo", "base denomination", "client", "connection", "channel", "port", "version")),
    (r"hops, .*; (\d+) bytes in all", NAME, r"is_denom text = nat_le \(length text\) (\d+)"),
    (r"(\d+) to (\d+) are those of calls", CALLS, r"(?s)number_of Empty = (\d+).*number_of OtherAnswer = (\d+)"),
    (r"A port has (\d+) to (\d+) bytes, a client (\d+) to (\d+), a connection (\d+) to (\d+), a channel (\d+) to (\d+)", NAME,
     "(?s)" + ".*".join(rf"is_{kind} = is_made_of \w+ (\d+) (\d+)" for kind in ("port", "client", "connection", "channel"))),
    (r"name with its hops has at most (\d+) bytes", NAME, r"is_denom text = nat_le \(length text\) (\d+)"),
    (r"packet has (\d+) to (\d+) tokens|: (\d+) to (\d+) tokens, in rising order", "crates/ibc_wire/specs/Tokens.antt", r"nat_le (\d+) .*nat_le .* (\d+)"),
    (r"`channel-\{n\}`, from (\d) on|counts its clients, connections and channels from (\d)", GENESIS, r"next_channel = (\d)"),
    (r"three counters from (\d) on|an end its packets from (\d)", "crates/ibc_machine/specs/ics04/Channels.antt", r"next_send = (\d)"),
    (r"[Rr]evision(?: is(?: always)?)? (\d)\b", "crates/ibc_machine/specs/ics24/Values.antt", r"to_be_bytes w64 (\d) "),
    (r"sibling of (\d+) bytes|sees others through (\d+)-byte roots", "crates/ibc_merkle/specs/Proofs.antt", r"length operation\.suffix == (\d+)"),
    (r"sends more than (\d)", "crates/ibc_machine/specs/ics20/Transfers.antt", r"require \(not \(m\.amount == (\d)\)\) TooLarge"),
    (r"by a number from (\d+) to (\d+)", "crates/ibc_ids/src/refusal.rt", r"(?s)NoMemory = (\d+),.*Pruned = (\d+),"),
    (r"messages of tag (\d+) and of tags (\d+) to (\d+)", KINDS,
     r"(?s)kind\.UpdateClient = (\d+).*kind\.RecvPacket = (\d+).*kind\.TimeoutOnClose = (\d+)"),
    (r"client's state as tags (\d) and (\d) want it", KINDS, r"(?s)kind\.ConnOpenTry = (\d+).*kind\.ConnOpenAck = (\d+)"),
    (r"No proof has more than ([\d,]+) bytes", "include/ibcworld.h", r"IBCW_LONGEST_PROOF = (\d+)"),
    (r"cargo \(([\d.]+) or newer\)", "examples/library/rust/Cargo.toml", r'rust-version = "([\d.]+)"'),
    (r"([\d,]+) changed messages do no harm", "tools/build_library", r"MUTATED:-(\d+)"),
    (r"lists (\d+) levels deep", "tools/broken_streams", r'"(\d+) levels of lists"'),
    (r"reads give at most (\d) bytes", "tools/broken_streams", r'"FAIL_READ", -\(-len\(self\.text\) // (\d)\)'),
    (r"writes take at most (\d) ", "tools/broken_streams", r'"FAIL_WRITE", -\(-len\(whole\) // (\d)\)'),
    (r"sends ([\d,]+) messages with wrong bytes", "test.sh", r"wrong_bytes --count (\d+)"),
    (r"with status (\d)", "tools/check_statuses", r'"bad script": \((\d),'),
    (r"\| (\d) \| `ibcworld: bad arguments`", "tools/check_statuses", r'"bad arguments": \((\d),'),
    (r"at most (\d+) changes", "crates/ibc_maps/src/shared_map.rt", r"MANY: usize = (\d+)"),
    (r"height within ([\d,]+) looks", "crates/ibc_root_table/src/tests/races.rt", r"TURNS: u64 = ([\d_]+)"),
    (r"records keep (\d+) hashes of inner nodes|in place of (\d+): `proofs`", "crates/ibc_ics23_proof/src/memory.rt", r"SLOTS: usize = (\d+)"),
    (r"node's (\d+) bytes|copied and compared: (\d+) bytes", "crates/ibc_ics23_proof/src/operations.rt", r"NODE_LEN: usize = (\d+)"),
    (r"name of up to (\d+) bytes", "crates/ibc_ids/src/name_text.rt", r"IN_PLACE: usize = (\d+)"),
    (r"at most (\d+) channels|stand at more than (\d+)", "crates/ibc_relayer/src/senders.rt", r"FEW: usize = (\d+)"),
]
# What another tool compares: the words on a page, or the group among them, the tool, and what stands in it.
ELSEWHERE = [
    (r"[\d,]+ roots and [\d,]+ proofs, each also with a bit turned", "tools/third_party", "proofs, each also with a bit turned"),
    (r"sends [\d,]+ as cases of `ibc_cases`, and [\d,]+ by this tool", "tools/figures.py", "by this tool"),
    (r"(?m)^### [^\n]*: \d+ minutes$|^- `ibc_\w+/specs/[\w/]+` \(\d+\)", "tools/page_checks.py", "minutes"),
    (r"(?m)^- \*\*(?:ICS\d+|note)-(?:(?!\n\n|\n- )[\s\S])*?\. (\(`(?:(?!\n\n|\n- )[\s\S])*\))$", "tools/check_rules", "RULE ="),
]


@functools.lru_cache
def read(path):
    """A file, or all files of a folder."""
    paths = sorted(glob.glob(f"{ROOT}/{path}*.antt")) if path.endswith("/") else [f"{ROOT}/{path}"]
    return "\n".join(open(it, encoding="utf-8").read() for it in paths if os.path.isfile(it))


def plain(number):
    """A number without the marks between its digits."""
    return re.sub(r"[,_]", "", number)


def without_code(text):
    """A page with blanks where it has blocks of code, and where links lead; each place stays where it was."""
    blank = lambda found: re.sub(r"[^\n]", " ", found.group())
    text = re.sub(r"(?ms)^```.*?^```$", blank, text)
    text = re.sub(r"(?m)^    .*$", lambda it: blank(it) if not re.match(r"    [-*]", it.group()) else it.group(), text)
    text = re.sub(r"(?m)^#.*$", blank, text)
    return re.sub(r"(?<=\])\([^)]*\)", blank, text)


@functools.lru_cache
def numbered():
    """The names of refusals, of the core and of calls, and of messages, with their numbers."""
    found = re.findall(r"(?m)^\s+(\w+) = (\d+),", read("crates/ibc_ids/src/refusal.rt"))
    found += re.findall(r"(?m)^number_of (\w+) = (\d+)$", read(CALLS))
    tags = re.findall(r"(?m)^tag_of kind\.(\w+) = (\d+)$", read("crates/ibc_wire/specs/Kinds.antt"))
    return {name: int(number) for name, number in found}, {name: int(number) for name, number in tags}


def by_counts(text):
    """Numbers of what is counted: counts.wrong_numbers compares them."""
    for noun in all_counts():
        for found in re.finditer(rf"(?i)([\d,]*\d)\s+{noun.replace(' ', chr(92) + 's+')}\b", text):
            yield found.span(1), ""


def by_names(text):
    """Numbers that are part of a name."""
    for found in re.finditer(NAMES, text):
        yield found.span(), ""


def by_refusals(text):
    """A refusal's number before its name, and the numbers between which all of them lie."""
    named, _ = numbered()
    for found in re.finditer(r"\b(\d+),?\s+`(\w+)`", text):
        if found[2] in named:
            yield found.span(1), "" if named[found[2]] == int(found[1]) else f"{found[2]} is {named[found[2]]}, and not {found[1]}"
    for found in re.finditer(r"(\d+) to (\d+) are the core's refusals|refusal has a number from (\d+) to (\d+)", text):
        last = int(found[2] or found[4])
        yield found.span(), "" if last == refusals() else f"the last refusal is {refusals()}, and not {last}"


def by_tags(text):
    """Tags of messages, in rows that begin with them."""
    _, tags = numbered()
    for found in re.finditer(r"(?m)^\| (\d+(?:, \d+)*) \| ([\w, ]+) \|", text):
        names = found[2].split(", ")
        if all(it in tags for it in names):
            same = [tags[it] for it in names] == [int(it) for it in found[1].split(", ")]
            yield found.span(1), "" if same else f"{found[2]} have other tags than {found[1]}"


def by_limits(text):
    """Limits, which are compared with where the source has them."""
    for page, path, source in LIMITS:
        there = re.search(source, read(path))
        for found in re.finditer(page, re.sub(r"\n", " ", text)):
            said, is_so = [plain(it) for it in found.groups() if it], there and [plain(it) for it in there.groups() if it]
            yield found.span(), "" if said == is_so else f"'{found[0]}', and {path} has {is_so}"


def by_powers(text):
    """Numbers that are a power of two less one."""
    for found in re.finditer(r"\b\d{10,}\b", text):
        number = int(found[0]) + 1
        yield found.span(), "" if number & (number - 1) == 0 else f"{found[0]} isn't a power of two less one"


def by_examples(text):
    """How many bytes an example has that stands before."""
    for found in re.finditer(r"`([^`\n]+)` \((\d+) bytes\)", text):
        size = len(found[1].encode())
        yield found.span(2), "" if size == int(found[2]) else f"{found[1]} has {size} bytes, and not {found[2]}"


@functools.lru_cache
def widths():
    """How many bytes a field has, by the last part of its name."""
    fields = "".join(read(f"crates/ibc_wire/specs/{it}.antt") for it in ("Messages", "Spelling"))
    sizes = {"one_byte": 1, "be64": 8, "be128": 16, "root32": 32}
    found = re.findall(r"\b(one_byte|be64|be128|root32) \(?(?:\w+ )?[\w.]*?([a-z]+)\b(?!\.)", fields)
    return {name: sizes[kind] for kind, name in found}


def by_widths(text):
    """How many bytes a field of a message has."""
    for found in re.finditer(r"\b([a-z]+) \((\d+) bytes?\b", text):
        width = widths().get(found[1])
        if width:
            yield found.span(2), "" if width == int(found[2]) else f"the field {found[1]} has {width} bytes, and not {found[2]}"


def by_printed(text):
    """How many lines the README's first run prints: page_checks.printed compares it."""
    for found in re.finditer(r"\bof (\d+) lines", text):
        yield found.span(1), ""


def by_the_crates(text):
    """How many wrong definitions there are, and how many messages connections, channels and packets have."""
    wrong = len(glob.glob(f"{ROOT}/crates/ibc_machine/must-fail/*.edit"))
    kinds = sum(1 for it in numbered()[1] if re.match(r"Conn|Chan|RecvPacket|AckPacket|Timeout", it))
    for noun, number in (("wrong definitions", wrong), ("messages is answered", kinds), ("messages are answered", kinds)):
        for found in re.finditer(rf"(\d+)\s+{noun}", text):
            yield found.span(1), "" if int(found[1]) == number else f"it says {found[1]} {noun}, and there are {number}"


def by_base64(text):
    """What a text says in base64."""
    for found in re.finditer(r"`([A-Za-z0-9+/]+=*)` in [\w ]+ is the byte (\d+) in base64", text):
        byte = list(base64.b64decode(found[1]))
        yield found.span(2), "" if byte == [int(found[2])] else f"{found[1]} is {byte} in base64, and not {found[2]}"


def by_bits(text):
    """How many bytes a number has."""
    for found in re.finditer(r"numbers\s+in\s+(\d+)\s+bytes,\s+big-endian", text):
        bits = re.search(r"commitment_text c =\s+to_be_bytes w(\d+)", read("crates/ibc_machine/specs/ics24/Values.antt"))
        is_so = bits and int(bits[1]) == 8 * int(found[1])
        yield found.span(1), "" if is_so else f"'{found[0]}', and a commitment's numbers have other bits"


def by_bench(text):
    """How much work the jobs of the benchmark are: by their words, and by the script."""
    words = dict(re.findall(r"(?m)^(\w+) ibc_bench \w+ (\d+) SEED$", read("bench/workloads.txt")))
    script = json.loads(read("bench/script.json"))
    done = collections.Counter(it["do"] for it in script["steps"])
    held = [(chain["name"], *it) for chain in script["chains"] for it in chain["balances"]]
    counts = {"users who": len({it[:2] for it in held}), "holdings": len(held), "transfers": done["Transfer"], "notes": done["SendNote"], "`totals`": done["totals"]}
    of_words = {"connections and channels between": words["handshakes"], "packets \\|": words["proofs"]}
    of_script = {rf"{noun}(?=[^|\n]*one in twenty transfers times out \|)": str(count) for noun, count in counts.items()}
    for noun, count in {**of_words, **of_script}.items():
        for found in re.finditer(rf"([\d,]+) {noun}", text):
            yield found.span(1), "" if plain(found[1]) == count else f"'{found[0]}', and the benchmark has {count}"


def by_other_tools(text):
    """What another tool compares, which is looked at there."""
    for page, tool, source in ELSEWHERE:
        for found in re.finditer(page, text):
            yield found.span(found.re.groups), "" if source in read(tool) else f"{tool} doesn't compare '{found[0][:60]}'"


RULES = (by_base64, by_bits, by_bench, by_other_tools, by_names, by_counts, by_refusals, by_tags, by_limits, by_powers, by_examples, by_widths, by_printed, by_the_crates)


def faults():
    """Each number that isn't what it is compared with."""
    for page in PAGES:
        text = without_code(read(page))
        yield from (f"{page}: {fault}" for rule in RULES for _, fault in rule(text) if fault)


def sums_of(text):
    """The sums of the numbers that stand at one place of the lines of a text."""
    rows = [[int(plain(it)) for it in re.findall(r"\b\d+\b", line)] for line in text.split("\n")]
    return [f"{sum(it):,}" for size in {len(it) for it in rows} for it in zip(*(row for row in rows if len(row) == size))]


def beside(text):
    """Each number of a text with the word before it, and with the word behind it."""
    words = [it for it in (re.sub(r"^[^\w]+|[^\w]+$", "", word) for word in text.split()) if it]
    for first, second in zip(words, words[1:]):
        if first[0].isdigit() or second[0].isdigit():
            yield first, second


def known_to_tools(page):
    """The numbers of the page's blocks of code and of the scripts that it names; and those of the files of figures, with the sums of these, and each
    with the words beside it."""
    text = read(page)
    scripts = [read(it) for it in re.findall(r"\bexamples/\w+\.json", text)]
    figures = [read(f"docs/{it}") for it in re.findall(r"\bfigures/\w+\.txt", text)]
    of_numbers = lambda texts: re.findall(r"(?<![\w.])\d[\d,.]*\d|(?<![\w.])\d", " ".join(texts))
    shown = {*of_numbers([*re.findall(r"(?m)^    .*$", text), *scripts]), *(number for it in figures for number in sums_of(it) if len(number) > 2)}
    return shown, {*of_numbers(figures)}, {it for text in figures for it in beside(text)}


def is_known(text, found, known):
    """Whether a number of a page stands where other tools compare it. One of a file of figures that has less than four digits has to stand beside the
    same word there, but in a cell of its own, since tools/page_checks.py compares rows."""
    shown, figures, neighbours = known
    if found[0] in shown or found[0] not in figures:
        return found[0] in shown
    is_long = len(re.sub(r"\D", "", found[0])) > 3
    is_cell = re.search(r"\| $", text[: found.start()]) and re.match(r"(?: \([^|]*\))? \|", text[found.end() :])
    around = [*text[: found.start()].split()[-1:], found[0], *text[found.end() :].split()[:1]]
    return is_long or bool(is_cell) or any(it in neighbours for it in beside(" ".join(around)))


def uncompared():
    """Each number of the pages that no rule covers, with the words around it."""
    for page in PAGES:
        if page in WRITTEN:
            continue
        text = without_code(read(page))
        spans = [span for rule in RULES for span, _ in rule(text)]
        spans += [it.span() for it in re.finditer(r"`[^`\n]*`", text)]
        known = known_to_tools(page)
        for found in NUMBER.finditer(text):
            if not any(begin <= found.start() < end for begin, end in spans) and not is_known(text, found, known):
                around = " ".join(text[max(0, found.start() - 50) : found.end() + 40].split())
                yield f"{page}: {found[0]}: .. {around} .."
