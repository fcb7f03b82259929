"""The single steps that a run of a script took, one for each line that it printed before the balances.

An `open` and a `relay` stand for many steps, and which ones depends on what the chains answered. Here they are written out, by the
rules of docs/SCRIPTS.md alone: so that one of them can be left out of a script, as any other step can. Timeouts of a `relay` are
not known here; where a line isn't the one that is due, `NotUnderstood` is raised.
"""

APPS = {
    "note": ("note", "ORDERED", "note-1"),
    "transfer": ("transfer", "UNORDERED", "ics20-1"),
    "transfer2": ("transfer", "UNORDERED", "ics20-own-2"),
}
SENDS = {"SendNote": "note", "Transfer": "transfer", "TransferMany": "transfer"}


class NotUnderstood(Exception):
    """A line isn't the one that is due."""


def step(do, on, source=None, **members):
    """A single step. `source` stands for its member `from`."""
    made = {"do": do, "on": on, **members}
    return made if source is None else {**made, "from": source}


def turns_of_open(x, y, app, got):
    """The twenty steps of an `open`, each with the name of what it gives. `got` has what the steps before gave."""
    port, order, version = APPS[app]
    channel = {"port": port, "order": order, "peer_port": port, "version": version}
    yield "cx", step("CreateClient", x, of=y)
    yield "cy", step("CreateClient", y, of=x)
    yield "nx", step("ConnOpenInit", x, client=got["cx"], peer_client=got["cy"])
    yield "hx", step("Block", x)
    yield "", step("UpdateClient", y, client=got["cy"], height=int(got["hx"]))
    names = {"client": got["cy"], "peer_client": got["cx"], "peer_connection": got["nx"]}
    yield "ny", step("ConnOpenTry", y, x, **names, height=int(got["hx"]))
    yield "hy", step("Block", y)
    yield "", step("UpdateClient", x, client=got["cx"], height=int(got["hy"]))
    yield "", step("ConnOpenAck", x, y, connection=got["nx"], peer_connection=got["ny"], height=int(got["hy"]))
    yield "mx", step("ChanOpenInit", x, **channel, connection=got["nx"])
    yield "hx", step("Block", x)
    yield "", step("UpdateClient", y, client=got["cy"], height=int(got["hx"]))
    yield "", step("ConnOpenConfirm", y, x, connection=got["ny"], height=int(got["hx"]))
    names = {"connection": got["ny"], "peer_channel": got["mx"]}
    yield "my", step("ChanOpenTry", y, x, **channel, **names, height=int(got["hx"]))
    yield "hy", step("Block", y)
    yield "", step("UpdateClient", x, client=got["cx"], height=int(got["hy"]))
    names = {"port": port, "channel": got["mx"], "peer_channel": got["my"]}
    yield "opened x", step("ChanOpenAck", x, y, **names, height=int(got["hy"]))
    yield "hx", step("Block", x)
    yield "", step("UpdateClient", y, client=got["cy"], height=int(got["hx"]))
    yield "opened y", step("ChanOpenConfirm", y, x, port=port, channel=got["my"], height=int(got["hx"]))


class Packet:
    """A packet, and from which heights on it was sent, received and settled."""

    def __init__(self, source, sequence, sent):
        self.source, self.sequence, self.sent = source, sequence, sent
        self.received = self.settled = None

    def name(self):
        return [*self.source, self.sequence]


def is_by(height, seen):
    """Whether something that a chain has from a height on, or never, stands at the height that is seen."""
    return height is not None and height <= seen


class Run:
    """What is known of the chains while the lines of a run are read."""

    def __init__(self, script, lines):
        self.lines, self.steps = lines, []
        self.height = {chain["name"]: 0 for chain in script["chains"]}
        self.known = {}  # what clients know, (chain, client, height), and from which height on
        self.ends = {}  # open ends, (chain, port, channel): their peers and clients, and from which height on
        self.packets = []
        for it in script["steps"]:
            {"open": self.open, "relay": self.relay}.get(it["do"], self.take)(it)

    def take(self, single):
        """Takes the next line as that of a single step. What it gives, or nothing where the step wasn't accepted."""
        if len(self.steps) >= len(self.lines):
            raise NotUnderstood(f"no line for {single}")
        words = self.lines[len(self.steps)].split(" ", 3)
        if words[:2] != [single["on"], single["do"]]:
            raise NotUnderstood(f"{self.lines[len(self.steps)]!r} for {single}")
        self.steps.append(single)
        if words[2:3] != ["ok"]:
            return None
        given = words[3] if len(words) > 3 else ""
        self.learn(single, given)
        return given

    def learn(self, single, given):
        """What an accepted step says of its chain."""
        on, do = single["on"], single["do"]
        working = self.height[on] + 1
        if do == "Block":
            self.height[on] = int(given)
        elif do == "UpdateClient":
            self.known.setdefault((on, single["client"], single["height"]), working)
        elif do in SENDS:
            self.packets.append(Packet((on, SENDS[do], single["channel"]), int(given), working))
        for it in self.packets:
            if it.name() == single.get("packet") and do == "RecvPacket":
                it.received = working
            elif it.name() == single.get("packet"):
                it.settled = working

    def open(self, single):
        """Takes the lines of an `open`, up to the first that isn't accepted."""
        x, y = single["chains"]
        port = APPS[single["app"]][0]
        got = {}
        for name, it in turns_of_open(x, y, single["app"], got):
            given = self.take(it)
            if given is None:
                return
            got[name] = given
            if name == "opened x":
                self.ends[x, port, got["mx"]] = (y, port, got["my"]), got["cx"], self.height[x] + 1
            if name == "opened y":
                self.ends[y, port, got["my"]] = (x, port, got["mx"]), got["cy"], self.height[y] + 1

    def owed(self, a, b, end):
        """What a relayer owes to an open end of b from a, as both stand at their last heights."""
        peer = self.ends[end][0]
        seen, own = self.height[a], self.height[b]
        packets = sorted(self.packets, key=lambda it: it.sequence)
        for it in packets:
            stands = is_by(it.sent, seen) and not is_by(it.settled, seen)
            if it.source == peer and stands and not is_by(it.received, own):
                yield step("RecvPacket", b, packet=it.name(), height=seen)
        for it in packets:
            stands = is_by(it.sent, own) and not is_by(it.settled, own)
            if it.source == end and stands and is_by(it.received, seen):
                yield step("AckPacket", b, a, packet=it.name(), height=seen)

    def plan(self, a, b):
        """What a relayer sends to b from a."""
        seen, own = self.height[a], self.height[b]
        clients, steps = set(), []
        for end, (peer, client, since) in sorted(self.ends.items()):
            if end[0] == b and peer[0] == a and is_by(since, own):
                owed = list(self.owed(a, b, end))
                clients.update([client] if owed else [])
                steps += owed
        unaware = [it for it in sorted(clients) if not is_by(self.known.get((b, it, seen)), own)]
        return [step("UpdateClient", b, client=it, height=seen) for it in unaware] + steps

    def relay(self, single):
        """Takes the lines of a `relay`."""
        x, y = single["chains"]
        for _ in range(single["turns"]):
            self.take(step("Block", x))
            self.take(step("Block", y))
            for it in self.plan(x, y) + self.plan(y, x):
                self.take(it)


def single_steps(script, lines):
    """The single steps that a script took, whose run printed these lines: as many as lines before the balances."""
    return Run(script, lines).steps
