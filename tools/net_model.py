"""Runs the plan of a network's schedule by the rules of docs/network.md, for tools/draw-nets. The rules are written out
here once more, and share no code with the crates.

A cub's lists are asked anew for each sum, so a run takes long if there are very many entries.
"""
import collections

WORD, HALF = (1 << 64) - 1, (1 << 32) - 1
LIVE = ("placed", "waiting")
Packet = collections.namedtuple("Packet", "kind entry to quantum sum", defaults=(None, None))


class Generator:
    """PCG XSH-RR 64/32, as rand_pcg's Lcg64Xsh32 starts it with a state and a stream."""

    def __init__(self, state, stream):
        self.increment = (stream << 1 | 1) & WORD
        self.state = (state + self.increment) & WORD
        self.word()

    def word(self):
        """The next word of 32 bits."""
        state = self.state
        self.state = (state * 6364136223846793005 + self.increment) & WORD
        mixed, turn = (state >> 18 ^ state) >> 27 & HALF, state >> 59
        return (mixed >> turn | mixed << (-turn & 31)) & HALF


class Entry:
    """An entry that was asked for, and how it stands; with what its line says behind that."""

    def __init__(self, instance, at, rate, cub):
        self.instance, self.at, self.rate, self.cub, self.state, self.why = instance, at, rate, cub, None, ""

    def ends(self, state, quantum, total):
        """Ends it, as this quantum carries so much."""
        self.state, self.why = state, f" {quantum} sum {total}"

    def line(self):
        """Its line."""
        return f"entry {self.instance} cub {self.cub} at {self.at} rate {self.rate} {self.state}{self.why}\n"


class Ring:
    """The cubs of a plan with their entries, the packets that are under way, and what placed entries take."""

    def __init__(self, plan):
        self.cubs, self.own, self.capacity = plan["cubs"], plan["quanta"], plan["capacity"]
        self.quanta = self.cubs * self.own
        self.entries, self.kept = [], [{} for _ in range(self.cubs)]  # kept: by cub, entries by instance
        self.under_way, self.placed = collections.deque(), [0] * self.quanta

    def takes(self, entry, quantum):
        """Whether an entry takes a quantum."""
        return (quantum - entry.at) % self.quanta < self.own

    def reaches(self, entry):
        """Whether an entry reaches the next cub."""
        return entry.at % self.own != 0

    def carried(self, cub, quantum):
        """What a quantum carries at its cub."""
        own = [it for it in self.entries if it.cub == cub and it.state in LIVE]
        return sum(it.rate for it in [*own, *self.kept[cub].values()] if self.takes(it, quantum))

    def first_over(self, cub, entry):
        """The first quantum of a cub that cannot carry an entry too, with its sum; None if all can."""
        for quantum in range(cub * self.own, (cub + 1) * self.own):
            total = self.carried(cub, quantum)
            if self.takes(entry, quantum) and total + entry.rate > self.capacity:
                return quantum, total
        return None

    def send(self, kind, entry, to, *over):
        """Sends a packet to a cub."""
        self.under_way.append(Packet(kind, entry, to % self.cubs, *over))

    def place(self, entry, sign=1):
        """Places an entry, or takes it away again."""
        for quantum in range(entry.at, entry.at + self.own):
            self.placed[quantum % self.quanta] += sign * entry.rate

    def ask(self, at, rate):
        """An ask."""
        entry = Entry(len(self.entries), at, rate, at // self.own)
        over = self.first_over(entry.cub, entry)
        self.entries.append(entry)
        if over:
            entry.ends("full", *over)
        elif self.reaches(entry):
            entry.state = "waiting"
            self.send("reserve", entry, entry.cub + 1)
        else:
            entry.state = "placed"
            self.place(entry)

    def stop(self, instance):
        """A stop."""
        entry = self.entries[instance]
        if entry.state not in LIVE:
            return
        if entry.state == "placed":
            self.place(entry, -1)
        entry.state = "stopped"
        if self.reaches(entry):
            self.send("release", entry, entry.cub + 1)

    def renew(self):
        """All cubs send again what was maybe lost."""
        for cub in range(self.cubs):
            for entry in self.entries:
                if entry.cub == cub and entry.state == "waiting":
                    self.send("reserve", entry, cub + 1)
            for _, entry in sorted(self.kept[cub].items()):
                self.send("confirm", entry, cub - 1)

    def take(self, packet):
        """A cub takes a packet."""
        entry, kept = packet.entry, self.kept[packet.to]
        if packet.kind == "reserve":
            over = None if entry.instance in kept else self.first_over(packet.to, entry)
            if not over:
                kept[entry.instance] = entry
            self.send("refuse" if over else "confirm", entry, entry.cub, *(over or ()))
        elif packet.kind == "release":
            kept.pop(entry.instance, None)
        elif packet.kind == "refuse" and entry.state == "waiting":
            entry.ends("refused", packet.quantum, packet.sum)
        elif packet.kind == "confirm" and entry.state == "waiting":
            entry.state = "placed"
            self.place(entry)
        elif packet.kind == "confirm" and entry.state != "placed":
            self.send("release", entry, entry.cub + 1)


def lines(plan):
    """The lines of a plan's run, as bytes."""
    ring, peak = Ring(plan), (0, 0)
    generator = Generator(plan["seed"], 2) if "seed" in plan else None
    left = collections.deque(plan["events"])
    for step in range(plan["steps"]):
        while left and left[0]["step"] == step:
            event = left.popleft()
            ring.stop(event["stop"]) if "stop" in event else ring.ask(event["at"], event["rate"])
        if step and "renew" in plan and step % plan["renew"] == 0:
            ring.renew()
        if ring.under_way:
            packet, way = ring.under_way.popleft(), generator.word() % 4 if generator else 2
            if way == 1:
                ring.under_way.append(packet)
            if way:
                ring.take(packet)
        most = max(ring.placed)
        if most > peak[0]:
            peak = most, ring.placed.index(most)
    return "".join([*map(Entry.line, ring.entries), f"peak {peak[0]} at {peak[1]}\n"]).encode()
