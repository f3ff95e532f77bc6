"""What is kept of a run, read from its text and written as one again (docs/formats.md, section 7), for tools/clauses.py and
tools/mutations.py. It shares no code with the crates.

Python 3.8 or later, and nothing but its standard library.
"""
import collections

KEYS = ("cubs", "disks", "slots", "play", "pieces", "block", "beat", "delay", "skew", "window_a", "window_b", "read_lead",
        "min_lead", "max_lead", "batch", "heart", "deadman", "hold")
STATE, MIRROR, START, DESCHEDULE, KILL, PLACED, HEARTBEAT, ASK, ANSWER, WHOLE, PIECE, BACK = range(12)  # the kinds of notes
OWN, BACKUP = 0, 1  # the kinds of records

Plan = collections.namedtuple("Plan", KEYS)
Life = collections.namedtuple("Life", "death left back")  # beats, and how many messages; None if there is none
Fault = collections.namedtuple("Fault", "disk start until")
File = collections.namedtuple("File", "bytes disk")
Ask = collections.namedtuple("Ask", "instance file count disk")
Order = collections.namedtuple("Order", "beat ask stop")  # a start has an ask, and a stop an instance
Entry = collections.namedtuple("Entry", "beat reading word fields")
Tenancy = collections.namedtuple("Tenancy", "instance file slot first last")
Record = collections.namedtuple("Record", "tenancy visit kind")
Want = collections.namedtuple("Want", "instance slot visit file block piece")
Span = collections.namedtuple("Span", "file start bytes")
Parcel = collections.namedtuple("Parcel", "link note want sent span")


class Run:
    """What is kept of a run."""

    def __init__(self, plan, beats, delays, offsets):
        self.plan, self.beats, self.delays, self.offsets = plan, beats, delays, offsets
        self.lives, self.faults, self.files, self.orders, self.journals, self.digests = {}, [], [], [], [], []

    def copy(self):
        """Another run of the same content, whose lists may be changed."""
        other = Run(self.plan, self.beats, self.delays, list(self.offsets))
        other.lives, other.faults, other.files = dict(self.lives), list(self.faults), list(self.files)
        other.orders, other.digests = list(self.orders), list(self.digests)
        other.journals = [list(journal) for journal in self.journals]
        return other

    @property
    def disk_count(self):
        """The number of all disks."""
        return self.plan.cubs * self.plan.disks

    @property
    def controller(self):
        """The controller's number among the nodes."""
        return self.plan.cubs + self.disk_count

    @property
    def viewers(self):
        """The viewers' number among the nodes."""
        return self.controller + 1

    def life(self, node):
        """When a node dies and returns."""
        return self.lives.get(node, Life(None, None, None))

    def reading(self, node, beat):
        """What the clock of a node shows in a beat."""
        cubs = self.plan.cubs
        clock = node if node < cubs else (node - cubs) % cubs if node < self.controller else cubs
        return beat * self.plan.beat + (0 if node == self.viewers else self.offsets[clock])

    def ends(self, link):
        """The nodes that a link leads from and to; None if there is no such link."""
        cubs, disks, reach = self.plan.cubs, self.disk_count, max(2, self.plan.pieces)
        groups = ((cubs, lambda i: (self.controller, i)), (cubs, lambda i: (i, self.controller)),
                  (cubs, lambda i: (i, self.viewers)),
                  (cubs * reach, lambda i: (i // reach, (i // reach + i % reach + 1) % cubs)),
                  (disks, lambda i: (i % cubs, cubs + i)), (disks, lambda i: (cubs + i, i % cubs)))
        for size, ends in groups:
            if link < size:
                return ends(link)
            link -= size
        return None

    def link_between(self, sender, receiver):
        """The first link that leads from a node to another; None if none does."""
        cubs = self.plan.cubs
        links = range(3 * cubs + cubs * max(2, self.plan.pieces) + 2 * self.disk_count)
        return next((link for link in links if self.ends(link) == (sender, receiver)), None)


def tenancy_of(fields):
    """The tenancy at the front of some fields."""
    return Tenancy(*fields[:5])


def record_of(entry):
    """The record of an entry that takes or drops one."""
    return Record(tenancy_of(entry.fields), *entry.fields[5:])


def link_of(entry):
    """The link of an entry that sends or gets a note."""
    return entry.fields[0]


def note_of(entry):
    """The note of an entry that sends or gets one: its kind, and its fields."""
    return entry.fields[1:]


def has_note(entry, word, *kinds):
    """Whether an entry gets, or sends, a note of one of these kinds."""
    return entry.word == word and entry.fields[1] in kinds


def parcel_of(entry):
    """What an entry tells of a whole block or a piece that is sent or got."""
    note = note_of(entry)
    return Parcel(link_of(entry), note, Want(*note[1:7]), note[7], Span(*note[8:11]))


def want_of(entry):
    """What an entry that sends or gets an ask wants."""
    return Want(*note_of(entry)[1:7])


def ask_of(entry):
    """What an entry that sends or gets a start asks for."""
    return Ask(*note_of(entry)[1:5])


def is_redundant(entry):
    """Whether the start that an entry sends or gets is the redundant one."""
    return note_of(entry)[5] == 1


def read(text):
    """The run that a text keeps."""
    lines = [line.split(" ") for line in text.decode("ascii").splitlines()]
    run = Run(Plan(*map(int, lines[1][1:])), int(lines[2][1]), tuple(lines[3]), [int(field) for field in lines[4][1:]])
    for word, *fields in lines[5:]:
        if word == "digest":
            run.digests.append(fields[0])
        else:
            take(run, word, tuple(map(int, fields)))
    return run


def take(run, word, fields):
    """Takes what a line behind the first five says into a run."""
    if word == "death":
        cub, beat, left, back = fields
        run.lives[cub] = Life(beat, left - 1 if left else None, back or None)
    elif word == "fault":
        run.faults.append(Fault(*fields))
    elif word == "file":
        run.files.append(File(*fields))
    elif word == "begin":
        run.orders.append(Order(fields[0], Ask(*fields[1:]), None))
    elif word == "finish":
        run.orders.append(Order(fields[0], None, fields[1]))
    elif word == "node":
        run.journals.append([])
    elif word != "end":
        run.journals[-1].append(Entry(fields[0], fields[1], word, fields[2:]))


def line(word, *fields):
    """A line of a text, without its line feed."""
    return " ".join([word, *map(str, fields)])


def order_line(order):
    """The line of an order."""
    return line("begin", order.beat, *order.ask) if order.ask else line("finish", order.beat, order.stop)


def write(run):
    """The text of a run."""
    lines = ["tiger 1", line("plan", *run.plan), line("beats", run.beats), line(*run.delays), line("offsets", *run.offsets)]
    for cub, life in sorted(run.lives.items()):
        lines.append(line("death", cub, life.death, 0 if life.left is None else life.left + 1, life.back or 0))
    lines += [line("fault", *fault) for fault in run.faults] + [line("file", *file) for file in run.files]
    lines += [order_line(order) for order in run.orders]
    for node, journal in enumerate(run.journals):
        lines += [line("node", node), *(line(e.word, e.beat, e.reading, *e.fields) for e in journal)]
    lines += [line("digest", digest) for digest in run.digests] + ["end"]
    return ("\n".join(lines) + "\n").encode()
