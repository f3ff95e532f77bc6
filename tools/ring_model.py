"""Which events may happen to a ring of nodes, and why one may not.

This is docs/definitions.md, "A ring as a machine", and docs/formats.md, "Nodes and links", once
more: it shares nothing with the program that it judges. It does not know what a node does, so it is
told on which links an event sent.

Python 3.8 or later, and nothing but its standard library.
"""
from collections import deque

FAULTS = ("WrongBeat", "TickMissed", "Dead", "NotBack", "Ticked", "ReadingOff", "NotNext", "TooEarly",
          "TooLate", "NeighbourDead")
NOT_ASKED = "not asked"

# What an accepted event meets exactly: one step further, and there would be a fault, or no such
# event.
NEXT_BEAT = "in the next beat, in which no node has had an event"
LAST_TICK = "the last tick that a beat waits for"
LAST_BEAT = "in the last beat of the world"
LAST_NODE = "of the node with the highest number"
LAST_CUB = "the death of the cub with the highest number"
TRUE_TIME = "at the true time"
MOST_SKEW = "ahead of the true time by the whole skew"
SAME_READING = "at the reading of the node's last event, above the true time"
FIRST_NUMBER = "a message that is the first of its link"
SECOND_IN_BEAT = "a message behind another of its link, in one beat"
EARLIEST = "a message in the first beat in which it may come"
LATEST = "a message in the last beat in which it may come"
NOT_YET_LATE = "a tick one beat before a message would be too late"
LINKS_UP = "a message of a higher link behind one of a lower, in one beat"
LINKS_DOWN = "a message of a lower link behind one of a higher, in one beat"
OF_THE_DEAD = "a message that a dead cub sent"
DIES_AT_ONCE = "a death in the beat behind the cub's last event"
DIES_FIRST = "a death before any event of the cub"
DIES_LATE = "a death with a message that would be too late for a tick"
DIES_BESIDE = "a death two cubs from one that has died"
DIES_ROUND = "a death two cubs from one that has died, across the end of the ring"
ENDS_GET = "a death in a message that is taken"
ENDS_TICK = "a death in a tick"
ENDS_NONE = "a death in an event of which no message goes out"
ENDS_EXACTLY = "a death in an event of which as many messages go out as may"
ENDS_LESS = "a death in an event that sends less than may go out"
ENDS_BEHIND = "a death in an event behind another of the beat"
RETURNS_AT_ONCE = "a return two beats after the death"
RETURNS_LATER = "a return three beats after the death or later"
RETURNS_LOSING = "a return that loses messages"
RETURNS_KEEPING = "a return that keeps messages of its beat"
NUMBER_BEHIND = "a message behind others that a return lost"
BOUNDS = (NEXT_BEAT, LAST_TICK, LAST_BEAT, LAST_NODE, LAST_CUB, TRUE_TIME, MOST_SKEW, SAME_READING,
          FIRST_NUMBER, SECOND_IN_BEAT, EARLIEST, LATEST, NOT_YET_LATE, LINKS_UP, LINKS_DOWN,
          OF_THE_DEAD, DIES_AT_ONCE, DIES_FIRST, DIES_LATE, DIES_BESIDE, DIES_ROUND, ENDS_GET, ENDS_TICK,
          ENDS_NONE, ENDS_EXACTLY, ENDS_LESS, ENDS_BEHIND, RETURNS_AT_ONCE, RETURNS_LATER, RETURNS_LOSING,
          RETURNS_KEEPING, NUMBER_BEHIND)


def links_of(cubs, disks, reach):
    """The nodes that each link leads from and to, by the table of docs/formats.md."""
    controller, viewers = cubs + disks, cubs + disks + 1
    links = [(controller, cub) for cub in range(cubs)]
    links += [(cub, controller) for cub in range(cubs)]
    links += [(cub, viewers) for cub in range(cubs)]
    links += [(cub, (cub + k) % cubs) for cub in range(cubs) for k in range(1, reach + 1)]
    links += [(disk % cubs, cubs + disk) for disk in range(disks)]
    links += [(cubs + disk, disk % cubs) for disk in range(disks)]
    return links


class Ring:
    """A ring to which events happen: an event is ("get", beat, reading, link, number),
    ("tick", beat, reading, node), ("die", beat, reading, cub),
    ("die_in_get", beat, reading, link, number, sends), ("die_in_tick", beat, reading, node, sends) or
    ("return", beat, reading, cub)."""

    def __init__(self, plan, beats):
        self.beats, self.cubs = beats, plan["cubs"]
        self.length, self.delay, self.skew = plan["beat"], plan["delay"], plan["skew"]
        self.links = links_of(self.cubs, self.cubs * plan["disks"], max(2, plan["pieces"]))
        self.nodes = self.cubs * (1 + plan["disks"]) + 2
        self.into = [[] for _ in range(self.nodes)]
        for link, (_, to) in enumerate(self.links):
            self.into[to].append(link)
        self.beat = 0
        self.waits_for = self.nodes                  # nodes that live and have not ticked in the beat
        self.ticked = [None] * self.nodes            # the beat of each node's last tick
        self.acted = [None] * self.nodes             # the beat of its last event
        self.reading = [0] * self.nodes              # and what its clock showed then
        self.took_on = [None] * self.nodes           # and the link of the last message that it took
        self.dead = [False] * self.nodes
        self.died = [None] * self.nodes              # the beat in which each node died, if it ever did
        self.returned = [False] * self.nodes
        self.taken = [0] * len(self.links)           # how many messages are gone from each link, taken or lost
        self.lost = [0] * len(self.links)            # and how many of these were lost
        self.under_way = [deque() for _ in self.links]  # when those were sent that were not taken

    def node_of(self, event):
        """The node to which an event happens; None if there is no such node, link or cub."""
        kind, number = event[0], event[3]
        if kind in ("get", "die_in_get"):
            node = self.links[number][1] if number < len(self.links) else None
            return node if kind == "get" or node is not None and node < self.cubs else None
        return number if number < (self.nodes if kind == "tick" else self.cubs) else None

    def cause(self, event):
        """Why an event may not happen: the first fault with its numbers, or that it is none of the
        ring; else None."""
        kind, beat, reading = event[:3]
        node = self.node_of(event)
        if node is None or beat >= self.beats:
            return NOT_ASKED
        if beat != self.beat and beat != self.beat + 1:
            return f"WrongBeat {self.beat}"
        if beat == self.beat + 1 and self.waits_for:
            missing = next(other for other in range(self.nodes)
                           if not self.dead[other] and self.ticked[other] != self.beat)
            return f"TickMissed {missing}"
        if kind == "return":
            is_back = self.dead[node] and self.died[node] + 2 <= beat and not self.returned[node]
            if not is_back:
                return f"NotBack {node}"
        elif self.dead[node] or kind.startswith("die") and self.died[node] is not None:
            return f"Dead {node}"
        if self.ticked[node] == beat or kind == "die" and self.acted[node] == beat:
            return f"Ticked {node}"
        time = beat * self.length
        if reading < time or reading > time + self.skew or reading < self.reading[node]:
            return f"ReadingOff {reading}"
        return getattr(self, "may_not_" + kind)(beat, *event[3:])

    def may_not_get(self, beat, link, number):
        """Why the message of a number may not be taken from a link."""
        queue = self.under_way[link]
        if not queue or number != self.taken[link]:
            return f"NotNext {link}"
        return f"TooEarly {queue[0]}" if queue[0] == beat else None

    def may_not_tick(self, beat, node):
        """Why a node may not tick."""
        for link in self.into[node]:
            queue = self.under_way[link]
            if queue and queue[0] + self.delay <= beat:
                return f"TooLate {link} {queue[0]}"
        return None

    def may_not_die(self, _beat, cub):
        """Why a cub may not die."""
        dead = [other for other in self.beside(cub, 1) if self.died[other] is not None]
        return f"NeighbourDead {min(dead)}" if dead else None

    def may_not_die_in_get(self, beat, link, number, _sends):
        """Why a cub may not die in a message that it takes."""
        return self.may_not_get(beat, link, number) or self.may_not_die(beat, self.links[link][1])

    def may_not_die_in_tick(self, beat, cub, _sends):
        """Why a cub may not die in a tick."""
        return self.may_not_tick(beat, cub) or self.may_not_die(beat, cub)

    def may_not_return(self, _beat, _cub):
        """A cub that may return otherwise may."""
        return None

    def beside(self, cub, distance):
        """The two cubs that are so far from a cub."""
        return (cub - distance) % self.cubs, (cub + distance) % self.cubs

    def happens(self, event, sent):
        """Lets an event happen that may, and in which its node sent on these links."""
        kind, beat, reading = event[:3]
        node = self.node_of(event)
        if beat != self.beat:
            self.beat, self.waits_for = beat, self.nodes - sum(self.dead)
        if kind in ("get", "die_in_get"):
            self.under_way[event[3]].popleft()
            self.taken[event[3]] += 1
            self.took_on[node] = event[3]
        if kind in ("tick", "die_in_tick"):
            self.ticked[node] = beat
        if kind == "return":
            self.comes_back(beat, node)
        elif kind != "get":
            self.waits_for -= 1
        if kind.startswith("die"):
            self.dead[node], self.died[node] = True, beat
        self.acted[node], self.reading[node] = beat, reading
        for link in sent:
            self.under_way[link].append(beat)

    def comes_back(self, beat, node):
        """A cub returns: what was sent to it in lower beats is lost."""
        self.dead[node], self.returned[node] = False, True
        self.waits_for += 1
        for link in self.into[node]:
            queue = self.under_way[link]
            while queue and queue[0] < beat:
                queue.popleft()
                self.taken[link] += 1
                self.lost[link] += 1

    def met(self, event):
        """Which bounds an event meets exactly that may happen."""
        kind, beat, reading = event[:3]
        node, time = self.node_of(event), beat * self.length
        if beat == self.beat + 1:
            yield NEXT_BEAT
        if beat == self.beats - 1:
            yield LAST_BEAT
        if node == self.nodes - 1:
            yield LAST_NODE
        if reading == time:
            yield TRUE_TIME
        elif reading == time + self.skew:
            yield MOST_SKEW
        if reading == self.reading[node] and reading > time:
            yield SAME_READING
        yield from getattr(self, "met_by_" + kind)(beat, node, event[3])

    def met_by_get(self, beat, node, link):
        """The bounds of a message that is taken."""
        sent = self.under_way[link][0]
        if self.taken[link] == 0:
            yield FIRST_NUMBER
        if sent == beat - 1:
            yield EARLIEST
        if sent == beat - self.delay:
            yield LATEST
        if self.dead[self.links[link][0]]:
            yield OF_THE_DEAD
        if self.lost[link]:
            yield NUMBER_BEHIND
        if self.acted[node] == beat:
            last = self.took_on[node]
            yield SECOND_IN_BEAT if last == link else LINKS_UP if last < link else LINKS_DOWN

    def met_by_tick(self, beat, node, _number):
        """The bounds of a tick."""
        if beat == self.beat and self.waits_for == 1:
            yield LAST_TICK
        oldest = [self.under_way[link][0] for link in self.into[node] if self.under_way[link]]
        if any(sent + self.delay == beat + 1 for sent in oldest):
            yield NOT_YET_LATE

    def met_by_death(self, cub):
        """The bounds of a death, however it comes."""
        if cub == self.cubs - 1:
            yield LAST_CUB
        died = [other for other in self.beside(cub, 2) if self.died[other] is not None]
        if died:
            yield DIES_BESIDE
        if any(abs(other - cub) != 2 for other in died):
            yield DIES_ROUND

    def met_by_die(self, beat, cub, _number):
        """The bounds of a death apart from any event."""
        yield from self.met_by_death(cub)
        if self.acted[cub] is None:
            yield DIES_FIRST
        elif self.acted[cub] == beat - 1:
            yield DIES_AT_ONCE
        if self.may_not_tick(beat, cub):
            yield DIES_LATE

    def met_by_die_in_get(self, beat, node, _link):
        """The bounds of a death in a message that is taken."""
        yield ENDS_GET
        yield from self.met_by_ending(beat, node)

    def met_by_die_in_tick(self, beat, node, _number):
        """The bounds of a death in a tick."""
        yield ENDS_TICK
        yield from self.met_by_ending(beat, node)

    def met_by_ending(self, beat, cub):
        """The bounds of a death in an event."""
        yield from self.met_by_death(cub)
        if self.acted[cub] == beat:
            yield ENDS_BEHIND

    def met_by_sends(self, event, sent):
        """The bounds of how many messages go out of an event in which a cub dies."""
        if event[0].startswith("die_in"):
            sends = event[-1]
            if sends == 0:
                yield ENDS_NONE
            elif len(sent) == sends:
                yield ENDS_EXACTLY
            else:
                yield ENDS_LESS

    def met_by_return(self, beat, cub, _number):
        """The bounds of a return."""
        yield RETURNS_AT_ONCE if self.died[cub] + 2 == beat else RETURNS_LATER
        queues = [self.under_way[link] for link in self.into[cub]]
        if any(queue and queue[0] < beat for queue in queues):
            yield RETURNS_LOSING
        if any(beat in queue for queue in queues):
            yield RETURNS_KEEPING
