"""Draws what happens to a ring of nodes in a beat: events that may happen, at the bounds wherever one
is near, and among them events that may not.

What is drawn is a guess, since it is not known what a node sends in the beat: ring_model.py judges
each event.

Python 3.8 or later, and nothing but its standard library.
"""


class Beat:
    """A beat of a ring, while its events are drawn."""

    def __init__(self, rng, ring, beat, foes):
        self.rng, self.ring, self.beat, self.foes = rng, ring, beat, foes
        self.time, self.high = beat * ring.length, beat * ring.length + ring.skew
        self.reading = list(ring.reading)
        self.taken = list(ring.taken)
        self.left = [len(queue) for queue in ring.under_way]
        self.acted, self.ticked = set(), set()
        self.events = []

    def draw(self):
        """The events of the beat, in their order."""
        dying, back = self.draw_dying(), self.draw_back()
        acts = {node: self.acts_of(node, node in dying, node in back)
                for node in range(self.ring.nodes) if node in back or not self.ring.dead[node]}
        order = list(acts)
        self.rng.shuffle(order)
        if self.rng.random() < 0.5:  # else one node after another
            order = [node for node in order for _ in acts[node]]
            self.rng.shuffle(order)
        else:
            order = [node for node in order for _ in acts[node]]
        ahead = {node: iter(acts[node]) for node in acts}
        for place, node in enumerate(order):
            act = next(ahead[node])
            if self.rng.random() < self.foes or place == len(order) - 1:
                self.draw_foe(node, act)
            self.add(node, act)
        return self.events

    def draw_dying(self):
        """The cubs that die in the beat: no two of them neighbours, and none beside one that has died."""
        ring, rng, dying = self.ring, self.rng, set()
        if rng.random() > 3 / ring.beats:
            return dying
        dead = [cub for cub in range(ring.cubs) if ring.died[cub] is not None]
        near = [other for cub in dead for other in ring.beside(cub, 2)]
        late = [cub for cub in range(ring.cubs) if ring.may_not_tick(self.beat, cub)]
        ends = [0, 1, ring.cubs - 2, ring.cubs - 1]
        cubs = rng.choice((near, late, ends, range(ring.cubs)))
        for cub in rng.sample(cubs, min(len(cubs), rng.randint(1, 3))):
            if not any(ring.died[other] is not None or other in dying for other in (cub, *ring.beside(cub, 1))):
                dying.add(cub)
        return dying

    def draw_back(self):
        """The cubs that return in the beat: each that may does so sooner or later, often as soon as it may."""
        ring, rng = self.ring, self.rng
        may = [cub for cub in range(ring.cubs)
               if ring.dead[cub] and ring.died[cub] + 2 <= self.beat and not ring.returned[cub]]
        return {cub for cub in may
                if rng.random() < (0.5 if ring.died[cub] + 2 == self.beat else 0.3)}

    def acts_of(self, node, dies, returns):
        """What a node does in the beat: it takes all that would be too late, more or less of the
        rest, and ticks. One that dies does so apart from that, or in one of these events; one that returns has lost
        all that came before, and ticks."""
        ring, rng = self.ring, self.rng
        if returns:
            return [("return", node), ("tick", node)]
        if dies and rng.random() < (0.4 if self.beat else 0.7):  # in beat 0 more often before any event
            return [("die", node)]
        takes, manner = [], rng.randrange(3)
        for link in ring.into[node]:
            queue = ring.under_way[link]
            if queue:
                due = sum(sent + ring.delay <= self.beat for sent in queue)
                takes += [link] * (due, len(queue), rng.randint(due, len(queue)))[manner]
        order = rng.randrange(3)
        if order == 1:
            takes.reverse()
        elif order == 2:
            rng.shuffle(takes)
        acts = [*(("get", link) for link in takes), ("tick", node)]
        if not dies:
            return acts
        place = rng.choice((0, len(acts) - 1, rng.randrange(len(acts))))
        kind, of = acts[place]
        return [*acts[:place], ("die_in_" + kind, of)]

    def draw_reading(self, node):
        """A reading that the node's clock may show: the least, the greatest, or one between."""
        least, chance = max(self.time, self.reading[node]), self.rng.random()
        if chance < 0.6:
            return least
        return self.high if chance < 0.75 else self.rng.randint(least, self.high)

    def event(self, act, reading):
        """The event of an act: a message has the number of the next one on its link."""
        kind, number = act
        event = (kind, self.beat, reading, number)
        if kind in ("get", "die_in_get"):
            event += (self.taken[number] if number < len(self.taken) else 0,)
        if kind.startswith("die_in"):
            event += (self.rng.choice((0, 0, 1, 1, 2, 3, 1000)),)
        return event

    def add(self, node, act):
        """Adds an event that may happen."""
        reading = self.draw_reading(node)
        self.events.append(self.event(act, reading))
        self.reading[node] = reading
        self.acted.add(node)
        if act[0] in ("get", "die_in_get"):
            self.taken[act[1]] += 1
            self.left[act[1]] -= 1
        if act[0] == "return":
            self.lose(node)
        elif act[0] != "get":
            self.ticked.add(node)

    def lose(self, node):
        """A cub has returned: all that was sent to it in lower beats is lost."""
        for link in self.ring.into[node]:
            lost = sum(sent < self.beat for sent in self.ring.under_way[link])
            self.taken[link] += lost
            self.left[link] -= lost

    def draw_foe(self, node, act):
        """Adds an event that may not happen, beside the one that comes next: one number moved over a
        bound, or another act. Now and then its reading is off too, so that two faults hold of it."""
        foe = self.rng.choice(FOES)(self, node, act)
        if foe is None:
            return
        if self.rng.random() < 0.1:
            kind, beat, reading, *rest = foe
            foe = (kind, beat, reading + self.ring.skew + 1, *rest)
        self.events.append(foe)

    def some_node(self, nodes):
        """One of these nodes, in their order; None if there is none."""
        nodes = sorted(nodes)
        return self.rng.choice(nodes) if nodes else None

    def at_beat(self, event, beat):
        """The event moved to another beat, with its reading."""
        kind, old, reading, *rest = event
        return (kind, beat, max(0, reading + (beat - old) * self.ring.length), *rest)

    def some_act(self, node):
        """Some act of a node."""
        acts = [("tick", node)] + [("get", link) for link in self.ring.into[node]]
        if node < self.ring.cubs:
            acts += [("die", node), ("die_in_tick", node), ("die_in_get", self.ring.into[node][0])]
        return self.rng.choice(acts)


def beat_off(draws, node, act):
    """One beat below the ring's, or one too far."""
    event = draws.event(act, draws.draw_reading(node))
    far = draws.beat + 1 + draws.rng.randint(1, 9)
    beat = draws.rng.choice((draws.beat - 1, draws.beat + 2, far))
    return draws.at_beat(event, max(0, beat))


def beat_soon(draws, node, act):
    """In the next beat, while this one is not over: the event that comes next, or one of a node that
    has ticked."""
    ticked = draws.some_node(draws.ticked)
    if ticked is not None and draws.rng.random() < 0.7:
        node, act = ticked, ("tick", ticked)
    return draws.at_beat(draws.event(act, draws.draw_reading(node)), draws.beat + 1)


def of_the_dead(draws, _node, _act):
    """An event of a dead cub, or the death of one that has returned."""
    ring = draws.ring
    died = draws.some_node({cub for cub in range(ring.cubs) if ring.died[cub] is not None})
    if died is None:
        return None
    act = draws.some_act(died) if ring.dead[died] else (draws.rng.choice(("die", "die_in_tick")), died)
    return draws.event(act, draws.draw_reading(died))


def not_back(draws, _node, _act):
    """The return of a cub that is up, that died in the beat or the one before, or that has returned."""
    ring = draws.ring
    soon = {cub for cub in range(ring.cubs) if ring.dead[cub] and ring.died[cub] + 2 > draws.beat}
    again = {cub for cub in range(ring.cubs) if ring.returned[cub]}
    cubs = draws.rng.choice((soon, again, soon | again)) or set(range(ring.cubs))
    cub = draws.some_node(cubs)
    return draws.event(("return", cub), draws.draw_reading(cub))


def behind_tick(draws, _node, _act):
    """An event of a node behind its tick, or the death of a cub behind another event."""
    acted = draws.some_node({cub for cub in draws.acted - draws.ticked if cub < draws.ring.cubs})
    if acted is not None and draws.rng.random() < 0.7:
        return draws.event(("die", acted), draws.draw_reading(acted))
    ticked = draws.some_node(draws.ticked)
    if ticked is None:
        return None
    return draws.event(draws.some_act(ticked), draws.draw_reading(ticked))


def reading_off(draws, node, act):
    """One microsecond over a bound of its reading."""
    least = (draws.time, draws.reading[node])
    readings = [draws.high + 1]
    readings += [reading - 1 for reading in least if reading >= max(1, draws.time)]
    return draws.event(act, draws.rng.choice(readings))


def number_off(draws, node, _act):
    """The message in front of the next one on a link, the one behind it, or one where none is under
    way."""
    link = draws.rng.choice(draws.ring.into[node] or [0])
    number = max(0, draws.taken[link] + draws.rng.choice((-1, 1, 1)))
    return ("get", draws.beat, draws.draw_reading(draws.ring.links[link][1]), link, number)


def too_early(draws, node, _act):
    """The next message of a link on which all was taken that was sent in beats below, from a node
    that has ticked."""
    links = [link for link in draws.ring.into[node]
             if not draws.left[link] and draws.ring.links[link][0] in draws.ticked]
    if not links:
        return None
    return draws.event(("get", draws.rng.choice(links)), draws.draw_reading(node))


def too_late(draws, node, _act):
    """The tick of a node in front of all that it is yet to take."""
    return draws.event(("tick", node), draws.draw_reading(node))


def beside_the_dead(draws, _node, _act):
    """The death of a neighbour of a cub that has died, whether it has returned or not, one that has had no event in
    the beat if there is one; apart from any event or in a tick."""
    ring = draws.ring
    cubs = {other for cub in range(ring.cubs) if ring.died[cub] is not None for other in ring.beside(cub, 1)}
    cub = draws.some_node(cubs - draws.acted or cubs)
    kind = draws.rng.choice(("die", "die_in_tick"))
    return None if cub is None else draws.event((kind, cub), draws.draw_reading(cub))


def none_of_the_ring(draws, node, act):
    """One over the highest link, node, cub or beat; or a death in an event of a node that is no cub."""
    ring = draws.ring
    reading = draws.draw_reading(node)
    return draws.rng.choice((draws.event(("get", len(ring.links)), reading),
                             draws.event(("tick", ring.nodes), reading),
                             draws.event(("die", ring.cubs), reading),
                             draws.event(("return", ring.cubs), reading),
                             draws.event(("die_in_tick", ring.cubs), reading),
                             draws.event(("die_in_get", ring.into[ring.nodes - 1][0]), reading),
                             draws.at_beat(draws.event(act, reading), ring.beats)))


FOES = (beat_off, beat_soon, of_the_dead, not_back, behind_tick, reading_off, number_off, too_early, too_late,
        beside_the_dead, none_of_the_ring)
