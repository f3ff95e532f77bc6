"""Makes the loads of tools/bench that are too large to be kept: scenarios that break no rule, and the files they name.

A load is a dict as json.dumps takes it. The sizes in the heads of the functions are chosen so that a run on one thread
takes a quarter of a second to two seconds of user time; only `blocks` has its weight in memory alone.
"""
import json
import os

import scenarios

MIB = 1 << 20  # bytes
FILES = {"one": 1, "thousand": 1000, "sixteen-mib": 16 * MIB}  # the files that loads name, and how many bytes they have
PATTERN = bytes(range(251))  # of a prime length, so that blocks differ from those beside them
TO_THE_END = 10**9  # microseconds, the longest hold of a plan: what is held is held to the end of each run
LONGEST_WAY = 16  # beats, the largest delay of a plan
LAST_READ = 7581  # the beat in which the first viewer's last block is asked for in the load `missed`


def plan(cubs, disks=1, slots=None, pieces=1, block=1, beat=100, delay=1, play_beats=1000, longest_lead=False,
         read_early=False, narrow=False, heart=50, deadman=None, hold=None):
    """A plan with no skew. `delay`, `play_beats` and `heart` are beats, other times microseconds; `block` is bytes.

    The window is as wide as it may be, or the narrowest, in which a visit is due in one microsecond alone. The leads
    are the shortest, or the longest if that is asked for. A block is read as late as it may be, or nearly a block play
    time before it is due. There is a slot for each disk if no number is given, and `deadman` and `hold` are the least if
    they are not given.
    """
    play, way = play_beats * beat, delay * beat
    widest = play - beat
    read_lead = widest - 2 * beat - way - narrow if read_early else beat + 2 * way
    window_b = read_lead + way + beat
    window_a = window_b + 1 if narrow else widest
    least, room = window_a + 2 * play, (cubs - 4) * play
    max_lead = room if longest_lead else least + beat
    return {"cubs": cubs, "disks": disks, "slots": slots or cubs * disks, "play": play, "pieces": pieces,
            "block": block, "beat": beat, "delay": delay, "skew": 0, "window_a": window_a, "window_b": window_b,
            "read_lead": read_lead, "min_lead": max_lead - beat, "max_lead": max_lead, "batch": 1, "heart": heart,
            "deadman": deadman or heart * beat + way, "hold": hold or 2 * play}


def playing(viewers, beats, rules, links=None, deaths=()):
    """A load in which all viewers start in beat 0, as many on each cub, and play to the end; `rules` is its plan."""
    cubs = rules["cubs"]
    return {"plan": rules, "beats": beats, "links": links or {"fixed": 1}, "deaths": list(deaths),
            "files": [{"name": "thousand", "disk": cub} for cub in range(cubs)],
            "events": [{"beat": 0, "start": number % cubs} for number in range(viewers)]}


def stopped(load, beat):
    """The load with all its viewers stopped in one beat."""
    stops = [{"beat": beat, "stop": number} for number in range(len(load["events"]))]
    return {**load, "events": load["events"] + stops}


def stopped_in_turn(load, beat, count):
    """The load with so many of its viewers stopped, one in each beat from this one on."""
    stops = [{"beat": beat + number, "stop": number} for number in range(count)]
    return {**load, "events": load["events"] + stops}


def dying(cubs, beat):
    """The deaths of each second of the cubs, in one beat."""
    return [{"cub": cub, "beat": beat} for cub in range(0, cubs, 2)]


def of_long_files(viewers, beats, play_beats, beat, files):
    """Viewers who play the first of some files of 16 MiB in blocks of one MiB, each with a slot of his own."""
    rules = plan(cubs=7, slots=viewers, block=MIB, beat=beat, play_beats=play_beats)
    return {"plan": rules, "beats": beats, "links": {"fixed": 1}, "read_faults": [],
            "files": [{"name": "sixteen-mib", "disk": disk} for disk in range(files)],
            "events": [{"beat": 0, "start": 0} for _ in range(viewers)]}


# The heaviest loads.

def leadfull(beats=100000):
    """All 1930 slots of 20 cubs are taken and 70 starts wait, with the longest lead: the records of each viewer stand
    in nearly all views at once, and cubs look for free visits, of which there are none.
    """
    return playing(2000, beats, plan(cubs=20, slots=1930, play_beats=505, longest_lead=True))


def lead(viewers=2000):
    """Viewers on 64 cubs with the longest lead: states go 60 visits ahead, so each viewer has records in nearly all
    views at once.
    """
    return playing(viewers, 15000, plan(cubs=64, slots=2048, play_beats=160, longest_lead=True))


def heldall(viewers=2000):
    """All viewers on 7 cubs are stopped, and each cub holds the deschedules of all of them for 51 block play times."""
    held = plan(cubs=7, slots=2000, beat=10, play_beats=1000, hold=TO_THE_END)
    return stopped(playing(viewers, 60000, held), beat=9000)


def heldworst(viewers=2000):
    """As `heldall` with 20 cubs and the longest lead: stops are passed on far ahead, while records of the same viewers
    stand in nearly all views, and what is held is held for 88 block play times.
    """
    held = plan(cubs=20, slots=2000, beat=10, play_beats=1000, longest_lead=True, hold=TO_THE_END)
    return stopped(playing(viewers, 100000, held), beat=12000)


def deathpieces(beats=15000):
    """As `lead`, and each second of the 64 cubs dies after a sixth of the run: from then on half of the blocks are to
    come in 8 pieces, for each of which a mirror state is sent.
    """
    rules = plan(cubs=64, slots=2048, pieces=8, play_beats=160, longest_lead=True, heart=1, deadman=2000)
    return playing(2000, beats, rules, deaths=dying(64, beats // 6))


def readahead(viewers=1900):
    """A block is read nearly a block play time before it is due, so a cub stores as many as its viewers play."""
    return playing(viewers, 40000, plan(cubs=7, slots=viewers, play_beats=505, read_early=True))


def full(beats=100000):
    """All 1930 slots of 7 cubs are taken and 70 starts wait, ten on each disk: a window of nearly a block play time is
    looked through for a free visit again and again.
    """
    return playing(2000, beats, plan(cubs=7, slots=1930, play_beats=505))


def drawn(viewers=1500):
    """Messages take from 1 to 16 beats, so that many are under way at once and some arrive together."""
    rules = plan(cubs=16, slots=viewers, delay=LONGEST_WAY, play_beats=400)
    return playing(viewers, 100000, rules, links={"drawn": 7})


def stopseach(viewers=2000, stops=None):
    """As `lead`, and from beat 10,800 on one viewer is stopped in each beat, while the records of all others stand in
    nearly all views; what is held is held to the end.
    """
    rules = plan(cubs=64, slots=2048, play_beats=160, longest_lead=True, hold=TO_THE_END)
    return stopped_in_turn(playing(viewers, 11200 + viewers, rules), 10800, viewers if stops is None else stops)


def deadstops(viewers=2000):
    """As `deathpieces` with the deaths in beat 10,800, and from beat 11,400 on one viewer is stopped in each beat: his
    pieces are to be dropped from among those of all others.
    """
    rules = plan(cubs=64, slots=2048, pieces=8, play_beats=160, longest_lead=True, heart=1, deadman=2000,
                 hold=TO_THE_END)
    return stopped_in_turn(playing(viewers, 11800 + viewers, rules, deaths=dying(64, 10800)), 11400, viewers)


def expiry(viewers=2000, held_beats=3000):
    """Viewers of one block start one after another, and each is stopped before it is due: the deschedules go round a
    ring with empty views, and each of them ends in a beat of its own.
    """
    rules = plan(cubs=64, slots=4096, play_beats=160, longest_lead=True, read_early=True, narrow=True,
                 hold=held_beats * 100)
    starts = [(10400 + number, {"beat": 10400 + number, "start": number % 64}) for number in range(viewers)]
    stops = [(10460 + number, {"beat": 10460 + number, "stop": number}) for number in range(viewers)]
    events = [event for _, event in sorted(starts + stops, key=lambda it: it[0])]
    return {"plan": rules, "beats": 10760 + viewers + held_beats, "links": {"fixed": 1}, "events": events,
            "files": [{"name": "one", "disk": disk} for disk in range(64)]}


def earlypieces(beats=40000):
    """Each second of ten cubs dies, and all blocks and pieces are asked for nearly a block play time before they are
    due, so a cub stores as many pieces as its viewers play.
    """
    rules = plan(cubs=10, slots=2000, pieces=8, play_beats=505, read_early=True, heart=1, deadman=2000)
    return playing(2000, beats, rules, deaths=dying(10, 3000))


def threedead(beats=40000):
    """As `earlypieces` with seven cubs of which three die."""
    rules = plan(cubs=7, slots=1930, pieces=5, play_beats=505, read_early=True, heart=1, deadman=2000)
    return playing(2000, beats, rules, deaths=dying(6, 3000))


def churn(viewers=2000, beats=31250):
    """Viewers start one after another on 64 cubs with one slot each, and each is stopped 300 beats later."""
    rules = plan(cubs=64, slots=64, play_beats=160, longest_lead=True)
    gap = (beats - 400) // viewers
    starts = [(gap * number, {"beat": gap * number, "start": number % 64}) for number in range(viewers)]
    stops = [(beat + 300, {"beat": beat + 300, "stop": number}) for number, (beat, _) in enumerate(starts)]
    events = [event for _, event in sorted(starts + stops, key=lambda it: it[0])]
    return {"plan": rules, "beats": beats, "links": {"fixed": 1}, "events": events,
            "files": [{"name": "thousand", "disk": disk} for disk in range(64)]}


def whole(viewers=2000):
    """All viewers play one file of 16 MiB in blocks of one MiB: each read is of a MiB, and no two starts have other
    bytes.
    """
    return of_long_files(viewers, beats=600, play_beats=20, beat=1000, files=4)


def missed(viewers=500):
    """As `whole`, and the last block of each second viewer, in the order of the starts, cannot be read: neighbours have
    other bytes. The viewers share seven block play times of 505 beats, in which each has his turn on a disk.
    """
    load = of_long_files(viewers, beats=505 * 27, play_beats=505, beat=100, files=1)
    reads = [LAST_READ + 7 * 505 * number // viewers for number in range(0, viewers, 2)]
    return {**load, "read_faults": [{"disk": 15 % 7, "from": beat - 3, "until": beat + 4} for beat in reads]}


def blocks(files=4):
    """Nobody plays 64 MiB in blocks of one byte, each of which has 8 pieces: if a disk kept its blocks and pieces as
    such, they would take more than a hundred times the memory of the bytes.
    """
    rules = plan(cubs=10, pieces=8, beat=10)
    return {"plan": rules, "beats": 1, "links": {"fixed": 1}, "events": [],
            "files": [{"name": "sixteen-mib", "disk": disk} for disk in range(files)]}


WORST = {made.__name__: made for made in (leadfull, lead, heldall, heldworst, deathpieces, readahead, full, drawn,
                                          stopseach, deadstops, expiry, earlypieces, threedead, churn, whole, missed,
                                          blocks)}


# The loads that grow.

def crowd(viewers, beats, cubs):
    """Viewers with room, as in the load of six hundred viewers: 4 disks on each cub, 4 pieces, and 100 beats of 10 ms
    in a block play time. Messages take one beat, since 64 cubs may have no slower ones in such a plan.
    """
    return playing(viewers, beats, plan(cubs, disks=4, slots=4096, pieces=4, beat=10000, play_beats=100))


def stopping(stops):
    """As `stopseach`, of which so many of the 2,000 viewers are stopped."""
    return stopseach(2000, stops)


def deaths(dead):
    """As `deathpieces`, of which so many of the 64 cubs die."""
    return {**deathpieces(), "deaths": dying(2 * dead, 2500)}


# Each size that is doubled by itself, with the load that has it and the sizes of that load from which it grows. With
# half of the crowd's a run would be too short to tell, and with twice its viewers or twice its beats the blocks that
# might be due are as many as may be.
CROWD = {"viewers": 1000, "beats": 19900, "cubs": 8}
GROWING = {"viewers": (crowd, CROWD), "beats": (crowd, CROWD), "cubs": (crowd, CROWD),
           "stops": (stopping, {"stops": 250}), "dead": (deaths, {"dead": 4})}


def doublings(what):
    """The load of a size that is doubled again and again, as long as no rule is broken: each size and its load."""
    made, begun = GROWING[what]
    sizes = dict(begun)
    while breaks_no_rule(load := made(**sizes)):
        yield sizes[what], load
        sizes[what] *= 2


def breaks_no_rule(load):
    """Whether a load is within the limits on its plan, its beats, its starts and their products."""
    rules, beats = load["plan"], load["beats"]
    starts = sum("start" in event for event in load["events"])
    blocks_due = starts * (beats * rules["beat"] // rules["play"] + 1)
    return (scenarios.out_of_range(rules) == scenarios.first_false(rules) == 0
            and beats <= scenarios.MOST_BEATS and beats * rules["cubs"] <= scenarios.MOST_PRODUCT
            and starts <= scenarios.MOST_STARTS and blocks_due <= scenarios.MOST_VISITS
            and len(load["files"]) <= scenarios.MOST_FILES and len(load["events"]) <= scenarios.MOST_EVENTS
            and len(load["deaths"]) <= scenarios.MOST_DEATHS)


def put(folder, name, load):
    """Writes a load and the files that it names into a folder."""
    for file_name in {file["name"] for file in load["files"]}:
        with open(os.path.join(folder, file_name), "wb") as file:
            length = FILES[file_name]
            file.write((PATTERN * (length // len(PATTERN) + 1))[:length])
    with open(os.path.join(folder, name), "w", encoding="utf-8") as file:
        json.dump(load, file)
