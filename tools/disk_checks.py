"""Checks of the command `disks` for tools/check-program: the lines and every byte of the image, by disk_model.py and by
hand, and when an image is made, left alone, written over or refused.

Each check has a folder of its own, so they are run side by side. Then each is tried with programs that are not this one,
and those of disk_wrongs.py with this one made wrong in one thing: they must fail.
"""
import json
import os
import random
import shutil

import disk_model
import disk_wrongs
import fault_checks
import program
import scenarios
from program import Ended, refused
from tool_checks import EXAMPLES, content

RUNS, MEDIA = os.path.join(program.CASES, "runs"), os.path.join(program.CASES, "media")
ONE = content(os.path.join(EXAMPLES, "one.json"))
TEN = b"1234567890"
# What docs/disks.md tells by hand of examples/one.json: the lines, and the bytes of the image.
LINES = b"".join(b"disk %d parts %d bytes %d\n" % it for it in (
    (0, 1, 4), (1, 2, 6), (2, 3, 6), (3, 2, 3), (4, 1, 1), (5, 0, 0), (6, 0, 0), (7, 0, 0)))
IMAGE = b"1234" b"5678" b"12" b"90" b"34" b"56" b"78" b"9" b"0"
STORED = Ended(0, LINES, b"")
EXISTS, DEVICE, FAULT = refused(14, "image exists"), refused(11, "device"), refused(6, "write fault")
MIB = 1 << 20
DRAWN = 12


class Room:
    """A folder with the scenario of examples/one.json and its file, in which the program runs."""

    def __init__(self, tiger, folder):
        self.tiger, self.folder = tiger, folder
        self.write("one.json", ONE)
        self.write("ten", TEN)

    def path(self, name):
        """The path of a file of the folder."""
        return os.path.join(self.folder, name)

    def write(self, name, given):
        """Writes a file: its bytes, or so many zeros."""
        with open(self.path(name), "wb") as file:
            if isinstance(given, int):
                file.truncate(given)
            else:
                file.write(given)

    def holds(self, name="image"):
        """The bytes of a file; none if it is not there."""
        try:
            with open(self.path(name), "rb") as file:
                return file.read()
        except OSError:
            return None

    def run(self, *words, **how):
        """How the program ends on these words behind `disks`; a stream may be another file, or closed."""
        return fault_checks.run(self.tiger, ["disks", *words], self.folder, **how)

    def differs(self, wanted, image, *words, **how):
        """What differs if the program is run so: how it ends, and which bytes the file `image` has then, if any."""
        return self.run(*words, **how).differs(wanted) or unlike(self.holds(), image)


def unlike(got, wanted):
    """What differs between the bytes of an image and those that it must have; none stands for no file."""
    if got == wanted:
        return ""
    if got is None or wanted is None:
        return "there is no image" if got is None else "there is an image"
    at = next((at for at, (mine, other) in enumerate(zip(got, wanted)) if mine != other), min(len(got), len(wanted)))
    return f"the image has {len(got)} bytes for {len(wanted)}, and others from byte {at} on"


def changed(plan=(), **keys):
    """The scenario of the example with other keys, and its plan with other ones."""
    value = json.loads(ONE)
    return {**value, "plan": {**value["plan"], **dict(plan)}, **keys}


# What is stored.

def of_model(tiger, folder, path, where):
    """The lines and the image of a scenario, which is run in the folder of its files, are those of the model."""
    room = Room(tiger, folder)
    got = fault_checks.run(tiger, ["disks", path, room.path("image")], where)
    if got.status != 0 or got.err:
        return got.differs(Ended(0, got.out, b""))
    scenario = json.loads(content(path))
    library = [content(os.path.join(where, file["name"])) for file in scenario["files"]]
    parts = disk_model.parts_of(scenario, library)
    if sum(map(len, parts)) != disk_model.count_of(scenario, map(len, library)):
        return "the model is at odds with itself"
    return got.differs(Ended(0, disk_model.lines_of(parts), b"")) or unlike(room.holds(), disk_model.image_of(parts))


def of_scenario(tiger, folder, scenario, files):
    """The same of a scenario and its files, which are put into the folder."""
    room = Room(tiger, folder)
    for name, given in files.items():
        room.write(name, given)
    room.write("scenario", scenarios.text_of(scenario).encode())
    return of_model(tiger, folder, room.path("scenario"), folder)


def of_drawn(tiger, folder, seed):
    """The same of a drawn scenario."""
    rng = random.Random(seed)
    names = scenarios.draw_media(rng, folder, 12)
    with open(os.path.join(folder, "scenario"), "w", encoding="utf-8") as file:
        file.write(scenarios.text_of(scenarios.draw_scenario(rng, names), rng))
    return of_model(tiger, folder, os.path.join(folder, "scenario"), folder)


def by_hand(tiger, folder):
    """The example has the lines and bytes that the document tells, and the model says the same."""
    parts = disk_model.parts_of(json.loads(ONE), [TEN])
    if (disk_model.lines_of(parts), disk_model.image_of(parts)) != (LINES, IMAGE):
        return "the model says something else"
    return Room(tiger, folder).differs(STORED, IMAGE, "one.json", "image")


def odd_ones():
    """Scenarios at the edges: what is odd, the plan's keys, the files with their disks, and their bytes."""
    long = bytes(at * 7 % 251 for at in range(1000))
    yield "one piece", {"pieces": 1}, [("ten", 0)], {}
    yield "eight pieces", {"pieces": 8, "cubs": 10, "block": 13}, [("long", 3)], {"long": long}
    yield "a file shorter than a block", {"block": 64}, [("ten", 7)], {}
    yield "a block as long as may be", {"block": MIB}, [("long", 1)], {"long": long * 1100}
    yield "blocks of one byte", {"block": 1}, [("ten", 2)], {}
    yield "a file of one byte", {}, [("byte", 5)], {"byte": b"x"}
    yield "whole blocks alone", {"block": 5}, [("ten", 0)], {}
    yield "a file that stands twice", {}, [("ten", 0), ("ten", 0), ("ten", 6)], {}
    yield "two files", {"block": 3}, [("ten", 4), ("long", 2)], {"long": long[:100]}
    yield "eight disks for each cub", {"disks": 8}, [("long", 63), ("ten", 8)], {"long": long}
    yield "64 cubs", {"cubs": 64, "disks": 8, "block": 2, "delay": 1}, [("long", 511)], {"long": long}
    yield "64 files", {}, [("ten", at % 8) for at in range(64)], {}
    yield "zeros", {"block": 16}, [("zeros", 0)], {"zeros": bytes(100)}
    yield "many parts", {"block": 1, "pieces": 8, "cubs": 10}, [("long", 9)], {"long": long}


def stored():
    """What is stored of each scenario: a name, and the check."""
    yield "the example by hand", by_hand
    for name in sorted(os.listdir(EXAMPLES)):
        if name.endswith(".json") and name != "net.json":
            yield f"examples/{name}", lambda *at, path=os.path.join(EXAMPLES, name): of_model(*at, path, EXAMPLES)
    for name in sorted(name for name in os.listdir(RUNS) if "." not in name):
        yield f"runs/{name}", lambda *at, path=os.path.join(RUNS, name): of_model(*at, path, MEDIA)
    for what, plan, files, media in odd_ones():
        scenario = changed(plan, files=[{"name": name, "disk": disk} for name, disk in files])
        yield what, lambda *at, given=(scenario, media): of_scenario(*at, *given)
    for seed in range(DRAWN):
        yield f"the drawn scenario {seed}", lambda *at, number=seed: of_drawn(*at, number)


# Images that exist.

def is_left(tiger, folder):
    """An image that exists is left as it is, whatever it has, and so is a link to nothing."""
    room = Room(tiger, folder)
    for there in (b"", b"x", IMAGE, bytes(1000)):
        room.write("image", there)
        found = room.differs(EXISTS, there, "one.json", "image")
        if found:
            return f"{len(there)} bytes: {found}"
    os.remove(room.path("image"))
    os.symlink("nowhere", room.path("image"))
    return room.differs(EXISTS, None, "one.json", "image") or unlike(room.holds("nowhere"), None)


def its_own_input(tiger, folder):
    """Neither the scenario nor its file is written over without --force."""
    room = Room(tiger, folder)
    for name, there in (("one.json", ONE), ("ten", TEN)):
        found = room.run("one.json", name).differs(EXISTS) or unlike(room.holds(name), there)
        if found:
            return f"{name}: {found}"
    return ""


def is_twice(tiger, folder):
    """A second call is refused, and the image of the first stays."""
    room = Room(tiger, folder)
    return (room.differs(STORED, IMAGE, "one.json", "image") or room.differs(EXISTS, IMAGE, "one.json", "image")
            or room.differs(STORED, IMAGE, "one.json", "image", "--force"))


def is_over(tiger, folder):
    """With --force an image is written over, and nothing is left of it, whether it was longer, shorter or not there."""
    room = Room(tiger, folder)
    for there in (None, b"", b"x", bytes(len(IMAGE)), b"y" * 100000):
        if there is not None:
            room.write("image", there)
        found = room.differs(STORED, IMAGE, "one.json", "image", "--force")
        if found:
            return f"{len(there or b'')} bytes: {found}"
        os.remove(room.path("image"))
    return ""


def is_named_so(tiger, folder):
    """The third word is the image, whatever it is: two words that begin with a hyphen, and one of odd letters."""
    room = Room(tiger, folder)
    for name in ("--force", "--help", "-", "a b\u00e9\n"):
        found = room.run("one.json", name).differs(STORED) or unlike(room.holds(name), IMAGE)
        if found:
            return f"{name!r}: {found}"
    return ""


# What the device cannot do.

def no_device(tiger, folder):
    """An image that cannot be opened or written is a fault of the device, and no line stands on standard output."""
    room = Room(tiger, folder)
    os.mkdir(room.path("folder"))
    for words in (["no/folder/image"], ["no/folder/image", "--force"], ["ten/image"], ["ten/image", "--force"], [""],
                  ["", "--force"], ["folder", "--force"], ["folder/", "--force"], ["/dev/full", "--force"],
                  ["x" * 300], ["x" * 300, "--force"], ["/dev/null", "--force"]):
        found = room.run("one.json", *words).differs(DEVICE)
        if found:
            return f"{' '.join(words)[:40]}: {found}"
    left = sorted(os.listdir(folder))
    return "" if left == ["folder", "one.json", "ten"] else f"there are {left}"


def is_secret(tiger, folder):
    """A folder in which nobody may write, and an image that nobody may write, are a fault of the device."""
    room = Room(tiger, folder)
    if os.path.exists(tiger):
        room.tiger = shutil.copy(tiger, folder)
        os.chmod(room.tiger, 0o755)
    room.write("image", b"x")
    for name, mode in (("image", 0o400), ("", 0o555)):
        os.chmod(room.path(name), mode)
    found = (room.run("one.json", "other", is_nobody=True).differs(DEVICE)
             or room.differs(DEVICE, b"x", "one.json", "image", "--force", is_nobody=True))
    os.chmod(folder, 0o755)
    return found or unlike(room.holds("other"), None)


def is_damaged(tiger, folder):
    """A device that gives zeros damages the first part that has another byte, and its disk and place are named."""
    room = Room(tiger, folder)
    for file in (TEN, bytes(7) + b"1", bytes(4) + b"2" + bytes(40), bytes(21) + b"3"):
        room.write("ten", file)
        disk, place = disk_model.first_other(disk_model.parts_of(json.loads(ONE), [file]), b"\0")
        found = room.run("one.json", "/dev/zero", "--force").differs(refused(12, f"damaged disk {disk} at {place}"))
        if found:
            return f"{file}: {found}"
    return ""


# What is refused.

def refusals():
    """Scenarios that are refused: the words for it, the bytes, and how the program ends."""
    one = ONE.rstrip()
    for what, text, line in (
            ("nothing", b"", "rule 1 item 0 left 0 right 0"), ("a front", one[:200], "rule 1 item 0 left 0 right 0"),
            ("another key", one.replace(b'"beats"', b'"seed":1,"beats"'), "rule 2 item 0 left 0 right 0"),
            ("no number", one.replace(b'"pieces":2', b'"pieces":9'), "rule 3 item 5 left 0 right 0"),
            ("a window too wide", one.replace(b"800000", b"986001"), "rule 4 item 2 left 1000001 right 1000000"),
            ("no disk", one.replace(b'"disk":0', b'"disk":8'), "rule 8 item 0 left 0 right 0"),
            ("an empty file", one.replace(b'"ten"', b'"nothing"'), "rule 13 item 0 left 0 right 0")):
        yield what, text, refused(5, f"scenario {line}")
    for name, wanted in (("gone", refused(3, "absent file 0")), ("folder", refused(4, "read fault file 0")),
                         ("large", refused(8, f"too long file 0 given {16 * MIB + 1} most {16 * MIB}"))):
        yield f"the file {name}", one.replace(b'"ten"', b'"%s"' % name.encode()), wanted
    plan = content(os.path.join(EXAMPLES, "net.json"))
    yield "a plan of net", plan, refused(5, "scenario rule 2 item 0 left 0 right 0")
    yield ("a long scenario", one.ljust(4 * MIB + 1),
           refused(8, f"too long scenario given {4 * MIB + 1} most {4 * MIB}"))


def no_image(tiger, folder, text, wanted):
    """A scenario that is refused makes no image, and leaves one that exists as it is, also with --force."""
    room = Room(tiger, folder)
    os.mkdir(room.path("folder"))
    for name, given in (("scenario", text), ("nothing", b""), ("large", 16 * MIB + 1)):
        room.write(name, given)
    for there in (None, b"an image"):
        if there is not None:
            room.write("image", there)
        for words in (["scenario", "image"], ["scenario", "image", "--force"]):
            found = room.differs(wanted, there, *words)
            if found:
                return f"{' '.join(words)}: {found}"
    return ""


def no_scenario(tiger, folder):
    """A scenario that is not there or is a folder makes no image."""
    room = Room(tiger, folder)
    os.mkdir(room.path("folder"))
    for name, wanted in (("absent.json", refused(3, "absent scenario")), ("", refused(3, "absent scenario")),
                         ("folder", refused(4, "read fault scenario")), ("ten/x", refused(4, "read fault scenario"))):
        found = room.differs(wanted, None, name, "image") or room.differs(wanted, None, name, "image", "--force")
        if found:
            return f"{name}: {found}"
    return ""


def wrong_words(tiger, folder):
    """Words that are no command make no image."""
    room = Room(tiger, folder)
    for words in ([], ["one.json"], ["one.json", "image", "force"], ["one.json", "image", "--Force"],
                  ["one.json", "image", ""], ["--force", "one.json", "image"], ["one.json", "--force", "image"],
                  ["one.json", "image", "--force", "--force"], ["one.json", "image", "1"],
                  ["one.json", "image", os.fsdecode(b"\xff")], ["one.json", os.fsdecode(b"\xff")]):
        found = room.differs(refused(2, "words"), None, *words)
        if found:
            return f"{words}: {found}"
    left = sorted(os.listdir(folder))
    return "" if left == ["one.json", "ten"] else f"there are {left}"


def too_many(tiger, folder, plan, lengths):
    """Too many parts break rule 15, with their number, and no image is made; one byte less is none too many."""
    room = Room(tiger, folder)
    files = [{"name": f"file{number}", "disk": 0} for number in range(len(lengths))]
    room.write("scenario", json.dumps(changed(plan, files=files)).encode())
    for file, length in zip(files, lengths):
        room.write(file["name"], length)
    count = disk_model.count_of(changed(plan), lengths)
    wanted = refused(5, f"scenario rule 15 item 0 left {count} right {disk_model.MOST_PARTS}")
    calls = (["scenario", "image"], ["scenario", "image", "--force"])
    found = [room.differs(wanted, None, *words) for words in calls]
    room.write("image", b"an image")
    found += [room.differs(wanted, b"an image", *words) for words in calls]
    return next(filter(None, found), "")


def as_many(tiger, folder):
    """As many parts as may be are not refused: the image is asked for, and exists."""
    room = Room(tiger, folder)
    room.write("scenario", json.dumps(changed({"block": 1, "pieces": 1})).encode())
    room.write("ten", 2000000)
    room.write("image", b"x")
    return room.differs(EXISTS, b"x", "scenario", "image")


# Standard output.

def cannot_write(tiger, folder):
    """If the lines cannot be written, the status says so, and the image is whole: it does not get the number of a stream
    that is closed, so neither the lines nor the one on standard error stand in it."""
    room = Room(tiger, folder)
    for what, how in (("a full disk", {"out": fault_checks.full()}), ("no standard output", {"closed": [1]}),
                      ("a reader that is gone", {"out": fault_checks.unread()}),
                      ("an output for reading", {"out": fault_checks.read_only()}),
                      ("neither input nor output", {"closed": [0, 1]})):
        found = room.differs(FAULT, IMAGE, "one.json", "image", **how)
        if found:
            return f"{what}: {found}"
        os.remove(room.path("image"))
    for what, how in (("no stream at all", {"closed": [0, 1, 2]}), ("input alone", {"closed": [1, 2]}),
                      ("no standard error", {"out": fault_checks.full(), "closed": [2]}),
                      ("a full disk alone", {"out": fault_checks.full(), "closed": [0, 2]})):
        found = room.differs(Ended(6, b"", b""), IMAGE, "one.json", "image", **how)
        if found:
            return f"{what}: {found}"
        os.remove(room.path("image"))
    for closed in ([0], [2], [0, 2]):
        found = room.differs(STORED, IMAGE, "one.json", "image", "--force", closed=closed)
        if found:
            return f"without the streams {closed}: {found}"
    return ""


def others():
    """What is no comparison with the model: a name, and the check."""
    for check in (is_left, its_own_input, is_twice, is_over, is_named_so, no_device, is_secret, is_damaged, no_scenario,
                  wrong_words, cannot_write, as_many):
        yield check.__name__.replace("_", " "), check


def refused_ones():
    """Scenarios that are refused as `run` refuses them: a name, and the check."""
    for what, text, wanted in refusals():
        yield f"no image of {what}", lambda *at, given=(text, wanted): no_image(*at, *given)


def large_ones():
    """Scenarios of too many parts: a name, and the check."""
    for what, plan, lengths in (
            ("one byte too many", {"block": 1, "pieces": 1}, [2000000, 1]),
            ("one file too long", {"block": 1, "pieces": 2}, [1333334]),
            ("as many bytes as may be", {"block": 1, "pieces": 8, "cubs": 10}, [16 * MIB] * 4),
            ("blocks of three bytes", {"block": 3, "pieces": 6}, [16 * MIB, 5])):
        yield f"too many parts: {what}", lambda *at, given=(plan, lengths): too_many(*at, *given)


# Each check is its name, and what it does with a program in a folder of its own.
GROUPS = {"STORED": dict(stored()), "OTHERS": dict(others()), "BROKEN": dict(refused_ones()),
          "MANY": dict(large_ones())}
CHECKS = {name: check for group in GROUPS.values() for name, check in group.items()}


def tried(tiger, folder, given, jobs):
    """What each of some checks finds with a program: its name, and what it found."""
    given = list(given)

    def one(number):
        at = os.path.join(folder, str(number))
        os.mkdir(at)
        os.chmod(at, 0o755)
        return CHECKS[given[number]](tiger, at)

    os.makedirs(folder)
    found = list(zip(given, program.in_turn(one, range(len(given)), jobs)))
    shutil.rmtree(folder)
    return found


def no_program(folder):
    """Each check fails with a program that is missing, crashes, hangs or says something else."""
    for number, (name, text) in enumerate(disk_wrongs.STAND_INS.items()):
        path = disk_wrongs.put(os.path.join(folder, f"stands in {number}"), text)
        wait, program.WAIT = program.WAIT, 1
        found = tried(path, f"{path} rooms", CHECKS, 64)
        program.WAIT = wait
        passed = [check for check, difference in found if not difference]
        yield f"the checks of disks with a program that is '{name}'", "passed: " + ", ".join(passed) if passed else ""


def wrong_programs(tiger, folder):
    """Each program that is this one but for one thing fails the check that looks for it."""
    groups = {**GROUPS, "REFUSED": [*GROUPS["BROKEN"], *GROUPS["MANY"]], "SOME": list(GROUPS["STORED"])[::20]}
    for number, (name, text, names) in enumerate(disk_wrongs.wrongs(tiger, groups)):
        path = disk_wrongs.put(os.path.join(folder, f"is wrong {number}"), text)
        found = tried(path, f"{path} rooms", names, os.cpu_count())
        passed = [check for check, difference in found if not difference]
        yield f"the checks of disks with a program that {name}", "passed: " + ", ".join(passed) if passed else ""


def all_of_them(tiger, folder):
    """Each check's name, and what it found; nothing if all is well."""
    os.chmod(folder, 0o755)
    at = os.path.join(folder, "disks")
    os.mkdir(at)
    for name, found in tried(tiger, os.path.join(at, "rooms"), CHECKS, os.cpu_count()):
        yield f"disks: {name}", found
    yield from no_program(at)
    yield from wrong_programs(tiger, at)
