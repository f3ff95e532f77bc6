"""Checks of the command `net` for tools/check-program: which plans of a network's schedule are refused and which are
not, and what tools/explain and tools/picture say of them.

What is refused is told by hand, from docs/network.md. The lines of runs are those of conformance/net and of
examples/net.json; here plans are accepted that ask for little, so that their lines are known.
"""
import json
import os
import re

import program
import tool_checks
from program import Ended, refused
from tool_checks import EXAMPLES, content, is_well_formed, tool

MOST = 4194304  # bytes of a plan
NONE = "peak 0 at 0\n"  # the lines of a plan that asks for nothing
ODD = ("-1", "-0", "1.0", "1e0", '"4"', "null", "true", "[4]", "{}", "18446744073709551616")  # not of 64 bits
STAND_INS = {  # programs that are not this one, and one that writes no line of another run
    "true": "exit 0", "crashes": "kill -SEGV $$", "hangs": "exec sleep 600", "no lines": "echo total starts 1",
    "other lines": "echo 'entry 0 cub 0 at 0 rate 1 placed'; echo 'peak 1 at 0'",
    "no last line": "head -n 8 net.stdout"}


def rule(number):
    """A plan that is refused by a rule."""
    return refused(13, f"net rule {number}")


def told(lines):
    """A plan whose run writes these lines."""
    return Ended(0, lines.encode(), b"")


def plan(events=(), **keys):
    """The bytes of a plan on the ring of the example; a key with no value is left out."""
    value = {"cubs": 3, "quanta": 4, "capacity": 10, "steps": 5, "events": events, **keys}
    return json.dumps({key: it for key, it in value.items() if it is not None}).encode()


def with_text(key, text):
    """The bytes of a plan in which this text stands for a key's value, or behind it for one that may be missing."""
    found = plan(**{key: "HERE"})
    return found.replace(b'"HERE"', text.encode())


def ask(at=0, rate=1, step=0):
    """An ask."""
    return {"step": step, "at": at, "rate": rate}


def stop(instance, step=0):
    """A stop."""
    return {"step": step, "stop": instance}


def texts():
    """Bytes that are no JSON, or are JSON and no plan: what is wrong, the bytes, and how the run ends."""
    yield "nothing", b"", rule(1)
    yield "a bracket too many", plan() + b"}", rule(1)
    yield "two plans", plan() + plan(), rule(1)
    yield "a byte order mark", b"\xef\xbb\xbf" + plan(), rule(1)
    yield "a byte that is no text", plan().replace(b"cubs", b"cub\xff"), rule(1)
    yield "half of a character", with_text("seed", r'"\ud800"'), rule(1)
    yield "a number that is too large", with_text("seed", "1e400"), rule(1)
    yield "127 brackets", b"[" * 127 + b"]" * 127, rule(2)
    yield "128 brackets", b"[" * 128 + b"]" * 128, rule(1)
    yield "a list", b"[" + plan() + b"]", rule(2)
    yield "a text", b'"plan"', rule(2)
    yield "an object of no keys", b"{}", rule(2)
    yield "a scenario", content(os.path.join(EXAMPLES, "one.json")), rule(2)
    yield "blanks around a plan", b" \n\t" + plan() + b"\r\n ", told(NONE)
    yield "as many bytes as may be", plan().ljust(MOST), told(NONE)
    yield ("a byte more", plan().ljust(MOST + 1),
           refused(8, f"too long scenario given {MOST + 1} most {MOST}"))
    yield "a key that stands twice, first well", plan()[:-1] + b',"cubs":2}', rule(2)
    yield "a key that stands twice, last well", b'{"cubs":2,' + plan()[1:], told(NONE)


def keys():
    """Plans with a key that is missing, another one, or a number that is out of its range or none."""
    for key in ("cubs", "quanta", "capacity", "steps", "events"):
        yield f"no {key}", plan(**{key: None}), rule(2)
    yield "another key", plan(beats=1), rule(2)
    for key, low, high in (("cubs", 3, 64), ("quanta", 1, 1000), ("capacity", 1, 10**12), ("steps", 1, 100000),
                           ("seed", 0, (1 << 64) - 1), ("renew", 1, 100000)):
        for value, wanted in ((low - 1, rule(2)), (low, told(NONE)), (high, told(NONE)), (high + 1, rule(2))):
            yield f"{key} {value}", with_text(key, str(value)), wanted
        for text in ODD:
            yield f"{key} {text}", with_text(key, text), rule(2)
    for text in ("null", "{}", "0", '"[]"', "true"):
        yield f"events {text}", with_text("events", text), rule(2)


def orders():
    """Plans with orders at and beyond their bounds."""
    placed = "entry 0 cub 0 at 0 rate 1 placed\npeak 1 at 0\n"
    for what, events, wanted in (
            ("in the last step", [ask(step=4)], told(placed)), ("behind the last step", [ask(step=5)], rule(2)),
            ("in falling steps", [ask(step=2), ask(step=1)], rule(2)),
            ("at the last quantum", [ask(at=11)], told("entry 0 cub 2 at 11 rate 1 placed\npeak 1 at 0\n")),
            ("behind the last quantum", [ask(at=12)], rule(2)), ("of no rate", [ask(rate=0)], rule(2)),
            ("of the capacity", [ask(rate=10)], told("entry 0 cub 0 at 0 rate 10 placed\npeak 10 at 0\n")),
            ("above the capacity", [ask(rate=11)], rule(2)), ("to stop it", [ask(), stop(0)],
                                                              told("entry 0 cub 0 at 0 rate 1 stopped\npeak 0 at 0\n")),
            ("to stop it twice", [ask(), stop(0), stop(0)],
             told("entry 0 cub 0 at 0 rate 1 stopped\npeak 0 at 0\n")),
            ("to stop it later", [ask(), stop(0, 1)], told("entry 0 cub 0 at 0 rate 1 stopped\npeak 1 at 0\n")),
            ("to stop what comes later", [stop(0), ask()], rule(2)), ("to stop another one", [ask(), stop(1)], rule(2)),
            ("with no step", [{"at": 0, "rate": 1}], rule(2)), ("with no rate", [{"step": 0, "at": 0}], rule(2)),
            ("with another key", [{**ask(), "cub": 0}], rule(2)),
            ("to ask and stop", [ask(), {**ask(), "stop": 0}], rule(2)),
            ("that is a number", [7], rule(2)), ("that is a list", [[0, 0, 1]], rule(2)),
            ("of no keys", [{}], rule(2))):
        yield f"an order {what}", plan(events), wanted
    for text in ODD:
        yield f"an ask at {text}", plan([ask(at="HERE")]).replace(b'"HERE"', text.encode()), rule(2)
    full = "".join(f"entry {at} cub 0 at 0 rate 10 {'full 0 sum 10' if at else 'placed'}\n" for at in range(4000))
    yield "4000 orders", plan([ask(rate=10)] * 4000), told(full + "peak 10 at 0\n")
    yield "4001 orders", plan([ask(rate=10)] * 4001), rule(2)


def plans(tiger, folder):
    """Each plan ends as it is told above."""
    given = [*texts(), *keys(), *orders()]
    for number, (_, text, _) in enumerate(given):
        with open(os.path.join(folder, f"plan{number}"), "wb") as file:
            file.write(text)
    ended = program.in_turn(lambda number: program.run([tiger, "net", f"plan{number}"], folder), range(len(given)),
                            os.cpu_count())
    for number, ((what, _, wanted), got) in enumerate(zip(given, ended)):
        os.remove(os.path.join(folder, f"plan{number}"))
        yield f"a plan: {what}", got.differs(wanted)


def words(tiger, folder):
    """Each refusal of the words, and of a plan that is not there or cannot be read."""
    for text in ("net", "net net.json 1", "net net.json net.json", "nets net.json", "Net net.json", "net --help --help",
                 "--help net"):
        yield f"the words '{text}'", program.run([tiger, *text.split()], folder).differs(refused(2, "words"))
    for what, name, wanted in (("that is not there", "absent.json", refused(3, "absent scenario")),
                               ("of no name", "", refused(3, "absent scenario")),
                               ("named as a word of help", "--help", refused(3, "absent scenario")),
                               ("that is a folder", "folder", refused(4, "read fault scenario")),
                               ("below a file", "net.json/x", refused(4, "read fault scenario")),
                               ("whose name is no text", os.fsdecode(b"net\xff.json"), refused(2, "words"))):
        yield f"a plan {what}", program.run([tiger, "net", name], folder).differs(wanted)


# What the tools say.

def broken():
    """Plans that break a rule: which, the bytes, and what is said of them."""
    yield 1, b"", "In the plan, nothing stands there."
    yield 1, plan() + b"}", "In the plan, reading ends at line 1, column"
    yield 2, content(os.path.join(EXAMPLES, "one.json")), "The plan has the keys of a scenario"
    yield 2, b"[]", "The plan is [], and must be an object."
    yield 2, plan(quanta=None, steps=None), "The plan has no key quanta, steps."
    yield 2, plan(beats=1), 'The plan has the key "beats"'
    yield 2, plan(cubs=2), "In the plan, cubs is 2, and must be from 3 to 64."
    yield 2, with_text("capacity", "1.0"), "capacity is 1.0, which is no whole number in digits alone"
    yield 2, plan(renew=0), "renew is 0, and must be from 1 to 100000"
    yield 2, plan(events={}), "events is {}, and must be an array"
    yield 2, plan([ask()] * 4001), "events has 4001 elements, and may have at most 4000"
    yield 2, plan([ask(), ask(at=12)]), "its at is 12, and must be from 0 to 11"
    yield 2, plan([ask(rate=11)]), "its rate is 11, and must be from 1 to 10"
    yield 2, plan([ask(step=5)]), "its step is 5, and must be from 0 to 4"
    yield 2, plan([ask(step=3), ask(step=2)]), "events[1] is {\"step\":2,\"at\":0,\"rate\":1}: its step is below"
    yield 2, plan([stop(0)]), "nothing was asked for before it"
    yield 2, plan([ask(), stop(1)]), "its stop is 1, and must be from 0 to 0"
    yield 2, plan([{**ask(), "stop": 0}]), "must be either an ask or a stop"
    yield 2, plan([{"step": 0}]), "it has no key at, rate"


def explained(tiger, folder):
    """Each broken rule is explained with what breaks it, a line alone is, and the faults of files are."""
    for number, text, said in broken():
        with open(os.path.join(folder, "broken.json"), "wb") as file:
            file.write(text)
        for what in ("13", f"tiger: net rule {number}"):
            ended = tool("explain", ["--program", tiger, what, "broken.json"], folder)
            good = ended.status == 0 and said in ended.out.decode() and f"Rule {number} of" in ended.out.decode()
            yield f"the words '{said}' of {what}", "" if good else f"status {ended.status}, '{ended.out.decode()}'"
    for given, status, start in ((["13"], 0, b"Status 13: "), (["tiger: net rule 2"], 0, b"Rule 2 of a network's plan"),
                                 (["tiger: net rule 3"], 1, b""), (["13", "net.json"], 1, b""),
                                 (["3", "absent.json"], 0, b"tiger: absent scenario\n"),
                                 (["4", "folder"], 0, b"tiger: read fault scenario\n"),
                                 (["0", "net.json"], 0, b"Status 0")):
        ended = tool("explain", ["--program", tiger, *given], folder)
        good = ended.status == status and ended.out.startswith(start) and bool(ended.out) == (status == 0)
        yield f"the words {given} of explain", "" if good else f"status {ended.status}, '{ended.out.decode()}'"
    ended = tool("explain", ["--program", tiger, "5", "net.json"], folder)
    yield "a plan that is run", "" if b"which tiger net takes" in ended.out else ended.out.decode()


def drawn():
    """Plans that are drawn: what they are, and the plan."""
    yield "of no entry", plan()
    yield "on the largest ring", plan([ask(at * 160, 10**12, at) for at in range(400)], cubs=64, quanta=1000,
                                      capacity=10**12, steps=2000, seed=7, renew=500)
    yield "with many entries", plan([ask(at * 7 % 256, 1 + at % 9, 3 * at) for at in range(400)], cubs=64, capacity=40,
                                    steps=2000)
    yield "far below the capacity", plan([ask(5, 1)], capacity=10**12)


def pictures(tiger, folder):
    """Plans have pictures; what is refused has none, and neither has what does not fit together."""
    for what, text in drawn():
        with open(os.path.join(folder, "a plan"), "wb") as file:
            file.write(text)
        made = tool("picture", ["--program", tiger, "a plan", "--out", "made.svg"], folder)
        svg = content(os.path.join(folder, "made.svg"))
        good = made.status == 0 and made.out + made.err == b"" and is_well_formed(svg) and len(svg) < 1 << 20
        yield f"a picture of a plan {what}", "" if good else f"status {made.status}, '{program.first_line(made.err)}'"
    with open(os.path.join(folder, "refused plan"), "wb") as file:
        file.write(plan(cubs=2))
    made = tool("picture", ["--program", tiger, "refused plan"], folder)
    yield "a picture of a refused plan", made.differs(rule(2))
    for given in (["--ring"], ["--at", "1"]):
        yield f"a picture with {given}", failed(tool("picture", ["--program", tiger, "net.json", *given], folder))


def as_told(folder):
    """What the picture of the example tells of its entries is what its lines say."""
    svg = content(os.path.join(EXAMPLES, "net.svg")).decode()
    for line in content(os.path.join(EXAMPLES, "net.stdout")).decode().splitlines()[:-1]:
        _, instance, _, cub, _, at, _, rate, state, *_ = line.split()
        said = f"entry {instance}: rate {rate} from quantum {at} of cub {cub} on"
        wanted = f"<title>{said}</title>" if state == "placed" else f">{said}"
        yield f"entry {instance} in the picture", "" if wanted in svg else "it is not there"
    lines = content(os.path.join(EXAMPLES, "net.stdout")).splitlines(True)
    for what, left in (("of another entry", [lines[0].replace(b"rate 6", b"rate 5"), *lines[1:]]),
                       ("without an entry", [*lines[:3], *lines[4:]]), ("that is cut", lines[:8]), ("of nothing", []),
                       ("above the capacity", [*lines[:6], lines[6].replace(b"stopped", b"placed"),
                                               lines[7].replace(b"placed", b"stopped"), b"peak 7 at 8\n"]),
                       ("with another peak", [*lines[:8], b"peak 9 at 12\n"])):
        with open(os.path.join(folder, "other lines"), "wb") as file:
            file.writelines(left)
        yield f"a picture of lines {what}", failed(tool("picture", ["net.json", "--report", "other lines"], folder))


def no_program(folder):
    """No tool takes a stand-in for the program: each ends with one line, and prints no picture and no meaning."""
    for name, text in STAND_INS.items():
        path = os.path.join(folder, f"is {name}")
        with open(path, "w", encoding="ascii") as file:
            file.write(f"#!/bin/sh\n{text}\n")
        os.chmod(path, 0o755)
        for words_of in (["picture", "net.json"], ["explain", "13", "net.json"]):
            got = tool(words_of[0], ["--program", path, "--wait", "1", *words_of[1:]], folder)
            good = got.status not in (0, 64) and got.out == b"" and b"Traceback" not in got.err
            yield f"{' '.join(words_of)} with a program that is '{name}'", "" if good else f"status {got.status}"


def draws(tiger, folder):
    """A few plans are drawn and compared with the model."""
    drawn = tool("draw-nets", ["--program", tiger, "--jobs", "1", "7", "20"], folder)
    good = drawn.status == 0 and drawn.out.endswith(b"draw-nets: 20 agreed, 0 differed\n")
    yield "twenty drawn plans", "" if good else f"status {drawn.status}, '{drawn.out.decode()}'"


def failed(ended):
    """What is wrong with a run that was to fail with status 1 and one line, and to print nothing."""
    good = ended.status == 1 and ended.out == b"" and re.fullmatch(rb"\w+: [^\n]+\n", ended.err)
    return "" if good else f"status {ended.status}, '{ended.err[-200:].decode()}'"


def all_of_them(tiger, folder):
    """Each check's name, and what it found; nothing if all is well. The folder has the examples."""
    yield from words(tiger, folder)
    yield from plans(tiger, folder)
    yield from explained(tiger, folder)
    yield from pictures(tiger, folder)
    yield from as_told(folder)
    yield from no_program(folder)
    yield from draws(tiger, folder)
