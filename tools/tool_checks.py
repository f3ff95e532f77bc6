"""Checks of tools/picture, tools/explain, tools/draw, tools/cuts, tools/returns and tools/audit-mutations for
tools/check-program, and of the line by which the launcher offers tools/explain."""
import json
import os
import pty
import re
import shlex
import sys
import xml.etree.ElementTree

import launcher_checks
import meanings
import program
import scenarios

EXAMPLES = os.path.join(program.TOP, "examples")
TOOLS = os.path.join(program.TOP, "tools")
KEPT = {  # the pictures of examples/, each with the words that make it from a scenario and its kept report there
    "back.svg": ("back",),
    "cut.svg": ("cut",),
    "dead-cub.svg": ("dead-cub",),
    "dead-disk.svg": ("dead-disk", "--report", "dead-disk.spare"),
    "full-house.svg": ("full-house",),
    "net.svg": ("net",),
    "read-fault.svg": ("read-fault",),
    "six-viewers.svg": ("six-viewers",),
    "six-viewers-ring.svg": ("six-viewers", "--ring", "--at", "7.05"),
    "slot-reused.svg": ("slot-reused",),
}
HOSTILE = "a<b>&\"'\x1b[31m\u202e\u0301\U0001f600]]>" + "\u9bca" * 40  # a file's name


def tool(name, words, folder):
    """How a tool ends on these words in a folder, which has what the tool leaves too."""
    return program.run([sys.executable, os.path.join(TOOLS, name), *words], folder,
                       env={**os.environ, "TMPDIR": os.path.abspath(folder)})


def content(path):
    """The bytes of a file; none if it is not there."""
    try:
        with open(path, "rb") as file:
            return file.read()
    except OSError:
        return b""


# Pictures.

def from_report(name, *words):
    """The words for a picture from a scenario of examples/ and its kept report."""
    return [name + ".json", "--report", name + ".stdout", *words]


def kept_pictures():
    """Each picture of examples/ is the one that the tool makes now from the kept report; no program is needed."""
    for name, words in KEPT.items():
        made = tool("picture", from_report(*words), EXAMPLES)
        same = made.status == 0 and made.out == content(os.path.join(EXAMPLES, name))
        yield f"the picture {name}", "" if same else f"tools/picture now makes another; status {made.status}"
    found = {name for name in os.listdir(EXAMPLES) if name.endswith(".svg")}
    yield "the pictures of examples/", ", ".join(sorted(found ^ set(KEPT)))


def is_well_formed(svg):
    """Whether some bytes are an SVG without scripts and links, and nothing in it lies outside."""
    root = xml.etree.ElementTree.fromstring(svg)
    names = {element.tag.rpartition("}")[2] for element in root.iter()}
    words = {key for element in root.iter() for key in element.keys()}
    return (root.tag == "{http://www.w3.org/2000/svg}svg" and not names & {"script", "a", "image", "use", "style"}
            and not any(key.startswith("on") or "href" in key for key in words))


def small_plan():
    """The plan of the examples."""
    return json.loads(content(os.path.join(EXAMPLES, "one.json")))["plan"]


def no_one():
    """A scenario without a viewer."""
    return {"plan": small_plan(), "beats": 1, "links": {"fixed": 1}, "files": [{"name": "ten", "disk": 0}],
            "events": []}


def hostile():
    """A scenario with a viewer of a file whose name is hostile."""
    return {**no_one(), "beats": 600, "files": [{"name": HOSTILE, "disk": 0}], "events": [{"beat": 0, "start": 0}]}


def crowd():
    """A scenario with 64 cubs of two disks and 600 viewers, deaths, stops and read faults."""
    starts = [{"beat": 2 * at, "start": at % 64} for at in range(600)]
    stops = [{"beat": 1300, "stop": at} for at in range(0, 600, 7)]
    return {"plan": {**small_plan(), "cubs": 64, "slots": 1280, "disks": 2, "delay": 1}, "beats": 2000,
            "links": {"fixed": 1}, "files": [{"name": "long", "disk": at % 16} for at in range(64)],
            "events": starts + stops, "deaths": [{"cub": 2 * at, "beat": 700 + at} for at in range(32)],
            "read_faults": [{"disk": at, "from": at, "until": 900 + at} for at in range(0, 128, 3)]}


def put(folder, name, scenario):
    """Writes a scenario into a folder."""
    with open(os.path.join(folder, name), "w", encoding="utf-8") as file:
        json.dump(scenario, file)


def drawn_pictures(tiger, folder):
    """Runs without viewers, with hostile names and with a crowd have pictures of both kinds, by the program."""
    with open(os.path.join(folder, HOSTILE), "wb") as file:
        file.write(b"some bytes")
    for name, scenario in (("no one", no_one()), ("hostile <&\"'\x1b", hostile()), ("crowd", crowd())):
        put(folder, name, scenario)
        for words in ([], ["--ring"]):
            made = tool("picture", ["--program", tiger, name, *words, "--out", "made.svg"], folder)
            svg = content(os.path.join(folder, "made.svg"))
            good = made.status == 0 and made.out + made.err == b"" and is_well_formed(svg)
            yield f"a picture of {name!r}", "" if good else f"status {made.status}, '{program.first_line(made.err)}'"


def picture_of(folder, scenario, report):
    """The picture of a scenario and a report, by the tool."""
    put(folder, "told.json", scenario)
    with open(os.path.join(folder, "told.stdout"), "wb") as file:
        file.write(report)
    return tool("picture", ["told.json", "--report", "told.stdout"], folder).out


def house():
    """A scenario with 2000 viewers and its report; each has two whole blocks, and that of slot 9 misses both."""
    scenario = {**no_one(), "plan": {**small_plan(), "slots": 2000}, "beats": 2000,
                "events": [{"beat": 0, "start": 0}] * 2000}
    lines = []
    for slot in range(2000):
        due = slot * 8 * 1000000 // 2000
        how = ["missing dead"] * 2 if slot == 9 else [f"whole 4 sent {(due + at * 1000000) // 10000}" for at in (0, 1)]
        lines += [f"start {slot} file 0 slot {slot} first 0", f"block 0 due {due} {how[0]}",
                  f"block 1 due {due + 1000000} {how[1]}",
                  f"end {slot} whole 0 pieces 0 missing 0 bytes 0 sha256 {'0' * 64}"]
    lines.append("total starts 2000 placed 2000 whole 3998 pieces 0 missing 2")
    return scenario, "".join(line + "\n" for line in lines).encode()


def told_pictures(folder):
    """A viewer whose first blocks are not whole has its number; missing blocks are seen in a large house too, in no
    other red than that of their reason."""
    report = content(os.path.join(EXAMPLES, "full-house.stdout")).replace(
        b"block 0 due 500000 whole 4 sent 50", b"block 0 due 500000 missing read")
    svg = picture_of(folder, json.loads(content(os.path.join(EXAMPLES, "full-house.json"))), report)
    yield "the number of a viewer that misses its first block", "" if b">viewer 0</text>" in svg else "it is not there"
    svg = picture_of(folder, *house())
    yield "the slot with missing blocks", "" if b"<title>viewer 9 plays" in svg else "it is not drawn"
    yield "the row of missing blocks", "" if b">missing, to 1</text>" in svg else "it is not there"
    yield "the red of another reason", "it is there" if b"#e0312a" in svg or b"#8a0f16" not in svg else ""


def no_pictures(tiger, folder):
    """A refused scenario has the program's line and status, and what does not fit together says so."""
    put(folder, "refused.json", {**no_one(), "beats": 0})
    wanted = program.Ended(5, b"", b"tiger: scenario rule 5 item 0 left 0 right 0\n")
    made = tool("picture", ["--program", tiger, "refused.json", "--out", "none.svg"], folder)
    yield "a refused picture", made.differs(wanted) or content(os.path.join(folder, "none.svg")).decode()
    for name, report in (("empty", b""), ("another", content(os.path.join(EXAMPLES, "full-house.stdout"))),
                         ("odd", b"start 0 file 0 slot 99 first 0\n\xff\n")):
        with open(os.path.join(folder, "odd.stdout"), "wb") as file:
            file.write(report)
        made = tool("picture", ["one.json", "--report", "odd.stdout"], folder)
        good = made.status == 1 and made.out == b"" and made.err.startswith(b"picture: ")
        yield f"a picture of an {name} report", "" if good else f"status {made.status}"
    made = tool("picture", from_report("one", "--ring", "--at", "6.000001"), folder)
    wanted = program.Ended(1, b"", b"picture: the run ends after 6 s\n")
    yield "a picture of what is no more", made.differs(wanted)


# Words for refusals.

def table_rows(text):
    """The rows of a document's tables, as tuples of cells."""
    return [tuple(cell.strip() for cell in line.strip()[1:-1].split("|")) for line in text.splitlines()
            if line.startswith("| ")]


def first_unlike(ours, theirs):
    """The first entry in which two tables differ; nothing if they are alike."""
    keys = [key for key in [*ours, *theirs] if ours.get(key) != theirs.get(key)]
    return f"{keys[0]}: {theirs.get(keys[0])} in docs/formats.md for {ours.get(keys[0])}" if keys else ""


def same_tables():
    """The tables of docs/formats.md say what tools/explain says."""
    rows = table_rows(content(os.path.join(program.TOP, "docs", "formats.md")).decode())
    numbered = [row for row in rows if row[0].isdecimal()]
    rules = {int(row[0]): (row[1], row[4]) for row in numbered if len(row) == 5}
    conditions = {int(row[0]): row[1:] for row in numbered if len(row) == 4}
    keys = {int(row[at]): row[at + 1:at + 4] for row in numbered if len(row) == 9 for at in (0, 5)}
    statuses = {int(row[1]): row[0] for row in rows if len(row) == 3 and row[1].isdecimal()}
    ours = {at: (f"`{key}`", str(low), str(high))
            for at, (key, (low, high)) in enumerate(zip(scenarios.KEYS, scenarios.RANGES), 1)}
    yield "the table of rules", first_unlike(meanings.RULES, rules)
    yield "the table of conditions", first_unlike(meanings.CONDITIONS, conditions)
    yield "the table of the plan's keys", first_unlike(ours, keys)
    yield "the table of statuses", first_unlike(meanings.STATUSES, statuses)
    clauses = {int(row[0]): row[1] for row in numbered if len(row) == 2}
    yield "the table of clauses", first_unlike(meanings.CLAUSES, clauses)
    net_rules = {int(row[0]): row[1:] for row in numbered if len(row) == 3 and not row[1].isdecimal()}
    yield "the table of a plan's rules", first_unlike(meanings.NET_RULES, net_rules)


def broken():
    """Scenarios that are refused: the status, the scenario, and what is said of it."""
    one = {**no_one(), "beats": 600}
    event, far = {"beat": 0, "start": 0}, {"beat": 600, "start": 0}
    yield 5, {**one, "seed": 1}, 'the scenario has the key "seed"'
    yield 5, {**one, "seed": 1, "speed": 2}, '"seed", "speed"'
    yield 5, {"plan": small_plan()}, "no key beats, links, files, events"
    yield 5, {**one, "beats": -1}, "beats is -1, which"
    yield 5, {**one, "beats": 0}, "To mend it: run 1 to 100000 beats"
    yield 5, {**one, "deaths": [{"cub": 0, "beat": 0}] * 33}, "To mend it: give deaths 0 to 32 elements."
    yield 5, {**one, "plan": {key: small_plan()[key] for key in scenarios.KEYS[2:]}}, "plan has no key cubs, disks."
    yield 5, {**one, "plan": {**small_plan(), "cubs": 65}}, "cubs is 65, and must be from 3 to 64"
    yield 5, {**one, "plan": {**small_plan(), "window_a": 986001}}, "986001 + 4000 + 10000 = 1000001"
    yield 5, {**one, "plan": {**small_plan(), "window_b": 800000}}, "The first is too large by 1."
    yield 5, {**one, "plan": {**small_plan(), "cubs": 32, "delay": 1}, "beats": 100000}, "at most 62500 beats"
    yield 5, {**one, "links": {"fixed": 3}}, "fixed is 3, and must be from 1 to 2"
    yield 5, {**one, "offsets": [0] * 8 + [4001]}, "offsets[8] is 4001: it is 4001, and must be from 0 to 4000"
    yield 5, {**one, "files": [{"name": "", "disk": 0}]}, "its name has 0 bytes"
    yield 5, {**one, "events": [event, far]}, "its beat is 600, and must be from 0 to 599"
    yield 5, {**one, "events": [{"beat": 0, "stop": 0}]}, "nothing was started before it"
    yield 5, {**one, "beats": 20000, "events": [event] * 2000}, "The product is 402000, and may be at most 400000."
    yield 5, {**one, "deaths": [{"cub": 7, "beat": 1}, {"cub": 0, "beat": 1}]}, "a neighbour of cub 7"
    for after, words in ((1001, "its after is 1001, and must be from 0 to 1000"), (None, "its after is null, which")):
        yield 5, {**one, "deaths": [{"cub": 7, "beat": 1, "after": after}]}, words
    for back, words in ((2, "its back is 2, and must be from 3 to 599"), (600, "its back is 600, and must be from 3"),
                        ("3", 'its back is "3", which')):
        yield 5, {**one, "deaths": [{"cub": 7, "beat": 1, "back": back}]}, words
    late = {"cub": 7, "beat": 598, "back": 599}
    yield 5, {**one, "deaths": [late]}, "its back would have to be 600 at least, and the last beat of the run is 599"
    yield 5, {**one, "deaths": [{"cub": 7, "beat": 1, "after": 1, "back": 3, "until": 2}]}, 'it has the key "until"'
    yield 5, {**one, "deaths": [{"cub": 7, "beat": 1}]}, 'deaths[0] is {"cub":7,"beat":1}'
    yield 5, {**one, "deaths": [{"cub": 7, "beat": 1}], "files": [{"name": "gone", "disk": 0}]}, "or use run"
    yield 5, {**one, "read_faults": [{"disk": 0, "from": 9, "until": 9}]}, "must be below its until, 9"
    yield 5, {**one, "files": [{"name": "nothing", "disk": 0}]}, 'files[0] names it "nothing"'
    tiny = {**one, "plan": {**small_plan(), "block": 1, "pieces": 6}, "files": [{"name": "most", "disk": 0}]}
    yield 5, tiny, "have 117440512 parts, and may have at most 4000000."
    yield 5, tiny, "a block for each byte, and pieces is 6: 7 parts each"
    yield 3, {**one, "files": [{"name": "gone\x1b", "disk": 0}]}, 'files[0] names it "gone\\u001b"'
    yield 4, {**one, "files": [{"name": "folder", "disk": 0}]}, 'files[0] names it "folder"'
    yield 8, {**one, "files": [{"name": "large", "disk": 0}]}, "at most 16777216 bytes, and has 16777217 or more"


def explained(tiger, folder):
    """Each refusal is explained with its key and numbers, a line alone is, and what is no refusal says so."""
    for status, scenario, words in broken():
        put(folder, "broken.json", scenario)
        said = tool("explain", ["--program", tiger, str(status), "broken.json"], folder)
        good = said.status == 0 and words in said.out.decode() and b"\x1b" not in said.out
        yield f"the words '{words}'", "" if good else f"status {said.status}, '{said.out.decode()}'"
    said = tool("explain", ["7"], folder)
    yield "the words for no memory", "" if b"run fewer beats, viewers or cubs" in said.out else said.out.decode()
    for words, status, start in ((["tiger: words"], 0, b"Status 2: "), (["7"], 0, b"Status 7: "),
                                 (["9"], 0, b"Status 9: "), (["15"], 1, b""),
                                 (["11"], 0, b"Status 11: "), (["tiger: device"], 0, b"Status 11: "),
                                 (["tiger: damaged disk 3 at 17"], 0, b"Status 12: "),
                                 (["12", "one.json"], 0, b"Status 12: "), (["14", "one.json"], 0, b"Status 14: "),
                                 (["tiger: image exists"], 0, b"Status 14: "), (["tiger: damaged disk 3"], 1, b""),
                                 (["tiger: scenario rule 15 item 0 left 9 right 8"], 0, b"Rule 15: "),
                                 (["tiger: scenario rule 14 item 0 left 0 right 0"], 0, b"Rule 14: "),
                                 (["tiger: scenario rule 16 item 0 left 0 right 0"], 1, b""), (["x"], 1, b""),
                                 (["5", "one.json"], 1, b""),
                                 (["tiger: scenario rule 4 item 1 left 9 right 9", "/"], 1, b""),
                                 (["tiger: scenario rule 9 item 3999 left 0 right 0", "one.json"], 0, b"Rule 9: ")):
        said = tool("explain", ["--program", tiger, *words], folder)
        good = said.status == status and said.out.startswith(start) and bool(said.out) == (status == 0)
        yield f"the words {words}", "" if good else f"status {said.status}, '{said.out.decode()}'"


def in_terminal(copy, *words):
    """How the launcher of a copy ends, and what it writes on standard error if that is a terminal."""
    ours, theirs = pty.openpty()
    with os.fdopen(ours, "rb", 0) as screen:
        ran = program.run([os.path.join(copy.top, "tiger"), *words], os.getcwd(), stderr=theirs,
                          env={**os.environ, "PATH": copy.path})
        os.write(theirs, b"end\n")
        err = b""
        while not err.endswith(b"end\r\n"):
            err += screen.read(4096)
        os.close(theirs)
    return program.Ended(ran.status, ran.out, err.replace(b"\r\n", b"\n")[:-len("end\n")])


def offers(folder):
    """The launcher offers tools/explain if the program refuses and standard error is a terminal, and else does not."""
    copy = launcher_checks.Copy(folder).build()
    offer = b"tiger: in plain words: '%s/tools/explain' 5 " % os.fsencode(copy.top)
    for name, shown in (("a/one.json", b"a/one.json\n"), ("a b.json", b"'a b.json'\n"), ("\x1b]0;", b"SCENARIO\n")):
        wanted = program.Ended(5, b"<run><%s><1>" % name.encode(), offer + shown)
        yield f"the offer for {name!r}", in_terminal(copy, "run", name, "1").differs(wanted)
    wanted = program.Ended(5, b"<run><one.json><1>", b"")
    yield "no offer without a terminal", copy.run("run", "one.json", "1").differs(wanted)
    wanted = program.Ended(13, b"<net><net.json>", offer.replace(b" 5 ", b" 13 ") + b"net.json\n")
    yield "the offer for a plan", in_terminal(copy, "net", "net.json").differs(wanted)
    wanted = program.Ended(14, b"<disks><one.json><image>", offer.replace(b" 5 ", b" 14\n"))
    yield "the offer for an image", in_terminal(copy, "disks", "one.json", "image").differs(wanted)


# Drawn scenarios.

def as_reference(tiger, folder):
    """The path of a program that is the given one behind the two words that the reference takes first."""
    path = os.path.join(folder, "as-reference")
    with open(path, "w", encoding="utf-8") as file:
        file.write(f'#!/bin/sh\nshift 2\nexec {shlex.quote(tiger)} "$@"\n')
    os.chmod(path, 0o755)
    return path


def draws(tiger, folder):
    """A few scenarios are drawn and compared, with the program in the reference's place."""
    words = ["--program", tiger, "--reference", as_reference(tiger, folder), "--jobs", "1", "7", "3"]
    drawn = tool("draw", words, folder)
    good = drawn.status == 0 and drawn.out.endswith(b"draw: 3 agreed, 0 differed\n")
    yield "three drawn scenarios", "" if good else f"status {drawn.status}, '{drawn.out.decode()}'"
    drawn = tool("draw", [*words, "--minutes", "0.002"], folder)
    wanted = rb"draw: .*\d of 3 of seed \d+; .* \d+ 3 --minutes 0.002\n"
    is_empty = drawn.out.endswith(b"draw: 0 agreed, 0 differed\n")
    good = drawn.status == int(is_empty) and re.search(wanted, drawn.out)
    yield "a moment of drawing", "" if good else f"status {drawn.status}, '{drawn.out.decode()}'"


def wrong_of_one(tiger, folder, name, other):
    """The path of a program that is the given one, but takes another scenario in the place of one."""
    path = os.path.join(folder, f"wrong-of-{name}")
    with open(path, "w", encoding="utf-8") as file:
        file.write(f'#!/bin/sh\n[ "$2" = {name} ] && set -- "$1" {other} "$3"\nexec {shlex.quote(tiger)} "$@"\n')
    os.chmod(path, 0o755)
    return path


def cuts(tiger, folder):
    """Deaths in the middle of two beats are tried, with the program in the reference's place; and a program that is
    wrong of one death is found."""
    same, wrong = as_reference(tiger, folder), wrong_of_one(tiger, folder, "0-1-3.json", "0-1-2.json")
    for command in ([], ["--journal"]):
        words = ["--reference", same, "--beats", "2", "--jobs", "1", *command]
        tried = tool("cuts", ["--program", tiger, *words], folder)
        yield f"cuts {command}", tried.differs(program.Ended(0, b"cuts: 18 passed, 0 failed\n", b""))
    tried = tool("cuts", ["--program", wrong, *words], folder)
    wanted = rb"cuts: beat 1, after 3: line [^\n]+\ncuts: 17 passed, 1 failed\n"
    good = tried.status == 1 and re.fullmatch(wanted, tried.out)
    yield "cuts that are wrong of one death", "" if good else f"status {tried.status}, '{tried.out.decode()}'"


def returns(tiger, folder):
    """Returns from deaths in two beats are tried in the same way."""
    same, wrong = as_reference(tiger, folder), wrong_of_one(tiger, folder, "3-10-13.json", "3-10-12.json")
    for command in ([], ["--journal"]):
        words = ["--reference", same, "--beats", "2", "--jobs", "1", *command]
        tried = tool("returns", ["--program", tiger, *words], folder)
        yield f"returns {command}", tried.differs(program.Ended(0, b"returns: 22 passed, 0 failed\n", b""))
    tried = tool("returns", ["--program", wrong, *words], folder)
    wanted = rb"returns: beat 10, back in beat 13: line [^\n]+\nreturns: 21 passed, 1 failed\n"
    good = tried.status == 1 and re.fullmatch(wanted, tried.out)
    yield "returns that are wrong of one death", "" if good else f"status {tried.status}, '{tried.out.decode()}'"


def that_says(tiger, folder, change):
    """The path of a program that is the given one, but for what a word of `sed` changes on its standard error."""
    path = os.path.join(folder, "says-otherwise")
    with open(path, "w", encoding="utf-8") as file:
        file.write(f"#!/bin/sh\nexec 3>&1\n{{ {shlex.quote(tiger)} \"$@\" 2>&1 >&3; echo $? >status; }} | "
                   f"sed '{change}' >&2\nexit $(cat status)\n")
    os.chmod(path, 0o755)
    return path


def changed_runs(tiger, folder):
    """A few changes of kept runs are answered as the definitions say, though too few for a pass; and a program that is wrong of
    one clause, or of a place, is found."""
    words = ["1", "2", "--drawn", "0"]
    tried = tool("audit-mutations", ["--program", tiger, *words], folder)
    seldom = rb"(?:audit-mutations: clause \d+ was the first false one fewer than 20 times\n)+"
    good = tried.status == 1 and re.fullmatch(rb"[^\n]+\n" + seldom + rb"audit-mutations: \d+ passed, 0 failed\n", tried.out)
    yield "a few changed runs", "" if good else f"status {tried.status}, '{tried.out.decode()}'"
    for what, change, told_as in (
            ("a clause", "s/clause 8/clause 9/", rb"clause 9 for clause 8"),
            ("a place", r"s/^\(tiger: at .*line [0-9]*\)/\10/", rb"clause \d+ at '[^']*' for '.*'")):
        tried = tool("audit-mutations", ["--program", that_says(tiger, folder, change), *words], folder)
        told = re.findall(rb"audit-mutations: .*: " + told_as + rb"; kept as (.*)\n", tried.out)
        kept = all(content(path.decode()).endswith(b"\nend\n") for path in told)
        good = tried.status == 1 and told and kept and tried.out.endswith(b" passed, %d failed\n" % len(told))
        yield f"a program that is wrong of {what}", "" if good else f"status {tried.status}, '{tried.out.decode()}'"


def all_of_them(tiger, folder):
    """Each check's name, and what it found; nothing if all is well. The folder has the examples and their files."""
    yield from changed_runs(tiger, folder)
    yield from kept_pictures()
    yield from drawn_pictures(tiger, folder)
    yield from told_pictures(folder)
    yield from no_pictures(tiger, folder)
    yield from same_tables()
    yield from explained(tiger, folder)
    yield from offers(folder)
    yield from draws(tiger, folder)
    yield from cuts(tiger, folder)
    yield from returns(tiger, folder)
