"""Checks of tools/sweep for tools/check-program: its rows, with stand-ins for the program too, its plots, the commands
that it prints, and the examples of docs/sweeps.md."""
import concurrent.futures
import csv
import os
import re
import signal
import subprocess
import sys
import time
import xml.etree.ElementTree

import points
import program

SWEEP = os.path.join(program.TOP, "tools", "sweep")
SCENARIO = os.path.join(program.TOP, "tools", "scenario")
DOCUMENT = os.path.join(program.TOP, "docs", "sweeps.md")
COLUMNS = ("status,refusal,starts,placed,whole,pieces,missing,missing_dead,missing_read,missing_piece,waits,"
           "wait_median,wait_worst\n")
NOTHING = "," * 11  # a row's end if there is no report
SIX = {  # rows of six-viewers, from its kept report and its README, written by hand: deadman and what the row says
    400000: "5,tiger: scenario rule 4 item 11 left 524000 right 400000" + NOTHING,
    1000000: "0,,6,6,32,3,3,2,1,0,6,70,240",
}
REFUSAL = 'echo "tiger: scenario rule 5 item 0 left 0 right 0" >&2; exit 5'
STAND_INS = {  # what runs in the program's place, and the end of each row
    "crashes": ("kill -SEGV $$", "signal 11,"), "fails": ("exit 1", "1,"), "says nothing": ("exit 0", "no report,"),
    "prints something else": ("echo total starts 6 placed 6 whole 0 pieces 0 missing 0", "no report,"),
    "hangs": ("sleep 600 & wait", "hung,"), "refuses without a line": ("exit 5", "5,"),
    "refuses with another line": ("echo no >&2; exit 5", "5,"),
}


def sweep(words, folder):
    """How tools/sweep ends on these words in a folder."""
    return program.run([sys.executable, SWEEP, *words], folder)


def sweeps(lines, folder):
    """How tools/sweep ends on each of some lines of words; several go at a time."""
    with concurrent.futures.ThreadPoolExecutor(os.cpu_count()) as pool:
        return list(pool.map(lambda words: sweep(words, folder), lines))


def stand_in(folder, name, text):
    """A script in a folder that stands for the program; its path."""
    path = os.path.join(folder, name.replace(" ", "-"))
    with open(path, "w", encoding="utf-8") as file:
        file.write(f"#!/bin/sh\n{text}\n")
    os.chmod(path, 0o755)
    return path


def is_plot(path):
    """Whether there is an SVG, in which nothing lies outside its frame."""
    try:
        root = xml.etree.ElementTree.parse(path).getroot()
    except (OSError, xml.etree.ElementTree.ParseError):
        return False
    wide, tall = (float(root.get(side)) for side in ("width", "height"))
    places = [(float(it.get("x")), float(it.get("y"))) for it in root.iter() if it.get("x")]
    return bool(places) and all(0 <= x <= wide and 0 <= y <= tall for x, y in places)


def by_hand(tiger, folder):
    """The rows of an example whose numbers are known, and its plot: a refused point is a gap."""
    words = [f"deadman={','.join(map(str, SIX))}", "six-viewers.json", "--program", tiger, "--svg", "six.svg"]
    made = sweep(words, folder)
    wanted = f"deadman,{COLUMNS}" + "".join(f"{deadman},{row}\n" for deadman, row in SIX.items())
    yield "the rows of six-viewers", made.differs(program.Ended(0, wanted.encode(), b""))
    svg = content(os.path.join(folder, "six.svg"))
    good = is_plot(os.path.join(folder, "six.svg")) and svg.count("<title>tiger: scenario rule 4 item 11") == 2
    yield "the plot of six-viewers", "" if good else "it is no plot, or the refused point is not in both panels"
    made = sweep(["deaths=0..2", "beats=900,1400", "six-viewers.json", "--svg", "two.svg", "--program", tiger], folder)
    keys = [line.split(",")[:3] for line in made.out.decode().splitlines()[1:]]
    good = keys == [[str(deaths), beats, "0"] for deaths in range(3) for beats in ("900", "1400")]
    svg = content(os.path.join(folder, "two.svg"))
    yield "two keys", "" if good and made.status == 0 and ">beats 900<" in svg and ">beats 1400<" in svg else str(keys)


def content(path):
    """The text of a file; none if it is not there."""
    try:
        with open(path, encoding="utf-8") as file:
            return file.read()
    except OSError:
        return ""


def stand_ins(folder):
    """What is neither a report nor a refusal is in its row, and a failure."""
    paths = [stand_in(folder, name, text) for name, (text, _) in STAND_INS.items()]
    lines = [["beats=1400", "six-viewers.json", "--program", path, "--wait", "2" if path.endswith("hangs") else "99"]
             for path in paths]
    for (name, (_, row)), made in zip(STAND_INS.items(), sweeps(lines, folder)):
        rows = made.out.decode().splitlines()[1:]
        good = made.status == 1 and len(rows) == 1 and rows[0].startswith(f"1400,{row}") and rows[0].endswith(NOTHING)
        good = good and re.fullmatch(rb"sweep: 1 of 1 point [^\n]+\n", made.err)
        yield f"a program that {name}", "" if good else f"status {made.status}, {made.out.decode()}{made.err.decode()}"
    path = stand_in(folder, "refuses", REFUSAL)
    made = sweep(["beats=0..2", "six-viewers.json", "--program", path], folder)
    good = made.status == 1 and made.err.startswith(b"sweep: no point was run: ") and made.out.count(b"\n") == 4
    yield "a program that refuses all points", "" if good else f"status {made.status}, {made.err.decode()}"


def failures(folder):
    """Wrong words, and what cannot be tried, get one line and no row."""
    rest = ["six-viewers.json", "--program", "/bin/true"]
    wanted = ((64, rest), (64, ["deadman=1"]), (64, ["deadman", *rest]), (64, ["deadman=1..2:0", *rest]),
              (64, ["deadmen=1", *rest]), (64, ["deadman=-1", *rest]), (64, ["deadman=1..99999", *rest]),
              (64, ["deadman=1", "deadman=2", *rest]), (64, ["fixed=1", "drawn=1", *rest]),
              (64, ["viewers=7", *rest]), (64, ["deaths=5", *rest]), (64, ["beats=1", *rest, "--jobs", "0"]),
              (64, ["beats=1", *rest, "--print"]), (64, ["beats=1", *rest, "--wait", "x"]),
              (1, ["beats=2..1", *rest]), (1, ["beats=1", "absent.json"]), (1, ["beats=1", "ten"]),
              (1, ["beats=1", rest[0], "--program", "/nowhere"]), (1, ["beats=1", rest[0], "--program", "ten"]))
    for (status, words), made in zip(wanted, sweeps([words for _, words in wanted], folder)):
        good = made.status == status and made.out == b"" and re.fullmatch(rb"sweep: [^\n]+\n", made.err)
        yield f"the words {words}", "" if good else f"status {made.status}, {made.out.decode()}{made.err.decode()}"


def commands(tiger, folder):
    """The commands that are printed, run by a shell in another folder, print the rows of the sweep."""
    words = ["deadman=400000,600000,1000000", "viewers=3,6", "six-viewers.json", "--program", tiger]
    whole = sweep(words, folder)
    printed = sweep([*words, "--print", "--out", "some points"], folder)
    head = sweep([*words, "--only", "head"], folder).out
    lines = printed.out.decode().splitlines()
    found = [program.run(["/bin/sh", "-c", line], "/") for line in lines]
    good = whole.status == printed.status == 0 and len(lines) == 6 and all(it.status == 0 for it in found)
    same = head + b"".join(it.out for it in found) == whole.out
    yield "the commands of a sweep", "" if good and same else f"status {printed.status}, {printed.out.decode()}"


def interrupted(folder):
    """SIGINT ends a sweep quietly, with the rows that were found and the plot, and ends what it started."""
    path = stand_in(folder, "hangs-once", f'echo $$ >>"{folder}/started"\n'
                    f'grep -q \'"beats": 2,\' "$2" && exec sleep 600\n{REFUSAL}')
    ran = subprocess.Popen([sys.executable, SWEEP, "beats=1..4", "six-viewers.json", "--program", path, "--jobs", "2",
                            "--svg", "part.svg"], cwd=folder, stdout=subprocess.PIPE, stderr=subprocess.PIPE,
                           preexec_fn=lambda: signal.signal(signal.SIGINT, signal.SIG_DFL))
    limit = time.monotonic() + program.WAIT
    while len(content(os.path.join(folder, "started")).split()) < 4 and time.monotonic() < limit:
        time.sleep(0.1)
    time.sleep(1)
    ran.send_signal(signal.SIGINT)
    out, err = ran.communicate(timeout=program.WAIT)
    found = [row[0] for row in csv.reader(out.decode().splitlines()[1:])]
    good = ran.returncode == -signal.SIGINT and err == b"" and found[:1] == ["1"] and "2" not in found
    left = [pid for pid in content(os.path.join(folder, "started")).split() if os.path.exists(f"/proc/{pid}")]
    good = good and not left and is_plot(os.path.join(folder, "part.svg"))
    yield "a sweep that is interrupted", "" if good else f"status {ran.returncode}, rows {found}, {left} run, {err}"


def rules():
    """The starts that are kept, and the deaths that are placed."""
    events = [{"beat": at, "start": at} for at in range(5)] + [{"beat": 9, "stop": 2}, {"beat": 9, "stop": 3}]
    kept = points.with_starts(events, 3)  # those with the numbers 0, 1 and 3
    wanted = [events[0], events[1], events[3], {"beat": 9, "stop": 2}]
    yield "three of five starts", "" if kept == wanted else str(kept)
    yield "all starts", "" if points.with_starts(events, 5) == events else "others"
    ring = {"plan": {"cubs": 9}, "beats": 1000, "deaths": [{"cub": 3, "beat": 7}]}
    wanted = [{"cub": 3, "beat": 7}, {"cub": 0, "beat": 200}, {"cub": 6, "beat": 800}]
    for number in range(4):
        placed = points.with_deaths(ring, number)
        yield f"{number} deaths", "" if placed == wanted[:number] else str(placed)
    for word, wanted in (("beats=5", [5]), ("beats=1..3", [1, 2, 3]), ("beats=1..6:2,9", [1, 3, 5, 9]),
                         ("beats=2..1", [])):
        values = points.axis_of(word)[1]
        yield f"the values of {word}", "" if values == wanted else str(values)


def document(tiger, folder):
    """The commands of docs/sweeps.md make the pictures that stand there, and print the rows that it shows."""
    text = content(DOCUMENT)
    blocks = [block.splitlines() for block in re.findall(r"```text\n(.*?)```", text, re.S)]
    made = [block for block in blocks if block[0].startswith("tools/scenario")]
    shown = [block for block in blocks if "," in block[0] and block[0].endswith(COLUMNS.strip())]
    yield "the examples of docs/sweeps.md", "" if len(made) == len(shown) == 2 else "they are not found"
    tool = f"'{sys.executable}' '{SCENARIO}'"
    for (first, second), rows in zip(made, shown):
        scenario = program.run(["/bin/sh", "-c", first.replace("tools/scenario", tool)], folder)
        ended = sweep([*second.split()[1:], "--program", tiger], folder)
        name = second.split()[-1]
        same = content(os.path.join(folder, name)) == content(os.path.join(program.TOP, "docs", "sweeps", name)) != ""
        good = scenario.status == ended.status == 0 and same and set(rows) <= set(ended.out.decode().splitlines())
        yield f"the plot {name}", "" if good else f"status {ended.status}, or tools/sweep makes another, or other rows"


def all_of_them(tiger, folder):
    """Each check's name, and what it found; nothing if all is well. The folder has the examples and their files."""
    yield from by_hand(tiger, folder)
    yield from stand_ins(folder)
    yield from failures(folder)
    yield from commands(tiger, folder)
    yield from interrupted(folder)
    yield from rules()
    yield from document(tiger, folder)
