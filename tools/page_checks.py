"""Checks of tools/page for tools/check-program: what a page has and whence, how the tool ends, and the page in a
browser if Chromium is there."""
import base64
import hashlib
import html.parser
import json
import os
import re
import signal
import subprocess
import sys
import time

import browser
import ending
import pages
import program
import ring
import rows
import timeline
import tool_checks
from drawing import printable
from report_checks import failed, kept
from reports import run_of
from sweep_checks import stand_in

SIX = "six-viewers.json"
PAGE = os.path.join(program.TOP, "tools", "page")
SECONDS = 120  # in which all that is tried in a browser must be over
NAMESPACE = "http://www.w3.org/2000/svg"  # the one address that a page may have, which is a name and is never opened
KINDS = {"w": "whole", "p": "pieces", "d": "dead", "r": "read", "x": "piece"}
WORD = re.compile(r"(?:\+(\d+))?([wpdrx])([-\d,]*)(?::(\d+))?(?:\*(\d+))?")
STAND_INS = ("kill -SEGV $$", "exit 0", "exit 1", "sleep 600 & wait",
             "echo total starts 1 placed 1 whole 0 pieces 0 missing 0")


class Reader(html.parser.HTMLParser):
    """What stands in a page: its tags with their words, and the texts of scripts and styles."""

    def __init__(self, text):
        super().__init__()
        self.tags, self.texts = [], []
        self.feed(text)

    def handle_starttag(self, tag, attrs):
        """Takes a tag."""
        self.tags.append((tag, dict(attrs)))

    def handle_data(self, data):
        """Takes a text."""
        if self.tags and self.tags[-1][0] in ("script", "style"):
            self.texts.append((self.tags[-1], data))
            self.tags.append(("text", {}))

    def text(self, tag, **words):
        """The text of the first script or style of this kind; none if there is none."""
        return next((data for (name, has), data in self.texts if name == tag and has == words), "")


def page(words, folder):
    """How tools/page ends on these words in a folder."""
    return program.run([sys.executable, PAGE, *words], folder)


def data_of(text):
    """The data of a page; none if they cannot be read."""
    try:
        return json.loads(Reader(text).text("script", type="application/json", id="data"))
    except ValueError:
        return {"viewers": None}


# What a page has.

def leads_outside(text):
    """What in a page leads to somewhere else; nothing if it is one file."""
    reader = Reader(text)
    words = [(tag, key, value or "") for tag, has in reader.tags for key, value in has.items()]
    found = [f"{tag} {key}={value}" for tag, key, value in words
             if key in ("src", "srcset", "action", "data", "xlink:href", "formaction")
             or key == "href" and value not in ("data:,",) and not value.startswith("#") or key.startswith("on")]
    found += [tag for tag, _ in reader.tags if tag in ("img", "iframe", "object", "embed", "base", "form", "image")]
    rest = text.replace(NAMESPACE, "")
    found += re.findall(r"https?:|//[^\s]*|@import|url\((?!#)[^)]*", rest)
    return ", ".join(found[:3])


def is_guarded(text):
    """Whether a page forbids all but its own script and style, by their checksums."""
    reader = Reader(text)
    policies = [has["content"] for tag, has in reader.tags if has.get("http-equiv") == "Content-Security-Policy"]
    sums = {tag: base64.b64encode(hashlib.sha256(reader.text(tag).encode()).digest()).decode()
            for tag in ("script", "style")}
    return policies == [f"default-src 'none'; img-src data:; style-src 'sha256-{sums['style']}'; "
                        f"script-src 'sha256-{sums['script']}'"]


def rows_of(data):
    """The rows of blocks that a page's data tell, in the form of tools/report."""
    for number, fields in enumerate(data["viewers"]):
        viewer = dict(zip(data["fields"], fields))
        for at, kind, late, length in numbered(viewer["blocks"]):
            yield block_row(data, number, viewer, at, KINDS[kind], late, length)


def numbered(words):
    """The blocks that some words tell of, with their numbers."""
    at = 0
    for gap, kind, late, length, count in (WORD.fullmatch(word).groups() for word in words.split()):
        first, at = at + int(gap or 0), at + int(gap or 0) + int(count or 1)
        yield from ((number, kind, late, length) for number in range(first, at))


def block_row(data, number, viewer, at, kind, late, length):
    """The row of one block."""
    visit = viewer["first"] + at
    due = data["zero"][viewer["slot"]] + visit * data["play"]
    lates = [int(it) for it in late.split(",") if it]
    times = [due + turn * data["play"] // len(lates) for turn in range(len(lates))]
    sent = [-(-leaves // data["beat"]) + it for leaves, it in zip(times, lates)]
    is_missing = kind in ("dead", "read", "piece")
    return (number, viewer["file"], at, viewer["slot"], visit, visit % data["cubs"], due,
            "missing" if is_missing else kind, None if is_missing else int(length or data["block"]),
            None if is_missing else sent, kind if is_missing else None)


def are_same(data, run):
    """Whether a page's data tell of the same viewers, totals, deaths and read faults as a run."""
    viewers = [tuple(fields[:5]) for fields in data["viewers"]]
    return (viewers == [(it.file, it.asked, it.slot, it.first, it.stop) for it in run.viewers]
            and data["totals"] == run.totals
            and {cub: beat for cub, beat, *_ in data["deaths"]} == run.scenario.deaths
            and {cub: after for cub, _, after, _ in data["deaths"] if after is not None} == run.scenario.cuts
            and {cub: back for cub, *_, back in data["deaths"] if back is not None} == run.scenario.returns
            and [tuple(it) for it in data["faults"]] == sorted(run.scenario.faults))


def kept_pages():
    """The page of each example is one file, and has the blocks and the viewers of the report, and the timeline."""
    for name, run in kept():
        text = pages.page(run, name + ".json")
        data, outside = data_of(text), leads_outside(text)
        yield f"the page of {name}", outside or ("" if is_guarded(text) else "it has no guard, or another one")
        same = data["viewers"] is not None and list(rows_of(data)) == list(rows.block_rows(run))
        yield f"the blocks on the page of {name}", "" if same else "they are not those of the report"
        same = same and are_same(data, run)
        yield f"the viewers on the page of {name}", "" if same else "they are not those of the report"
        svg = timeline.timeline(run, name + ".json")
        below = re.findall(r">[^<>]+</(?:text|title)>", svg)[3:]  # the words below the title
        same = all(words in text for words in below)
        yield f"the timeline on the page of {name}", "" if same else "it is not that of tools/picture"


def made_pages(tiger, folder):
    """A page by the program is that of the report, a hostile name changes no tag, and a run without viewers has a
    page."""
    made = page([SIX, "--program", tiger, "--out", "six.html"], folder)
    text = tool_checks.content(os.path.join(folder, "six.html"))
    same = text == pages.page(dict(kept())["six-viewers"], SIX).encode()
    good = made.status == 0 and made.out + made.err == b"" and same
    yield "the page of a run", "" if good else f"status {made.status}, '{program.first_line(made.err)}'"
    made = page([SIX, "--report", "six-viewers.stdout"], folder)
    yield "the page of a kept report", made.differs(program.Ended(0, text, b""))
    tool_checks.put(folder, "none.json", tool_checks.no_one())
    made = page(["none.json", "--program", tiger], folder)
    yield "the page of no viewer", "" if made.status == 0 and data_of(made.out.decode())["viewers"] == [] else "another"
    tags = []
    for name in ("plain", tool_checks.HOSTILE, "</script><b>"):
        os.makedirs(os.path.join(folder, os.path.dirname(name)), exist_ok=True)
        with open(os.path.join(folder, name), "wb") as file:
            file.write(b"some bytes")
        tool_checks.put(folder, "named.json", {**tool_checks.hostile(), "files": [{"name": name, "disk": 0}]})
        text = page(["named.json", "--program", tiger], folder).out.decode()
        tags.append([tag for tag, _ in Reader(text).tags])
        same = data_of(text).get("files") == [printable(name)]
        yield f"the page of the file {name[:9]!r}", "" if same and leads_outside(text) == "" else "it has another name"
    yield "the tags of these pages", "" if tags[0] == tags[1] == tags[2] else "a name changes them"


# How the tool ends.

def failures(tiger, folder):
    """Wrong words are one line and status 64; a program that is missing, crashes, hangs or says something else, and
    what cannot be written, are one line and a failure; a refusal is handed on. No page is left."""
    rest = ["one.json", "--out", "no.html", "--wait"]
    wrong = [], rest[1:3], ["one.json", "two.json"], [*rest, "0"], rest, ["one.json", "--ring"]
    tried = [(program.WRONG_WORD, words) for words in wrong]
    tried += [(1, [*rest, "99", "--program", path]) for path in ("/nowhere", "ten")]
    tried += [(1, [*rest, "2" if "sleep" in text else "99", "--program", stand_in(folder, text[:9], text)])
              for text in STAND_INS]
    tried += [(1, ["one.json", "--report", "full-house.stdout", "--out", "no.html"]),
              (1, ["absent.json", "--report", "one.stdout", "--out", "no.html"]),
              (1, ["one.json", "--report", "one.stdout", "--out", "absent/no.html"])]
    ended = program.in_turn(lambda one: page(one[1], folder), tried, os.cpu_count())
    for (status, words), made in zip(tried, ended):
        yield f"page {' '.join(words)}", failed(made, status)
    yield "a page that is left by these", "it is there" if os.path.exists(os.path.join(folder, "no.html")) else ""
    tool_checks.put(folder, "no-beats.json", {**tool_checks.no_one(), "beats": 0})
    made = page(["no-beats.json", "--program", tiger], folder)
    yield "the page of a refused scenario", made.differs(program.refused(5, "scenario rule 5 item 0 left 0 right 0"))


def interrupted(folder):
    """SIGINT ends the tool quietly, and the program that it runs."""
    begun = os.path.join(folder, "page-begun")
    path = stand_in(folder, "runs-for-a-page", f"echo $$ >'{begun}'\nexec sleep 600")
    ran = subprocess.Popen([sys.executable, PAGE, "one.json", "--program", path, "--out", "no.html"], cwd=folder,
                           stdout=subprocess.PIPE, stderr=subprocess.PIPE,
                           preexec_fn=lambda: signal.signal(signal.SIGINT, signal.SIG_DFL))
    limit = time.monotonic() + program.WAIT
    while not tool_checks.content(begun).endswith(b"\n") and time.monotonic() < limit:
        time.sleep(0.02)
    ran.send_signal(signal.SIGINT)
    got = program.ended(ran, program.WAIT)
    process = tool_checks.content(begun).decode().strip()
    good = got.status == -signal.SIGINT and got.out + got.err == b"" and not os.path.exists(f"/proc/{process}")
    yield "a page that is interrupted", "" if good else f"status {got.status}, '{got.err.decode()}'"


# The page in a browser.

TABLE = ("[...document.querySelectorAll('#rows tr')].map((row) => "
         "[...row.children].map((cell) => cell.innerText.trim()))")
VIEWER_2 = (  # the list of viewer 2 of six-viewers, as its README and its picture tell it
    ["3.00 s", "0", "whole, left cub 2 at 3.00 s"],
    ["4.00 s", "1", "Dmissing: its cub was dead (cub 3 is dead from 3.20 s on)"],
    ["7.00 s", "4", "Rmissing: its read failed (disk 6 cannot be read from 6.60 s to 7.20 s)"],
    ["12.00 s", "9", "in 2 pieces, left cub 4 at 12.00 s, cub 5 at 12.50 s"],
)

SAYS = {  # what the ring of that run has at two times
    5550000: ("viewer 3: piece 1 of block 3 left cub 4 at 5.00 s", "viewer 3: piece 2 of block 3 left cub 5 at 5.50 s"),
    7050000: ("viewer 2: block 4 is missing, its read failed", "disk 6 of cub 6 cannot be read", "cub 3 is dead",
              "viewer 3: block 5 left cub 5 at 7.00 s", "viewer 3 in slot 4 plays long"),
}
CUB_3 = ((1, 2), (0, 3), (2, 1), (3, 3), (5, 1), (2, 9))  # the viewers and blocks that are due from that cub


def place_of(shown, words):
    """Where an element is in the window: its left and upper side, its width and its height."""
    shown.value(f"({words}).scrollIntoView({{block: 'center'}})")
    return shown.value(f"(() => {{const it = ({words}).getBoundingClientRect(); "
                       "return [it.left, it.top, it.width, it.height];})()")


def seen(shown):
    """What is on the ring now, as the bytes of its picture."""
    return shown.value("document.getElementById('ring').toDataURL()")


def heading(shown):
    """The heading of the list."""
    return shown.value("document.getElementById('heading').textContent")


def told(shown):
    """The time that the page says."""
    return shown.value("document.getElementById('now').textContent")


def moves(shown):
    """The slider and the keys move the ring and the cursor."""
    before = [seen(shown), shown.value("document.getElementById('cursor').style.left")]
    left, top, wide, high = place_of(shown, "document.getElementById('time')")
    shown.click(left + 0.8 * wide, top + high / 2)
    after = [seen(shown), shown.value("document.getElementById('cursor').style.left")]
    yield "the slider", "" if all(one != other for one, other in zip(before, after)) else "the ring or the cursor stays"
    for key, wanted in (("Home", "0.00 s"), ("PageDown", "1.00 s"), ("ArrowRight", "1.10 s"), ("ArrowLeft", "1.00 s"),
                        ("End", "14.00 s"), ("PageUp", "13.00 s")):
        before = seen(shown)
        shown.press(key)
        good = told(shown) == wanted and seen(shown) != before
        yield f"the key {key}", "" if good else f"the time is {told(shown)}, or the ring stays"


def plays(shown):
    """The play button and the space bar have the time go on and stop."""
    button = "document.getElementById('play')"
    shown.value("page.time.focus()")
    shown.press("Home")
    shown.press(" ")
    words = shown.value(f"{button}.textContent")
    shown.press(" ")
    yield "the space bar", "" if words == "Pause" and not shown.value("page.isPlaying") else f"the button says {words}"
    shown.press("Home")
    left, top, wide, high = place_of(shown, button)
    shown.click(left + wide / 2, top + high / 2)
    words = shown.value(f"{button}.textContent")
    limit = time.monotonic() + 10
    while shown.value("page.now") == 0 and time.monotonic() < limit:
        time.sleep(0.05)
    good = words == "Pause" and shown.value("page.now") > 0
    shown.click(left + wide / 2, top + high / 2)
    yield "the play button", "" if good and shown.value(f"{button}.textContent") == "Play" else "nothing moves"


def stands(shown, run):
    """At some times the page has the slots where tools/picture has them, and in them the same viewers."""
    spots = ("page.ring.spots.filter((spot) => spot.says.includes(' in slot ')).map((spot) => [spot.means.viewer, "
             "Math.atan2(spot.x - page.ring.middle, page.ring.middle - spot.y) / 2 / Math.PI])")
    for now in (0, 3200000, 7050000, 13990000):
        moment = ring.Moment(run, now)
        wanted = {it.number: moment.turns(it.slot) / run.scenario.cubs % 1 for it in moment.viewers}
        shown.value(f"page.go({now})")
        found = {viewer: turns % 1 for viewer, turns in shown.value(spots)}
        far = [it for it in wanted if it not in found or abs((found[it] - wanted[it] + 0.5) % 1 - 0.5) > 1e-6]
        same = not far and len(found) == len(wanted)
        yield f"the slots at {now} microseconds", "" if same else f"{found} for {wanted}"


def tells(shown):
    """What the ring has at some times has its words: blocks, pieces, a missing block, a dead cub and a disk."""
    for now, wanted in SAYS.items():
        shown.value(f"page.go({now})")
        said = shown.value("page.ring.spots.map((spot) => spot.says)")
        yield f"the words at {now} microseconds", ", ".join(words for words in wanted if words not in said)


def shows(shown):
    """A click on a viewer's bar, on a slot and on a cub lists their blocks."""
    bars, end = shown.value("page.run.timeline.bars"), shown.value("page.run.end")
    left, top, wide, _ = place_of(shown, "document.querySelector('#timeline > svg')")
    share = wide / shown.value("page.run.timeline.wide")
    x = shown.value(f"page.placeOf({end} / 2)")
    shown.click(left + x * share, top + (bars[2][0] + bars[2][1] / 2) * share)
    listed = shown.value(TABLE)
    good = heading(shown) == "Viewer 2" and all(row in listed for row in VIEWER_2)
    yield "a click on a bar", "" if good else str(listed)
    left, top, wide, high = place_of(shown, "document.getElementById('ring')")
    spot = "page.ring.spots.find((spot) => spot.means.viewer === 5 && spot.says.includes('slot'))"
    shown.click(left + shown.value(f"{spot}.x"), top + shown.value(f"{spot}.y"))
    yield "a click on a slot", "" if heading(shown) == "Viewer 5" and len(shown.value(TABLE)) == 6 else heading(shown)
    angle = "2 * Math.PI * 3 / 8"
    shown.click(left + wide / 2 + shown.value(f"page.ring.radius * Math.sin({angle})"),
                top + high / 2 - shown.value(f"page.ring.radius * Math.cos({angle})"))
    listed = [row[1] for row in shown.value(TABLE)]
    good = heading(shown) == "Cub 3" and listed == [f"viewer {viewer}, block {block}" for viewer, block in CUB_3]
    yield "a click on a cub", "" if good else f"{heading(shown)}: {listed}"


def reaches(shown):
    """The cursor is as high as the rows, those at the foot among them, and a click on a cub's band shows the cub."""
    side = "document.{}.getBoundingClientRect().{}".format
    cursor = [shown.value(side("getElementById('cursor')", it)) for it in ("top", "bottom")]
    wanted = [shown.value(side("querySelector('#timeline > svg > g')", "top")),
              shown.value(side("getElementById('bytes')", "bottom"))]
    good = cursor[0] <= wanted[0] and abs(cursor[1] - wanted[1]) <= 4
    yield "the cursor over the rows at the foot", "" if good else f"it is from {cursor[0]} to {cursor[1]} for {wanted}"
    left, top, _, high = place_of(shown, "document.getElementById('bytes')")
    shown.press("Escape")
    shown.click(left + 200, top + high * 5.5 / 8)
    yield "a click on a cub's bytes", "" if heading(shown) == "Cub 5" else heading(shown)
    before = heading(shown), told(shown)
    _, top, _, high = place_of(shown, "document.getElementById('waits')")
    svg = "querySelector('#timeline > svg')"
    share = shown.value(side(svg, "width")) / shown.value("page.run.timeline.wide")
    shown.click(shown.value(side(svg, "left")) + shown.value("page.placeOf(7005000)") * share, top + high / 2)
    after = heading(shown), told(shown)
    good = after[0] == before[0] and after[1] == "7.00 s" != before[1]
    yield "a click on the waits", "" if good else f"{before} becomes {after}"


def guides(shown):
    """A key shows what goes wrong, a button goes to the next missing block, and each control has a name."""
    shown.press("Escape")
    shown.value("page.go(0)")
    shown.value("document.getElementById('behind').click()")
    good = told(shown) == "3.50 s" and heading(shown) == "What goes wrong"
    yield "the next missing block", "" if good else f"the time is {told(shown)}"
    nameless = shown.value("[...document.querySelectorAll('button, select, input, canvas')].filter((it) => "
                           "!(it.innerText || it.ariaLabel || it.labels?.length)).map((it) => it.outerHTML)")
    yield "the names of the controls", ", ".join(nameless)


def excuses(shown, folder):
    """On the page of a case with missing pieces each missing block has an excuse, and one of them its own."""
    case = os.path.join(program.CASES, "runs", "generated-12")
    run = run_of(tool_checks.content(case), tool_checks.content(case + ".stdout"))
    ending.put(os.path.join(folder, "case.html"), pages.page(run, "generated-12"))
    shown.open(os.path.join(folder, "case.html"))
    found = shown.value("page.missing.map((part) => [part.viewer.number, part.kind, page.run.excuse(part.block)])")
    good = all(excuse for _, _, excuse in found) and len(found) == run.totals["missing"]
    good = good and [10, "x", "disk 6 cannot be read from 0.488 s to 0.722 s"] in found
    yield "the excuses", "" if good else str(found)


def cuts(shown, folder):
    """On the page of the example with a death in the middle of a beat the two lists that tell of the death say so."""
    ending.put(os.path.join(folder, "cut.html"), pages.page(dict(kept())["cut"], "cut.json"))
    shown.open(os.path.join(folder, "cut.html"))
    listed = shown.value("page.list.list.rows.map((row) => [row.time, row.which, row.what])")
    good = [200000, "cub 2", "it dies in the middle of a beat, after 1 message"] in listed
    yield "the list with a cut", "" if good else str(listed)
    shown.value("page.choose({viewer: null, cub: 2})")
    about = shown.value("page.list.list.about")
    yield "the words for a cut", "" if "It dies at 0.20 s in the middle of a beat, after 1 message." in about else about


def returns(shown, folder):
    """On the page of the example with a return the cub is dead until then, and the two lists say so."""
    ending.put(os.path.join(folder, "back.html"), pages.page(dict(kept())["back"], "back.json"))
    shown.open(os.path.join(folder, "back.html"))
    dead = shown.value("[1999999, 2000000, 2999999, 3000000].map((time) => page.run.isDead(3, time))")
    yield "when a cub that returns is dead", "" if dead == [False, True, True, False] else str(dead)
    listed = shown.value("page.list.list.rows.map((row) => [row.time, row.which, row.what])")
    good = [2000000, "cub 3", "it dies"] in listed and [3000000, "cub 3", "it comes back"] in listed
    yield "the list with a return", "" if good else str(listed)
    shown.value("page.choose({viewer: null, cub: 3})")
    about = shown.value("page.list.list.about")
    yield "the words for a return", "" if "It is dead from 2.00 s to 3.00 s." in about else about


def in_a_browser(folder):
    """The page of an example in Chromium: it complains of nothing, moves, and shows the blocks of what is clicked."""
    if browser.path() is None:
        print("check-program: there is no chromium here, so that no page is tried in it", file=sys.stderr)
        return
    found = []
    try:
        with browser.opened(SECONDS) as shown:
            shown.begin(1200, 900)
            shown.open(os.path.join(folder, "six.html"))
            for tried in (moves(shown), plays(shown), stands(shown, dict(kept())["six-viewers"]), tells(shown),
                          shows(shown), reaches(shown), guides(shown), excuses(shown, folder),
                          cuts(shown, folder), returns(shown, folder)):
                found.extend(tried)
            found.append(("what the browser complains of", "; ".join(shown.complaints)))
    except (browser.Fault, OSError, ValueError) as why:
        found.append(("the page in a browser", str(why)))
    yield from found


def all_of_them(tiger, folder):
    """Each check's name, and what it found; nothing if all is well. The folder has the examples and their files."""
    yield from kept_pages()
    yield from made_pages(tiger, folder)
    yield from failures(tiger, folder)
    yield from interrupted(folder)
    yield from in_a_browser(folder)
