"""Makes the page of a run: one HTML file that has the run's data, the timeline of tools/picture, and the page's own
script and style, and that takes nothing from outside.

The data are those of the scenario and of its report, as JSON. A viewer is a row of FIELDS, and its blocks are words
with blanks between them, each of the form [+GAP]KIND[LATE,..][:BYTES][*COUNT]: the kind is a letter of LETTERS, GAP
says how many blocks are left out before it, LATE in how many beats behind the first one from its time on it left (a
number for each piece), BYTES how long it is if not as long as a full one, and COUNT how many such blocks stand side by
side.
"""
import base64
import hashlib
import itertools
import json
import os
import re

import foot
import timeline
from drawing import FAULT, FONT, GREY, HATCH, INK, PALE, PAPER, colour_of, escaped, printable
from ring import tenure

FOLDER = os.path.dirname(os.path.realpath(__file__))
SCRIPTS = ("page_run.js", "page_ring.js", "page_list.js", "page.js")
LETTERS = {"whole": "w", "pieces": "p", "dead": "d", "read": "r", "piece": "x"}
FIELDS = ("file", "asked", "slot", "first", "stop", "begin", "end", "open", "blocks")  # of a viewer; `begin` and `end`
#   are from when on and until when it surely has its slot, and from `open` on the report does not tell of its blocks
COLOURS = {"ink": INK, "grey": GREY, "pale": PALE, "paper": PAPER, "fault": FAULT, "hatch": HATCH, "font": FONT,
           "light": colour_of(0), **{f"missing-{reason}": red for reason, red in timeline.RED.items()}}
BLANK = re.compile(r"\{\{(\w+)\}\}")  # what stands in the template for a part of the page


def page(run, name):
    """The page of a run whose scenario has this name, as text."""
    picture, svg = timeline.without_head(run, name)
    style = f":root{{{''.join(f'--{key}:{value};' for key, value in COLOURS.items())}}}\n{text_of('page.css')}"
    script = '"use strict";\n(() => {\n' + "\n".join(map(text_of, SCRIPTS)) + "})();\n"
    parts = {"name": escaped(name), "words": escaped(run.scenario.words()), "totals": escaped(timeline.totals_of(run)),
             "style": style, "style_sum": sum_of(style), "script": script, "script_sum": sum_of(script),
             "data": json_of(data_of(run, name, picture)), "timeline": svg}
    return BLANK.sub(lambda blank: parts[blank[1]], text_of("page.html"))


def text_of(name):
    """The text of a file that the page is made from."""
    with open(os.path.join(FOLDER, name), encoding="utf-8") as file:
        return file.read()


def sum_of(text):
    """The checksum by which a browser sees that a script or a style is the page's own."""
    return "sha256-" + base64.b64encode(hashlib.sha256(text.encode()).digest()).decode()


def json_of(value):
    """A value as JSON that may stand in a page: in ASCII, and without a sign that begins a tag."""
    return json.dumps(value, separators=(",", ":")).replace("<", "\\u003c")


def data_of(run, name, picture):
    """What the page knows of a run, and where the rows of its timeline are."""
    scenario, plan = run.scenario, run.scenario.plan
    bars = [picture.bars.get(viewer.number) for viewer in run.viewers]
    scale, (top, tall) = picture.scale, picture.lanes
    return {
        "name": printable(name), "cubs": scenario.cubs, "disks": plan["disks"], "slots": plan["slots"],
        "play": scenario.play, "pieces": plan["pieces"], "block": plan["block"], "beat": scenario.beat,
        "beats": scenario.beats, "readLead": plan["read_lead"],
        "files": [printable(file) for file in scenario.files],
        "zero": [scenario.due(slot, 0) for slot in range(plan["slots"])],
        "deaths": [(cub, beat, scenario.cuts.get(cub), scenario.returns.get(cub))
                   for cub, beat in sorted(scenario.deaths.items())],
        "faults": sorted(scenario.faults), "totals": run.totals,
        "why": {LETTERS[reason]: words for reason, words in timeline.WORDS.items()},
        "fields": FIELDS, "viewers": [viewer_of(run, viewer) for viewer in run.viewers],
        "light": "".join(colour_of(viewer.number)[1:] for viewer in run.viewers),
        "strong": "".join(colour_of(viewer.number, 0.45)[1:] for viewer in run.viewers),
        "timeline": {"wide": timeline.WIDTH, "left": scale.left, "right": scale.right, "begin": picture.top,
                     "top": top, "tall": tall, "bars": [bar and [round(side, 1) for side in bar] for bar in bars],
                     "end": picture.bottom, "bands": picture.bands and [picture.bands, foot.BAND]},
    }


def viewer_of(run, viewer):
    """The fields of a viewer."""
    if viewer.slot is None:
        return [viewer.file, viewer.asked, None, None, viewer.stop, None, None, None, ""]
    return [viewer.file, viewer.asked, viewer.slot, viewer.first, viewer.stop, *tenure(run, viewer),
            run.open_from(viewer), blocks_of(run.scenario, viewer)]


def blocks_of(scenario, viewer):
    """The words of a viewer's blocks."""
    numbers = [-1, *(block.number for block in viewer.blocks)]
    words = [word_of(scenario, block, block.number - before - 1) for before, block in zip(numbers, viewer.blocks)]
    counted = ((word, len(list(same))) for word, same in itertools.groupby(words))
    return " ".join(f"{word}*{count}" if count > 1 else word for word, count in counted)


def word_of(scenario, block, gap):
    """The word of a block that has so many left out before it."""
    pieces = len(block.sent)
    leaves = [block.due + turn * scenario.play // max(1, pieces) for turn in range(pieces)]
    late = ",".join(str(beat + -leave // scenario.beat) for beat, leave in zip(block.sent, leaves))
    length = "" if block.length in (None, scenario.plan["block"]) else f":{block.length}"
    return (f"+{gap}" if gap else "") + LETTERS[block.kind] + late + length
