"""What a report tells as rows for other programs: one for each block, or one for each viewer, as JSON or as CSV.

The columns are those of docs/formats.md, which tools/check-program compares: the name, the type, the unit, and when it
has no value, which is null in JSON and nothing between two commas in CSV.
"""
import csv
import io
import itertools
import json

from reports import REASONS, Unfit

BLOCKS = (
    ("viewer", "integer", "", "never"),
    ("file", "integer", "", "never"),
    ("block", "integer", "", "never"),
    ("slot", "integer", "", "never"),
    ("visit", "integer", "", "never"),
    ("cub", "integer", "", "never"),
    ("due", "integer", "microseconds", "never"),
    ("how", "text", "", "never"),
    ("bytes", "integer", "bytes", "the block is missing"),
    ("sent", "list of integers", "beats", "the block is missing"),
    ("reason", "text", "", "the block is not missing"),
)
VIEWERS = (
    ("viewer", "integer", "", "never"),
    ("file", "integer", "", "never"),
    ("started", "integer", "beats", "never"),
    ("placed", "true or false", "", "never"),
    ("slot", "integer", "", "the viewer was not placed"),
    ("first", "integer", "", "the viewer was not placed"),
    ("wait", "integer", "beats", "the report tells of nothing that was sent to it"),
    ("stopped", "integer", "beats", "no stop of it was carried out"),
    ("whole", "integer", "blocks", "never"),
    ("pieces", "integer", "blocks", "never"),
    ("missing", "integer", "blocks", "never"),
    ("bytes", "integer", "bytes", "never"),
    ("sha256", "text", "", "never"),
)


def how_of(block):
    """How a block came: whole, in pieces, or not at all."""
    return "missing" if block.kind in REASONS else block.kind


def wait_of(viewer):
    """The beats from a viewer's start to the first beat in which something was sent to it; None if nothing was."""
    sent = [beat for block in viewer.blocks for beat in block.sent]
    return min(sent) - viewer.asked if sent else None


def median(ordered):
    """The median of some whole numbers in order, None if there is none: of an even number of them the mean of the two
    in the middle, with a digit behind the point if it is not whole."""
    twice = sum(ordered[at] for at in ((len(ordered) - 1) // 2, len(ordered) // 2)) if ordered else None
    return twice if twice is None else twice / 2 if twice % 2 else twice // 2


def block_rows(run):
    """A row for each block of the report, in its order."""
    for viewer in run.viewers:
        for block in viewer.blocks:
            visit, is_missing = viewer.first + block.number, block.kind in REASONS
            yield (viewer.number, viewer.file, block.number, viewer.slot, visit, visit % run.scenario.cubs, block.due,
                   how_of(block), block.length, None if is_missing else block.sent, block.kind if is_missing else None)


def viewer_rows(run):
    """A row for each start of the scenario, in its order."""
    for viewer in run.viewers:
        yield (viewer.number, viewer.file, viewer.asked, viewer.slot is not None, viewer.slot, viewer.first,
               wait_of(viewer), viewer.stop, *viewer.counts, viewer.digest)


def check(run):
    """Sees that the last line of each viewer counts the viewer's blocks, and the total line those of all viewers."""
    sums = [len(run.viewers), len(run.placed()), 0, 0, 0]
    for viewer in run.viewers:
        ways = [how_of(block) for block in viewer.blocks]
        counts = [ways.count("whole"), ways.count("pieces"), ways.count("missing")]
        if viewer.counts != (*counts, sum(block.length or 0 for block in viewer.blocks)):
            raise Unfit(f"the report's last line of viewer {viewer.number} does not count the viewer's blocks")
        sums[2:] = map(sum, zip(sums[2:], counts))
    if sums != list(run.totals.values()):
        raise Unfit("the report's last line does not count what stands before it")


def text_of(value):
    """A value as it stands in CSV."""
    if value is None:
        return ""
    if isinstance(value, bool):
        return "true" if value else "false"
    return " ".join(map(str, value)) if isinstance(value, list) else str(value)


def csv_line(values):
    """A line of CSV with these values."""
    line = io.StringIO()
    csv.writer(line, lineterminator="\n").writerow(map(text_of, values))
    return line.getvalue()


def as_csv(columns, rows):
    """The rows as CSV: a line with the names of the columns, and a line for each row."""
    return "".join(map(csv_line, itertools.chain([[column[0] for column in columns]], rows)))


def as_json(columns, rows):
    """The rows as JSON: an array with an object for each row, on a line of its own."""
    names = [column[0] for column in columns]
    lines = ",\n".join(json.dumps(dict(zip(names, row))) for row in rows)
    return f"[\n{lines}\n]\n" if lines else "[]\n"
