"""Checks of tools/report for tools/check-program; those of tools/sweep and tools/scenario are called from here."""
import csv
import io
import json
import os
import re
import sys

import program
import rows
import scenario_checks
import sweep_checks
from nets import is_net
from reports import run_of

EXAMPLES = os.path.join(program.TOP, "examples")
FORMATS = os.path.join(program.TOP, "docs", "formats.md")
REPORT = os.path.join(program.TOP, "tools", "report")
BLOCK_HEAD = "viewer,file,block,slot,visit,cub,due,how,bytes,sent,reason\n"
VIEWER_HEAD = "viewer,file,started,placed,slot,first,wait,stopped,whole,pieces,missing,bytes,sha256\n"
SIXTEEN = "0c0beacef8877bbf2416eb00f2b5dc96354e26dd1df5517320459b1236860f8c"  # the SHA-256 of sixteen times `a`
TEN = "c775e7b757ede630cd0aa1113bd102661ab38829ca52a6422ab782862f268646"  # that of 1234567890
WANTED = {  # rows of examples, as their README tells them, written by hand
    ("dead-cub", ""): BLOCK_HEAD
    + "0,0,0,1,0,0,500000,whole,4,50,\n"
    + "0,0,1,1,1,1,1500000,whole,4,150,\n"
    + "0,0,2,1,2,2,2500000,whole,4,250,\n"
    + "0,0,3,1,3,3,3500000,pieces,4,350 400,\n",
    ("read-fault", "--blocks"): BLOCK_HEAD
    + "0,0,0,1,0,0,500000,whole,4,50,\n"
    + "0,0,1,1,1,1,1500000,missing,,,read\n"
    + "0,0,2,1,2,2,2500000,whole,2,250,\n",
    ("slot-reused", ""): BLOCK_HEAD
    + "0,0,0,1,0,0,500000,whole,4,50,\n"
    + "0,0,1,1,1,1,1500000,whole,4,150,\n"
    + "0,0,2,1,2,2,2500000,whole,4,250,\n"
    + "0,0,3,1,3,3,3500000,whole,4,350,\n"
    + "1,1,0,1,4,4,4500000,whole,4,450,\n"
    + "1,1,1,1,5,5,5500000,whole,4,550,\n"
    + "1,1,2,1,6,6,6500000,whole,2,650,\n",
    ("slot-reused", "--viewers"): VIEWER_HEAD
    + f"0,0,0,true,1,0,50,400,4,0,0,16,{SIXTEEN}\n"
    + f"1,1,400,true,1,4,50,,3,0,0,10,{TEN}\n",
    ("dead-cub", "--viewers"): VIEWER_HEAD + f"0,0,0,true,1,0,50,,3,1,0,16,{SIXTEEN}\n",
}
UNPLACED = {  # the last viewer of full-house
    "viewer": 16, "file": 0, "started": 0, "placed": False, "slot": None, "first": None, "wait": None, "stopped": None,
    "whole": 0, "pieces": 0, "missing": 0, "bytes": 0,
    "sha256": "e3b0c44298fc1c149afbf4c8996fb92427ae41e4649b934ca495991b7852b855"}
TYPES = {"integer": int, "text": str, "true or false": lambda cell: {"true": True, "false": False}[cell],
         "list of integers": lambda cell: [int(beat) for beat in cell.split()]}


def report(words, folder):
    """How tools/report ends on these words in a folder."""
    return program.run([sys.executable, REPORT, *words], folder)


def content(name):
    """The bytes of a file of examples/."""
    with open(os.path.join(EXAMPLES, name), "rb") as file:
        return file.read()


def kept():
    """The names of the scenarios among the examples, and the run that the kept report of each tells."""
    for file in sorted(os.listdir(EXAMPLES)):
        name, ending = os.path.splitext(file)
        if ending == ".json" and not is_net(content(file)):
            yield name, run_of(content(file), content(name + ".stdout"))


def by_hand():
    """The rows of some kept reports are those that are written above, and no program is needed."""
    for (name, words), wanted in WANTED.items():
        made = report(["--csv", name + ".json", "--report", name + ".stdout", *words.split()], EXAMPLES)
        yield f"the rows of {name} {words}".rstrip(), made.differs(program.Ended(0, wanted.encode(), b""))
    made = report(["--json", "--viewers", "full-house.json", "--report", "full-house.stdout"], EXAMPLES)
    last = json.loads(made.out)[-1]
    yield "the row of a viewer without a slot", "" if last == UNPLACED else str(last)


def both_forms():
    """JSON and CSV have the same rows, with the types that the columns name, and no other columns are empty than may
    be."""
    for name, run in kept():
        for columns, listed in ((rows.BLOCKS, rows.block_rows), (rows.VIEWERS, rows.viewer_rows)):
            objects = json.loads(rows.as_json(columns, listed(run)))
            cells = list(csv.DictReader(io.StringIO(rows.as_csv(columns, listed(run)))))
            read = [{column[0]: value_of(column, row[column[0]]) for column in columns} for row in cells]
            same = read == objects and all(list(it) == [column[0] for column in columns] for it in objects)
            yield f"JSON and CSV of {name} with {len(columns)} columns", "" if same else "they differ"


def value_of(column, cell):
    """What a cell of CSV says; a column that always has a value must have one."""
    if cell == "":
        assert column[3] != "never", column[0]
        return None
    return TYPES[column[1]](cell)


def totals():
    """The rows of each kept report add up to its total line, both those of blocks and those of viewers."""
    for name, run in kept():
        blocks, viewers = list(rows.block_rows(run)), list(rows.viewer_rows(run))
        how, names = [row[7] for row in blocks], [column[0] for column in rows.VIEWERS]
        sums = {column: sum(row[names.index(column)] for row in viewers)
                for column in ("placed", "whole", "pieces", "missing", "bytes")}
        by_blocks = {way: how.count(way) for way in ("whole", "pieces", "missing")}
        line = f"total starts {len(viewers)} placed {sums['placed']}" + "".join(
            f" {way} {number}" for way, number in by_blocks.items())
        good = (content(name + ".stdout").decode().splitlines()[-1] == line
                and all(sums[way] == number for way, number in by_blocks.items())
                and sums["bytes"] == sum(row[8] or 0 for row in blocks))
        yield f"the totals of {name}", "" if good else line


def refused(tiger, folder):
    """A refusal is handed on; what is no report, and a report whose counts are not those of its lines, is said."""
    with open(os.path.join(folder, "no-beats.json"), "w", encoding="utf-8") as file:
        json.dump({**json.loads(content("one.json")), "beats": 0}, file)
    wanted = program.refused(5, "scenario rule 5 item 0 left 0 right 0")
    made = report(["--csv", "no-beats.json", "--program", tiger], folder)
    yield "the rows of a refused scenario", made.differs(wanted)
    made = report(["--csv", "six-viewers.json", "--program", tiger], folder)
    same = report(["--csv", "six-viewers.json", "--report", "six-viewers.stdout"], folder)
    yield "the rows of a run", made.differs(same)
    lines = content("dead-cub.stdout").splitlines(True)
    for what, left in (("without a block", lines[:2] + lines[3:]), ("without an end", lines[:5] + lines[6:]),
                       ("with another total", lines[:6] + [lines[6].replace(b"pieces 1", b"pieces 0")]),
                       ("with another length", [line.replace(b"pieces 4", b"pieces 3") for line in lines]),
                       ("that is cut", lines[:6]), ("of nothing", [])):
        with open(os.path.join(folder, "bad.stdout"), "wb") as file:
            file.writelines(left)
        yield f"a report {what}", failed(report(["--csv", "dead-cub.json", "--report", "bad.stdout"], folder), 1)
    for what, path in (("is not there", "/nowhere"), ("says nothing", "/bin/true"), ("fails", "/bin/false")):
        yield f"a program that {what}", failed(report(["--csv", "one.json", "--program", path], folder), 1)
    for words in ([], ["one.json"], ["--csv", "--json", "one.json"], ["--csv"], ["--csv", "one.json", "--rows"]):
        yield f"the words {words} of report", failed(report(words, folder), 64)


def failed(ended, status):
    """What is wrong with a run that was to fail with a status and one line, and to print nothing."""
    one_line = re.fullmatch(rb"\w+: [^\n]+\n", ended.err)
    good = ended.status == status and ended.out == b"" and one_line
    return "" if good else f"status {ended.status}, '{ended.out[:200]!r}', '{ended.err[-200:]!r}'"


def same_columns():
    """The tables of docs/formats.md have the columns of the rows."""
    with open(FORMATS, encoding="utf-8") as file:
        text = file.read()
    for what, columns in (("block", rows.BLOCKS), ("viewer", rows.VIEWERS)):
        table = text.partition(f"The row of a {what}:\n\n")[2].partition("\n\n")[0]
        cells = [line.split("|")[1:5] for line in table.splitlines()[2:]]
        found = tuple(tuple(cell.strip().strip("`") for cell in row) for row in cells)
        yield f"the table of the row of a {what}", "" if found == columns else f"{found} for {columns}"


def all_of_them(tiger, folder):
    """Each check's name, and what it found; nothing if all is well. The folder has the examples and their files."""
    yield from by_hand()
    yield from both_forms()
    yield from totals()
    yield from refused(tiger, folder)
    yield from same_columns()
    yield from sweep_checks.all_of_them(tiger, folder)
    yield from scenario_checks.all_of_them(tiger, folder)
