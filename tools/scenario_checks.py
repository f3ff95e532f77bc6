"""Checks of tools/scenario for tools/check-program: what it makes is accepted, its plan is the least one, and numbers
for which there is no scenario are refused in one line."""
import concurrent.futures
import json
import os
import random
import re
import runpy
import sys

import making
import plans
import program
from reports import Unfit
from scenarios import first_false, out_of_range, some

SCENARIO = os.path.join(program.TOP, "tools", "scenario")
LINES = 200  # command lines that are drawn
LEAST = ("read_lead", "window_b", "min_lead", "max_lead", "deadman", "hold")  # the times that are the least


def scenario(words, folder):
    """How tools/scenario ends on these words in a folder."""
    return program.run([sys.executable, SCENARIO, *words], folder)


def draw_line(rng):
    """Words of a command line, with numbers at the edges and between them; a play time is given now and then."""
    cubs, beat = some(rng, 7, 8, 9, 14, rng.randint(7, 64)), some(rng, 1, 100, 1000, 10000, 25000)
    numbers = {"cubs": cubs, "beat": beat, "disks": rng.randint(1, 3), "pieces": rng.randint(1, min(8, cubs - 2)),
               "delay": some(rng, 1, 2, rng.randint(1, 16)), "skew": some(rng, 0, 0, 1, beat, rng.randrange(5 * beat)),
               "block": some(rng, 1, 7, 64, 1000), "batch": some(rng, 1, 1, 2, 5), "heart": some(rng, 1, 10, 50),
               "stops": some(rng, 0, 0, 1), "deaths": rng.randint(0, min(3, cubs // 2)), "faults": rng.randint(0, 4),
               "files": rng.randint(1, 5), "seed": rng.getrandbits(rng.randint(1, 64))}
    numbers["cuts"] = rng.randint(0, numbers["deaths"])
    if rng.random() < 0.2:
        numbers["slots"] = some(rng, 1, 4096, rng.randint(1, 200))
    if rng.random() < 0.3:
        numbers["play-time"] = rng.randint(1, 200) * 10000
    second = 1000000 // beat  # beats
    seconds = rng.randint(1, 600) / second + 0.0001
    words = [f"--{key}={value}" for key, value in numbers.items()]
    words += [f"--seconds={seconds:.4f}", f"--viewers-per-second={rng.randint(4, 20) / seconds:.3f}"]
    if seconds * second >= 3:  # beats, which a return needs
        words.append(f"--returns={rng.randint(0, numbers['deaths'])}")
    words += [f"--length={some(rng, '1', '4', '1..9')}", "--links=" + some(rng, "fixed", "drawn")]
    return words + (["--starting=" + f"{seconds / 2:.4f}"] if rng.random() < 0.2 else [])


def accepted(tiger, folder):
    """What is made from drawn lines: the program accepts each, the window is at least a beat, and no time could be less
    nor the window wider. A play time that is refused is refused for a longer one, with which there is a scenario."""
    reader, rng, number = runpy.run_path(SCENARIO)["words"](), random.Random(1), 0
    faults, names = [], []
    while number < LINES:
        words = draw_line(rng)
        try:
            value, lengths = made(reader, words, folder, number)
        except Unfit as why:
            needed = re.fullmatch(r"play is (\d+), and must be at least (\d+) with .*", str(why))
            if not needed or int(needed[1]) >= int(needed[2]):
                faults.append(f"{why}: {' '.join(words)}")
                break
            words = [word for word in words if not word.startswith("--play-time")] + [f"--play-time={needed[2]}"]
            value, lengths = made(reader, words, folder, number)
        faults.extend(f"{fault}: {' '.join(words)}" for fault in plan_faults(value["plan"]))
        names.append(f"made{number}.json")
        number += 1
    with concurrent.futures.ThreadPoolExecutor(os.cpu_count()) as pool:
        ended = pool.map(lambda name: program.run([tiger, "run", name, "1"], folder), names)
        faults += [f"{name}: {program.first_line(it.err)}" for name, it in zip(names, ended) if it.status != 0]
    yield f"{LINES} scenarios from drawn lines", "; ".join(faults[:3])


def made(reader, words, folder, number):
    """The scenario for some words, which is written into a folder with its files, and the files' lengths."""
    given = reader.parse_args(words)
    given.plan = {key: getattr(given, key) for key in plans.KEYS if getattr(given, key) is not None}
    given.files_to = os.path.join(folder, f"made{number}")
    value, lengths = making.scenario_of(given)
    with open(f"{given.files_to}.json", "w", encoding="utf-8") as file:
        file.write(making.text_of(value))
    making.write_files(value, lengths)
    return value, lengths


def plan_faults(plan):
    """What is wrong with a plan that must be the least one with a wide window."""
    if first_false(plan) or out_of_range(plan):
        yield "no plan"
    if plan["window_b"] + plan["beat"] > plan["window_a"]:
        yield "a window shorter than a beat"
    for key, step in (*((key, -1) for key in LEAST), ("window_a", 1)):
        other = {**plan, key: plan[key] + step}
        if key == "window_a":  # the leads that go with it
            other["min_lead"] += 1
            other["max_lead"] += 1
        if not first_false(other):
            yield f"{key} could be {other[key]}"


def by_words(folder):
    """The same words make the same scenario and files, a narrow window is warned of, and what cannot be is refused."""
    words = ["--seed", "7", "--seconds", "5", "--deaths", "2", "--skew", "30", "--files-to", "films",
             "--cuts", "1", "--returns", "1"]
    first, second = scenario(words, folder), scenario(words, folder)
    names = [file["name"] for file in json.loads(first.out)["files"]] if first.status == 0 else []
    sizes = {os.path.getsize(os.path.join(folder, name)) for name in names}
    good = first.differs(second) == "" and first.err == b"" and sizes == {20 * 64} and len(names) == 8
    yield "the same words twice", "" if good else f"status {first.status}, files of {sizes} bytes"
    for window, is_narrow in ((90000, False), (89999, True)):
        ended = scenario(["--window-a", str(window)], folder)
        warned = re.fullmatch(rb"scenario: warning: [^\n]+\n", ended.err)
        good = ended.status == 0 and json.loads(ended.out)["plan"]["window_a"] == window
        good = good and (warned if is_narrow else ended.err == b"")
        yield f"a window of {window}", "" if good else f"status {ended.status}, '{program.first_line(ended.err)}'"


REFUSED = (  # words for which there is no scenario, each with a part of the line
    ("--cubs 6", "at least 7"), ("--cubs 65", "must be from 3 to 64"), ("--cubs 8 --deaths 5", "4 at most may die"),
    ("--deaths 2 --cuts 3", "3 cuts of 2 deaths"), ("--deaths 2 --returns 3", "3 returns of 2 deaths"),
    ("--deaths 2 --returns 1 --seconds 0.02", "1 returns in 2 beats"),
    ("--cubs 64 --delay 16 --play-time 1000000", "at least 10880000"), ("--window-a 80000", "condition 1 of a plan"),
    ("--max-lead 5000000", "condition 7 of a plan"), ("--hold 1999999", "condition 12 of a plan"),
    ("--seconds 1001", "100100 beats, and 100000 are the most"), ("--files 65", "64 are the most"),
    ("--cubs 64 --delay 1 --seconds 400", "2560000 beats times cubs"), ("--length 262145", "16777216 are the most"),
    ("--viewers-per-second 50", "2000 are the most"), ("--stops 61", "61 stops of 60 viewers"),
    ("--faults 1001", "1000 are the most"), ("--files 5 --length 262144", "67108864 are the most"),
    ("--viewers-per-second 4 --seconds 100 --beat 1000 --play-time 100000", "400400 blocks that might be due"),
    ("--length 0", "--length"), ("--length 5..4", "--length"), ("--seed 18446744073709551616", "--seed"),
    ("--seconds -1", "--seconds"), ("--seconds 1e3", "--seconds"), ("--viewers 3", "unrecognized"),
    ("x", "unrecognized"),
)


def refused(folder):
    """What has no scenario is refused in one line, which says why, with status 64."""
    with concurrent.futures.ThreadPoolExecutor(os.cpu_count()) as pool:
        found = list(pool.map(lambda entry: scenario(entry[0].split(), folder), REFUSED))
    for (words, part), ended in zip(REFUSED, found):
        line = ended.err.decode()
        good = ended.status == 64 and ended.out == b"" and part in line and line.count("\n") == 1
        yield f"the words '{words}' of scenario", "" if good else f"status {ended.status}, '{line}'"


def all_of_them(tiger, folder):
    """Each check's name, and what it found; nothing if all is well."""
    yield from accepted(tiger, folder)
    yield from by_words(folder)
    yield from refused(folder)
