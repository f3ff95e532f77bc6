"""Runs of a scenario that differ by a death, compared with the reference simulator's, for tools/cuts and
tools/returns."""
import json
import os
import sys
import tempfile

import program

STAGE = ("--stage", "back")  # words for the reference, which would else not take cuts and returns


class Trial:
    """Two programs, each with its words before a scenario's name, and a scenario that gets a death."""

    def __init__(self, given, folder, scenario):
        command = "journal" if given.journal else "run"
        self.tiger = [program.program_of(given), command]
        self.reference = [program.reference_of(given), *STAGE, command]
        self.last, self.what = program.LAST[command], "journals" if given.journal else "report"
        self.folder, self.scenario = folder, scenario
        with open(os.path.join(folder, "long"), "wb") as file:
            file.write(b"a" * 256)

    def differs(self, death):
        """Runs the scenario with a death, by both programs; what differs."""
        name = "-".join(str(number) for number in death.values()) + ".json"
        with open(os.path.join(self.folder, name), "w", encoding="utf-8") as file:
            json.dump({**self.scenario, "deaths": [death]}, file)
        wanted = program.run([*self.reference, name, "1"], self.folder)
        if wanted.status != 0 or not program.is_answer(wanted, self.last):
            return f"the reference ends with status {wanted.status}, and with no {self.what}"
        return program.run([*self.tiger, name, "1"], self.folder).differs(wanted)


def words(text, cubs, cub, beats):
    """The reader of the words that both tools take; another tool's own may be added."""
    reader = program.words(text)
    program.with_reference(reader)
    program.with_jobs(reader, "runs")
    reader.add_argument("--cub", type=int, choices=cubs, default=cub, help="the cub that dies (%(default)s)")
    reader.add_argument("--beats", type=program.count, default=beats, help="in how many beats (%(default)s)")
    reader.add_argument("--journal", action="store_true", help="compare journals in the place of reports")
    return reader


def example(name):
    """An example's scenario."""
    with open(os.path.join(program.TOP, "examples", name), encoding="utf-8") as file:
        return json.load(file)


def tried(name, given, scenario, deaths, place):
    """Tries the deaths, tells of each that differs with its place in words, and of their number; the status."""
    if program.reference_of(given) is None:
        print(f"{name}: there is no reference simulator: name one by --reference or TIGER_REFERENCE", file=sys.stderr)
        return program.NO_REFERENCE
    with tempfile.TemporaryDirectory() as folder:
        found = list(program.in_turn(Trial(given, folder, scenario).differs, deaths, given.jobs))
    failed = [(death, difference) for death, difference in zip(deaths, found) if difference]
    for death, difference in failed:
        print(f"{name}: {place(death)}: {difference}")
    print(f"{name}: {len(found) - len(failed)} passed, {len(failed)} failed")
    return program.status_of(len(found), len(failed))
