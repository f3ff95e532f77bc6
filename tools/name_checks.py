"""Sees that a name of a definition is one thing in the whole repository, but for the names of double_names.txt.

A definition is public, and stands in a file of crates/*/specs. double_names.txt has the names that stand in two crates
or more, each below the reason why it may. A name that stands there and in one crate alone is a failure too, so that the
list gets shorter as names do.
"""
import collections
import glob
import os
import re

from launch import TOP

LISTED = os.path.join(TOP, "tools", "double_names.txt")
DEFINED = re.compile(r"^(?:(?:abbrev|data|opaque|record|unfoldable) )*pub (?:(?:abbrev|data|opaque|record|unfoldable) )*"
                     r"([^\s:(){},]+)", re.M)
NOT_NAMES = {"mod", "use"}


def crates_of_names():
    """The crates in which each name of a definition stands."""
    found = collections.defaultdict(set)
    for path in glob.glob(os.path.join(TOP, "crates", "*", "specs", "**", "*.antt"), recursive=True):
        crate = os.path.relpath(path, os.path.join(TOP, "crates")).split(os.sep)[0]
        with open(path, encoding="utf-8") as file:
            for name in DEFINED.findall(file.read()):
                if name not in NOT_NAMES:
                    found[name].add(crate)
    return found


def listed():
    """The names that may stand twice. A line of the list is a comment, a reason that begins with `because:`, or names."""
    with open(LISTED, encoding="utf-8") as file:
        lines = [line for line in file.read().splitlines() if line.strip() and not line.startswith("#")]
    return [name for line in lines if not line.startswith("because:") for name in line.split()]


def all_of_them():
    """One case: no name is double that is not listed, and none is listed that is not double, or twice."""
    found = crates_of_names()
    names = listed()
    double = {name for name, crates in found.items() if len(crates) > 1}
    wrong = [f"{name} stands in {', '.join(sorted(found[name]))}" for name in sorted(double - set(names))]
    wrong += [f"{name} is listed and stands in one crate at most" for name in sorted(set(names) - double)]
    wrong += [f"{name} is listed twice" for name, times in collections.Counter(names).items() if times > 1]
    if not found:
        wrong.append("no definition was found")
    yield "each name of a definition is one thing", "; ".join(wrong)
