"""Which crates of the repository the program reaches, and copies of them.

Python 3.8 or later, and nothing but its standard library.
"""
import os
import re
import shutil

from launch import CRATE, TOP

TOP_CRATE = os.path.basename(CRATE)
PARTS = ("src", "specs", "proofs")

# A module that is compiled for tests alone, as a crate declares it at its top: in files of its own, or in braces.
OF_TESTS = re.compile(r"^#\[cfg\(test\)\]\nmod (\w+)(?:;\n| \{\n(?:(?!\}).*\n)*\}\n)", re.M)


def name_and_uses(line):
    """The name of the crate that a line of crates.txt is of, and the names of the libraries that it uses; no name if the line
    is of none."""
    name, colon, uses = line.partition("#")[0].partition(":")
    return name.strip() if colon else "", uses.split()


def used_by():
    """Each crate's name, and the names of the libraries that it uses, as crates.txt has them."""
    with open(os.path.join(TOP, "crates.txt"), encoding="utf-8") as file:
        rows = map(name_and_uses, file)
        return {name: uses for name, uses in rows if name}


def below_program():
    """The program's crate and each one that it stands on, with those of them that it uses itself."""
    used = used_by()
    found, left = set(), [TOP_CRATE]
    while left:
        name = left.pop()
        if name in used and name not in found:
            found.add(name)
            left += used[name]
    return {name: [it for it in used[name] if it in found] for name in found}


def copy(names, top, parts=PARTS):
    """Copies these parts of these crates to the top of a repository of their own, with their lines of crates.txt and
    HANDLES."""
    for name in sorted(names):
        for part in parts:
            source = os.path.join(TOP, "crates", name, part)
            if os.path.isdir(source):
                shutil.copytree(source, os.path.join(top, "crates", name, part))
    shutil.copy(os.path.join(TOP, "HANDLES"), top)
    with open(os.path.join(TOP, "crates.txt")) as listed, open(os.path.join(top, "crates.txt"), "w") as file:
        file.writelines(line for line in listed if name_and_uses(line)[0] in names)


def leave_out_tests(names, top):
    """Takes the modules that are compiled for tests alone out of a copy of these crates."""
    for name in names:
        crate = os.path.join(top, "crates", name)
        for source in (os.path.join(crate, "src", it) for it in ("lib.rt", "main.rt")):
            if os.path.isfile(source):
                with open(source, encoding="utf-8") as file:
                    text = file.read()
                with open(source, "w", encoding="utf-8") as file:
                    file.write(OF_TESTS.sub("", text).rstrip("\n") + "\n")
                for module in OF_TESTS.findall(text):
                    remove_module(module, crate)


def remove_module(module, crate):
    """Removes the files of a module, and the proofs of its functions."""
    file = os.path.join(crate, "src", module + ".rt")
    if os.path.isfile(file):
        os.remove(file)
    for part in ("src", "proofs"):
        shutil.rmtree(os.path.join(crate, part, module), ignore_errors=True)


def lines_of(name, ending):
    """How many lines the files of a crate with this ending have."""
    number = 0
    for part in PARTS:
        for folder, _, names in os.walk(os.path.join(TOP, "crates", name, part)):
            for file in (os.path.join(folder, it) for it in names if it.endswith(ending)):
                with open(file, "rb") as content:
                    number += content.read().count(b"\n")
    return number
