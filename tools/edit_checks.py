"""Checks for tools/check-program that the edits which the prover must refuse fit the texts that they change, and that no
line of a tool is too long.

Each text that an edit of wrong-bodies/, crates/*/must-fail, wrong-rules/ or wrong-statements/ replaces stands once in its
file. What a wrong rule names as false stands in the proofs of its crate, and the function whose contract is its law in
the crate's sources; the clauses that a wrong statement names are those of the call that uses it. Nothing is proved here.
"""
import glob
import os
import re

import program
from copied import read_edits
from together import Edit

CRATES = os.path.join(program.TOP, "crates")
COLUMNS = 130  # that a line of a tool may have
USER = os.path.join(CRATES, "promises", "src", "lib.rt")  # it uses each clause that wrong-statements/ changes


def content(path):
    """The text of a file; none if it is not there."""
    try:
        with open(path, encoding="utf-8") as file:
            return file.read()
    except FileNotFoundError:
        return ""


def edits(*pattern):
    """The paths of edits below the repository's top."""
    return sorted(glob.glob(os.path.join(program.TOP, *pattern, "*.edit")))


def named(path):
    """An edit as the repository names it."""
    return os.path.relpath(path, program.TOP)


def body_fits(path, crate):
    """What is wrong with an edit of a body."""
    edit = Edit(path)
    text = content(os.path.join(CRATES, crate, edit.file))
    return "" if edit.pairs and edit.applied(text) is not None else f"{named(path)} does not fit {crate}/{edit.file}"


def does_not_fit(path, changes):
    """The first text of an edit of several files that does not stand once, as its earlier changes leave the file."""
    texts = {}
    for file, old, new in changes:
        text = texts.get(file) or content(os.path.join(CRATES, file))
        if text.count(old) != 1:
            return f"{named(path)} does not fit {file}"
        texts[file] = text.replace(old, new)
    return "" if changes else f"{named(path)} changes nothing"


def stands_in(pattern, crate, *below):
    """Whether a line of a crate's files matches a pattern."""
    paths = glob.glob(os.path.join(CRATES, crate, *below), recursive=True)
    return any(re.search(pattern, content(path), re.M) for path in paths)


def rule_fits(path):
    """What is wrong with a wrong rule."""
    said, changes = read_edits(path)
    crate = os.path.basename(os.path.dirname(path))
    law = said["law"][0]
    if not stands_in(rf"^pub fn {re.escape(law)}\b", crate, "src", "**", "*.rt"):
        return f"{named(path)}: {crate} has no function {law}"
    for lemma in said["lemma"]:
        at, name = lemma.split(": ") if ": " in lemma else (crate, lemma)
        if not stands_in(rf"^ *(?:pub )?{re.escape(name)} : ", at, "proofs", "**", "*.antt"):
            return f"{named(path)}: {at} has no lemma {name}"
    return does_not_fit(path, changes)


def statement_fits(path):
    """What is wrong with a wrong statement."""
    said, changes = read_edits(path)
    there = set(re.findall(r"^ *ensures (\w+)", content(USER), re.M))
    for clause in " ".join(said["clauses"]).split():
        if clause not in there:
            return f"{named(path)}: promises has no clause {clause}"
    return does_not_fit(path, changes)


def long_lines():
    """The programs of tools/ and the gate have no line that is too long to be read beside another file."""
    paths = [os.path.join(program.TOP, ".ci", "run")]
    paths += [it for it in glob.glob(os.path.join(program.TOP, "tools", "*")) if os.path.isfile(it)]
    for path in (it for it in sorted(paths) if not it.endswith(".md")):
        for number, line in enumerate(content(path).splitlines(), 1):
            if len(line) > COLUMNS:
                yield f"{named(path)} has {len(line)} columns in line {number}"


def all_of_them():
    """A case for each kind of edit: all of it fit, and there is one."""
    bodies = [body_fits(path, path.split(os.sep)[-2]) for path in edits("wrong-bodies", "*")]
    gated = [body_fits(path, path.split(os.sep)[-3]) for path in edits("crates", "*", "must-fail")]
    rules = [rule_fits(path) for path in edits("wrong-rules", "*")]
    statements = [statement_fits(path) for path in edits("wrong-statements")]
    for kind, found in (("wrong bodies", bodies), ("edits of must-fail", gated), ("wrong rules", rules),
                        ("wrong statements", statements)):
        yield f"the {kind} fit", "; ".join(filter(None, found)) if found else "there is none"
    yield "the lines of the tools", "; ".join(long_lines())
