"""Edits of the bodies of different functions of a crate, tried in one check for tools/wrong-bodies.

A function is proved from its own body and the contracts of what it calls. So a wrong body is refused in its own
function and in no other one, and what a check says of a function tells of the one edit that changes its body. For the
same reason a check of the changed functions alone says as much as one of the whole crate.
"""
import contextlib
import os
import re
import shutil
import subprocess
import tempfile
import time

import program

HEAD = re.compile(r"( *)(?:pub(?:\(crate\))? )?fn (\w+)")
IMPL = re.compile(r"( *)impl(?:<.*?>)? (?:([\w:]+)(?:<(\w\w+)?.*>)? for )?([\w:]+)")
IN_SOURCE = re.compile(r"(?:note: )?(src/\S+?):(\d+):\d+: .*")
IN_PROOFS = re.compile(r"(?:note: )?(?:\./)?proofs/(\S+)/\w+\.antt:\d+:\d+: error.*")
# The last line of a check of some functions: how many it was asked for, and how many are proved.
ONLY = re.compile(r"only=(\d+) proved=(\d+)")
# A proof that cites a name which an edit took away: that says little of the contract.
OF_NAMES = re.compile(r"has no field|is not in scope|has no `|was not admitted")


class Edit:
    """An edit of wrong-bodies/ or must-fail/, as its file says: the texts of one file of the crate that it replaces."""

    def __init__(self, path):
        self.name = os.path.basename(path)
        self.file, self.pairs, old = "", [], None
        with open(path, encoding="utf-8") as lines:
            for line in lines:
                key, _, text = line.rstrip("\n").partition(":")
                if key == "file":
                    self.file = text.strip()
                elif key == "old":
                    old = text[1:]
                elif key == "new":
                    self.pairs.append((old, text[1:]))

    def applied(self, text):
        """The text of the file with the edit, or None if a text to be replaced does not stand in it once."""
        for old, new in self.pairs:
            if not old or text.count(old) != 1:
                return None
            text = text.replace(old, new)
        return text


class Function:
    """A function of a source file: its name, the line of its first attribute (of its head, if it has none) and of its head,
    and the first and the last line of its body."""

    def __init__(self, name, top, head, first, last):
        self.name, self.top, self.head, self.first, self.last = name, top, head, first, last


def functions_in(lines):
    """The functions of a source file as `rt fmt` writes it, each at the lines that it has there, from 1 on."""
    for number, line in enumerate(lines, 1):
        head = HEAD.match(line)
        if head:
            opens = re.compile(head[1] + r"(?! ).*\{$")
            first = next((n for n in range(number, len(lines) + 1) if opens.match(lines[n - 1])), len(lines))
            last = next((n for n in range(first, len(lines) + 1) if lines[n - 1] == head[1] + "}"), len(lines))
            top = number
            while lines[top - 2].startswith(head[1] + "#["):
                top -= 1
            yield Function(head[2], top, number, first, last)


def path_of(file, lines, function):
    """The name of a function as a check prints it, but for its crate: its module, its type (with the trait and what this is
    of, if it is of an impl of one, but for `Drop`), and its own name."""
    within = len(HEAD.match(lines[function.head - 1])[1])
    impl = next((it for it in map(IMPL.match, reversed(lines[:function.head - 1])) if it and len(it[1]) < within), None)
    if not (within and impl):
        return "::".join([*modules_of(file), function.name])
    trait = (impl[2] or "").split("::")[-1]
    if trait:
        return "::".join([*modules_of(file), impl[4] + trait.replace("Drop", "") + (impl[3] or ""), function.name])
    return "::".join([*home_of(impl[4], file, lines), impl[4], function.name])


def modules_of(file):
    """The modules of a source file."""
    return [it for it in file[len("src/"):-len(".rt")].split("/") if it not in ("lib", "main")]


def home_of(name, file, lines):
    """The modules of a type of the crate that is named in a source file."""
    uses = re.compile(rf"use crate::([\w:]+)::(?:\{{.*\b)?{name}\b")
    return next((it[1].split("::") for it in map(uses.match, lines) if it), modules_of(file))


def changed_body(edit, text):
    """The one function of a source file whose body an edit changes, if it changes nothing else."""
    found = set()
    for old, _ in edit.pairs:
        line = text[:text.find(old)].count("\n") + 1
        inside = [it for it in functions_in(text.split("\n")) if it.first < line < it.last]
        found.update([(it.name, it.top, it.head, it.first, it.last) for it in inside[-1:]] or [None])
    return Function(*found.pop()) if len(found) == 1 and None not in found else None


def bodies(folder, edits):
    """Those of a crate's edits that change the body of one function and nothing else, each with that function."""
    for edit in edits:
        path = os.path.join(folder, edit.file)
        if edit.file.startswith("src/") and os.path.isfile(path):
            text = text_of(path)
            function = changed_body(edit, text) if edit.applied(text) is not None else None
            if function:
                yield edit, function


def groups(found):
    """The edits in groups, so that no two of a group change functions of one name in one file."""
    made = []
    for edit, function in found:
        key = edit.file, function.name
        group = next((it for it in made if key not in it), None)
        if group is None:
            group = {}
            made.append(group)
        group[key] = edit, function
    return [list(it.values()) for it in made]


def text_of(path):
    """The text of a file."""
    with open(path, encoding="utf-8") as file:
        return file.read()


@contextlib.contextmanager
def edited(folder, edits):
    """Applies some edits in a crate's folder, and takes them back at the end."""
    before = {edit.file: text_of(os.path.join(folder, edit.file)) for edit in edits}
    after = dict(before)
    for edit in edits:
        after[edit.file] = edit.applied(after[edit.file]) or after[edit.file]
    try:
        put(folder, after)
        yield
    finally:
        put(folder, before)


def put(folder, texts):
    """Writes these texts of a crate's files."""
    for name, text in texts.items():
        with open(os.path.join(folder, name), "w", encoding="utf-8") as file:
            file.write(text)


def is_of(line, edit, function):
    """Whether a line of a check refuses a function: it names a place in it, or in the proofs of its goals."""
    source, proofs = IN_SOURCE.match(line), IN_PROOFS.match(line)
    if source:
        return source[1] == edit.file and function.top <= int(source[2]) <= function.last
    if proofs and not OF_NAMES.search(line):
        module = edit.file[len("src/"):-len(".rt")]
        return re.fullmatch(rf"(?:{module}/)?(?:\w+/)?{function.name}", proofs[1]) is not None
    return False


def said_by(command, folder, room):
    """The status of a command, and all that it says; its temporary files stand in a folder of their own."""
    ran = program.run(command, folder, is_limited=False, stderr=subprocess.STDOUT, env={**os.environ, "TMPDIR": room})
    return ran.status, ran.out.decode("utf-8", "replace")


def refused(folder, group, room):
    """What a check of a crate with all edits of a group says of each that it refuses, by name."""
    with edited(folder, [edit for edit, _ in group]):
        status, said = said_by(["rt", "check"], folder, room)
    lines = said.rstrip("\n").split("\n")
    if status != 1 or not any(line.startswith("logic=not-proved") for line in lines):
        return {}
    return told_of(lines, group)


def told_of(lines, group):
    """What the lines of a check say of each edit of a group whose function they refuse, by name."""
    told = {edit.name: next((it for it in lines if is_of(it, edit, function)), None) for edit, function in group}
    return {name: said for name, said in told.items() if said}


def checked_alone(prover, crate, group, room, kept=None):
    """The status and the lines of a check of the changed functions alone. What the check reads of the crate is copied to the
    room, and the group's edits change the copy."""
    folder = tempfile.mkdtemp(dir=room)
    prover.copy(crate, folder)
    functions = [path_of(edit.file, text_of(os.path.join(folder, edit.file)).split("\n"), function) for edit, function in group]
    with edited(folder, [edit for edit, _ in group]):
        ended = prover.check(crate, functions, folder, kept)
    shutil.rmtree(folder, ignore_errors=True)
    return ended


def refused_alone(prover, crate, group, room):
    """What a check of the changed functions alone says of each edit of a group that it refuses, by name."""
    status, lines = checked_alone(prover, crate, group, room)
    return told_of(lines, group) if status == 1 and ONLY.fullmatch(lines[-1]) else {}


def refused_together(folder, paths, room):
    """What is said of each of a crate's edits that is refused in a check with others, by name."""
    told = {}
    for group in groups(bodies(folder, map(Edit, paths))):
        if len(group) > 1:
            told.update(refused(folder, group, room))
    return told


def remove(folder):
    """Removes the copy, into which a check that was just cut off may still write for a moment."""
    for _ in range(50):
        shutil.rmtree(folder, ignore_errors=True)
        if not os.path.exists(folder):
            return
        time.sleep(0.1)
