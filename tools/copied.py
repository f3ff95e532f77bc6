"""What refuse-rules and refuse-statements share: a copy of the repository in which definitions are changed, and checks of
crates there, for which no library is built anew.

Python 3.8 or later, and nothing but its standard library.
"""
import os
import re
import resource
import shutil
import subprocess
import sys

sys.dont_write_bytecode = True
import program
from crates import used_by

NO_PROVER = 69

# An error of its own, and not that something rests on what failed; most name the lemma.
FAILED = re.compile(r"^(\S+?)/(?:proofs|specs|src)/\S+?: error: (?![0-9]+ declarations? that)(?:`([^`]+)`)?", re.M)


class Copy:
    """A copy of the repository, whose texts are changed and put back."""

    def __init__(self, folder, libraries, kept):
        self.folder = folder
        self.libraries = libraries
        self.kept = kept or os.path.join(folder, "kept")
        self.in_use = self.kept
        self.first = {}
        self.below = used_by()
        self.kit = os.path.dirname(os.path.dirname(os.path.realpath(shutil.which("rt"))))
        shutil.copytree(os.path.join(program.TOP, "crates"), os.path.join(folder, "crates"), symlinks=True,
                        ignore=shutil.ignore_patterns("out"))

    def change(self, file, old, new):
        """Puts a text in the place of another, which stands once in the file; whether it does."""
        path = os.path.join(self.folder, "crates", file)
        with open(path, encoding="utf-8") as it:
            text = it.read()
        self.first.setdefault(path, text)
        with open(path, "w", encoding="utf-8") as it:
            it.write(text.replace(old, new))
        return text.count(old) == 1

    def begin(self):
        """Begins a wrong rule with what was checked of the right ones, and leaves that as it is."""
        self.in_use = os.path.join(self.folder, "in_use")
        shutil.rmtree(self.in_use, ignore_errors=True)
        shutil.copytree(self.kept, self.in_use)

    def put_back(self):
        """Puts all texts back."""
        for path, text in self.first.items():
            with open(path, "w", encoding="utf-8") as it:
                it.write(text)
        self.first = {}

    def stands_on(self, crate):
        """All crates that a crate stands on, each behind those that it stands on itself."""
        found = []
        for name in self.below.get(crate, []):
            found += [other for other in self.stands_on(name) + [name] if other not in found]
        return found

    def library(self, name):
        """The library of a crate of the repository, or nothing."""
        places = [os.path.join(self.libraries, f"{name}.rlib")] if self.libraries else []
        places.append(os.path.join(program.TOP, "crates", name, "out", "rlib", f"{name}.rlib"))
        return next((place for place in places if os.path.isdir(place)), None)

    def given(self, crate, changed):
        """The flags that hand over what a crate stands on: what stands on the changed crates as source."""
        flags = ["--extern", f"std={self.kit}/rlibs/std.rlib", "-L", f"dependency={self.kit}/rlibs"]
        for name in self.stands_on(crate):
            as_source = name in changed or any(other in changed for other in self.stands_on(name))
            library = f"{self.kit}/rlibs/{name}.rlib" if name not in self.below else self.library(name)
            if as_source or not library:
                root = os.path.join(self.folder, "crates", name, "src", "lib.rt")
                flags += ["--lib", f"{name}:{','.join(['std'] + self.below[name])}={root}"]
            else:
                flags += ["--extern", f"{name}={library}"]
        return flags

    def prove(self, crate, law, changed):
        """Proves a crate, or a law of it alone: whether it is proved, and what was said."""
        os.makedirs(self.in_use, exist_ok=True)
        command = [f"{self.kit}/bin/rattle", "check", "--crate-name", crate, "src/lib.rt", "--antt-project",
                   f"{self.kit}/rattle/logic/antt-project.json", "--logic-built", f"{self.kit}/logic_built",
                   "--incremental", self.in_use, "--jobs", "1"]
        command += self.given(crate, changed) + (["--only", law] if law else [])
        ran = program.run(command, os.path.join(self.folder, "crates", crate), is_limited=False, stderr=subprocess.STDOUT)
        return ran.status == 0, ran.out.decode("utf-8", "replace")


def read_edits(path):
    """What an edit's file says under each of its own words, in order, and the texts that it changes: of each the file below
    crates/, what stands there once, and what is put in its place."""
    said, edits = {}, []
    with open(path, encoding="utf-8") as file:
        for line in file:
            key, text = line.rstrip("\n").split(": ", 1)
            if key == "file":
                edits.append((text, [], []))
            elif key in ("old", "new"):
                edits[-1][1 if key == "old" else 2].append(text)
            else:
                said.setdefault(key, []).append(text)
    return said, [(file, "\n".join(old), "\n".join(new)) for file, old, new in edits]


def failed_lemmas(crate, said):
    """The lemmas that failed by themselves, as 'crate: lemma', in the order in which they were named."""
    found = []
    for folder, lemma in FAILED.findall(said):
        name = crate if folder == "." else os.path.basename(folder)
        found.append(f"{name}: {lemma or 'no lemma'}")
    return list(dict.fromkeys(found))


def first_of(text):
    """The first line of a text."""
    return text.split("\n", 1)[0]


def last_line(said):
    """The last line that was said."""
    return next((line for line in reversed(said.splitlines()) if line.strip()), "nothing")


def why(crate, said):
    """In one line why a crate is not proved."""
    return ", ".join(failed_lemmas(crate, said)) or last_line(said)


def processor_time():
    """The processor time of all checks so far, in seconds."""
    used = resource.getrusage(resource.RUSAGE_CHILDREN)
    return used.ru_utime + used.ru_stime
