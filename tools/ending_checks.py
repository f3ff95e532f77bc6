"""Checks of how the tools end, for tools/check-program: that none passes with a program that is missing, crashes, hangs or
prints something else, or if there is nothing to try; that a wrong word is one line and status 64; and that a signal ends
a tool, and the launcher with the program."""
import os
import pty
import signal
import subprocess
import sys
import time

import disk_wrongs
import launcher_checks
import program
import tool_checks
from program import Ended

STAND_INS = {  # programs that are not this one
    "true": "exit 0",
    "crashes": "kill -SEGV $$",
    "other": "echo 'total starts 1'",
    "junk": "printf '\\377'; printf '\\377\\n' >&2; exit 5",
    "hangs": "exec sleep 600",
}
WRONG = (  # words that a tool does not take
    "stress 1 0", "stress 1 -1", "stress x 1", "stress 1 1 --program /nowhere", "stress 1 1 --wait 0",
    "stress 1 1 --wait 1000000", "draw 1 0",
    "draw 1 1 --jobs 0", "draw 1 1 --minutes 0", "draw 1 1 --minutes -1", "draw 1 1 --minutes nan", "draw 1",
    "draw 1 1 --reference /nowhere", "draw-nets 1 0", "draw-nets x 1", "draw-nets 1 1 --program /nowhere",
    "conformance --cases /nowhere", "conformance run", "conformance --workers 65",
    "conformance --jobs 0", "conformance --program /nowhere", "deaths --jobs 0", "deaths --program /nowhere",
    "deaths x", "cuts --jobs 0", "cuts --program /nowhere", "cuts --reference /nowhere", "cuts --cub 8",
    "cuts --cub x", "cuts --beats 0", "cuts x", "returns --jobs 0", "returns --reference /nowhere", "returns --cub 8",
    "returns --beats 0", "returns x",
    "audit-mutations 1 0", "audit-mutations 1", "audit-mutations 1 1 --drawn x", "audit-mutations 1 1 --texts /nowhere",
    "bench --rounds 0", "bench --workers 0", "bench nothing", "bench --beside /nowhere", "hostile 1 0", "hostile",
    "hostile --costs --tiger /nowhere", "hostile 1 1 --program /nowhere", "refuse-allocations --last 0",
    "refuse-allocations --workers 0", "refuse-rules --only nothing-of-this-name", "refuse-rules --libraries /nowhere",
    "net-states nothing", "net-states places-unasked x", "wrong-bodies nothing",
    "plant-bugs 1 0", "plant-bugs 1 1 --crates nothing", "explain", "picture",
    "picture one.json --at x", "check-program --program /nowhere", "build x")
TRIES = (  # the words of tools that try a program, whichever it is
    "stress 1 1", "draw 1 2 --reference PROGRAM", "conformance made", "conformance net", "conformance disks",
    "conformance audit", "deaths", "cuts --beats 2 --reference PROGRAM", "returns --beats 1 --reference PROGRAM",
    "bench made --rounds 1", "hostile 1 1", "refuse-allocations --last 1",
    "draw-nets 1 2", "audit-mutations 1 1", "picture one.json", "picture net.json", "explain 5 one.json", "explain 9 one.json")


def tool(words, folder, stand_in):
    """How a tool ends on these words, with a stand-in for the program."""
    path = os.path.join(folder, stand_in)
    first, *others = words.replace("PROGRAM", path).split()
    return tool_checks.tool(first, ["--program", path, "--wait", "1", *others], folder)


def has_traceback(ended):
    """Whether a tool ended by an error of its own."""
    return b"Traceback" in ended.err


def wrong_words(folder):
    """Each wrong word is one line on standard error and status 64."""
    for words in WRONG:
        name, *others = words.split()
        got = tool_checks.tool(name, others, folder)
        good = got.status == 64 and got.out == b"" and got.err.count(b"\n") == 1
        yield f"the words '{words}'", "" if good else f"status {got.status}, '{got.err.decode()}'"


def no_program(folder):
    """No tool passes with a stand-in for the program."""
    for name, text in STAND_INS.items():
        with open(os.path.join(folder, name), "w", encoding="ascii") as file:
            file.write(f"#!/bin/sh\n{text}\n")
        os.chmod(file.name, 0o755)
    for words in TRIES:
        for name in STAND_INS:
            if name == "hangs" and words in ("deaths", "conformance net", "conformance audit"):
                continue  # (hundreds of runs that hang)
            got = tool(words, folder, name)
            good = got.status in (1, program.NO_REFERENCE) and not has_traceback(got)
            what = f"'{words}' with a program that is '{name}'"
            yield what, "" if good else f"status {got.status}, '{got.err.decode()}'"


def nothing_to_try(tiger, folder):
    """A tool that has nothing to try, or cannot write what it draws, fails with one line."""
    os.makedirs(os.path.join(folder, "no cases", "runs"))
    for name, words in (("conformance", ["--cases", "no cases"]),
                        ("conformance", ["--cases", "no cases", "--unproved"]),
                        ("draw", ["1", "1", "--reference", tiger, "--write", "/dev/null/x"])):
        got = tool_checks.tool(name, ["--program", tiger, *words], folder)
        good = got.status == 1 and got.out == b"" and got.err.count(b"\n") == 1
        yield f"{name} {' '.join(words[1:])}", "" if good else f"status {got.status}, '{got.err.decode()}'"
    yield "nothing that was tried", "" if program.status_of(0, 0) == 1 else "it is no failure"


def interrupted(folder):
    """A signal ends a tool and the program that it runs, with what was found and 128 and the signal's number as status."""
    begun = os.path.join(folder, "begun")
    path = os.path.join(folder, "runs-on")
    with open(path, "w", encoding="ascii") as file:
        file.write(f"#!/bin/sh\necho $$ >>'{begun}'\nexec sleep 600\n")
    os.chmod(path, 0o755)
    for words, number, said in (("stress 1 1", signal.SIGINT, b"stress: 0 agreed, 0 differed\n"),
                                ("deaths", signal.SIGINT, b"deaths: 0 passed, 0 failed\n"),
                                ("cuts --reference PROGRAM", signal.SIGINT, b"cuts: 0 passed, 0 failed\n"),
                                ("bench made", signal.SIGINT, b""), ("picture one.json", signal.SIGTERM, b""),
                                ("explain 5 one.json", signal.SIGHUP, b""),
                                ("conformance net", signal.SIGTERM, b"conformance: 0 passed, 0 failed\n")):
        name, *others = words.replace("PROGRAM", path).split()
        running = subprocess.Popen([sys.executable, os.path.join(tool_checks.TOOLS, name), "--program", path, *others],
                                   cwd=folder, stdout=subprocess.PIPE, stderr=subprocess.PIPE, preexec_fn=heeds)
        processes = lines_of(begun)
        running.send_signal(number)
        got = program.ended(running, program.WAIT)
        left = [it for it in processes if not ends(int(it))]
        os.remove(begun)
        good = got.status == 128 + number and got.out.endswith(said) and got.err.count(b"\n") <= 1 and not has_traceback(got)
        yield f"{number.name} to {words}", "" if good and not left else f"status {got.status}, '{got.err.decode()}', {left}"


AS_IT_BEGINS = """
import os, signal, subprocess, program
begins = subprocess.Popen
def begins_late(*words, **how):
    begun = begins(*words, **how)
    print(begun.pid, flush=True)
    os.kill(os.getpid(), signal.SIGTERM)
    return begun
subprocess.Popen, program.BUILD = begins_late, "sleeps.py"
"""


def as_it_begins(folder):
    """A signal that comes as a process begins ends that process too: a program, or the build of it."""
    with open(os.path.join(folder, "sleeps.py"), "w", encoding="ascii") as file:
        file.write("import time\ntime.sleep(600)\n")
    for what, work in (("a program", "program.run(['sleep', '600'], '.')"), ("the build", "program.built()")):
        text = f"{AS_IT_BEGINS}program.finish(lambda: {work} and 0)\n"
        got = program.run([sys.executable, "-c", text], folder, env={**os.environ, "PYTHONPATH": tool_checks.TOOLS},
                          preexec_fn=heeds)
        good = got.status == 143 and got.err == b"" and got.out.strip().isdigit() and ends(int(got.out))
        yield f"SIGTERM as {what} begins", "" if good else f"status {got.status}, '{got.err.decode()}', or it goes on"


def leaves_nothing(folder):
    """What a program starts and leaves is ended with it, also if it has ended itself, and if it hangs."""
    wait, program.WAIT = program.WAIT, 1
    for name, text in (("ends", "sleep 600 >/dev/null 2>&1 & echo $! >begun"),
                       ("ends while that may write", "sleep 600 & echo $! >begun"),
                       ("hangs", "sleep 600 & echo $! >begun; wait")):
        got = program.run(["/bin/sh", "-c", text], folder)
        process = lines_of(os.path.join(folder, "begun"))
        os.remove(os.path.join(folder, "begun"))
        good = got.status == (0 if name == "ends" else "none") and process and ends(int(process[0]))
        yield f"what a program leaves that {name}", "" if good else f"status {got.status}, or it goes on"
    program.WAIT = wait


def tries_unproved(folder):
    """`conformance --unproved` fails if `rt` is not there, fails or is ended by a signal, and a signal ends it."""
    at, begun = os.path.join(folder, "with rt"), os.path.join(folder, "rt-begun")
    os.mkdir(at)
    command = [sys.executable, os.path.join(tool_checks.TOOLS, "conformance"), "--unproved"]
    for text, status in ((None, 1), ("exit 3", 1), ("kill -KILL $$", 1), ("exit 0", 0),
                         (f"sleep 600 & echo $$ $! >'{begun}'; wait", 143)):
        disk_wrongs.put(os.path.join(at, "rt"), text)
        path = at if text is None else at + os.pathsep + "/usr/bin" + os.pathsep + "/bin"
        running = program.Interrupt.begin(command, cwd=folder, stdout=subprocess.PIPE, stderr=subprocess.PIPE,
                                          preexec_fn=heeds, env={**os.environ, "PATH": path})
        processes = lines_of(begun) if status == 143 else []
        if processes:
            running.send_signal(signal.SIGTERM)
        got = program.ended(running, program.WAIT)
        left = [it for it in processes if not ends(int(it))]
        good = got.status == status and not has_traceback(got)
        yield f"unproved runs if rt has '{text}'", "" if good and not left else f"status {got.status}, {got.err.decode()}"


def taken_by_another(folder):
    """SIGINT ends a tool also if another of its threads gets it while the main thread waits."""
    text = ("import signal, threading, program\n"
            "another = threading.Timer(0.2, signal.raise_signal, [signal.SIGINT])\n"
            "program.finish(lambda: another.start() or threading.Event().wait(600))\n")
    begun = time.monotonic()
    got = program.run([sys.executable, "-c", text], folder, env={**os.environ, "PYTHONPATH": tool_checks.TOOLS},
                      preexec_fn=heeds)
    good = got.status == 130 and got.out + got.err == b"" and time.monotonic() - begun < 60
    yield "SIGINT to another thread", "" if good else f"status {got.status}, '{got.err.decode()}'"


def heeds():
    """Has a process heed the signals that end it, also below `nohup` and in the background."""
    for number in program.ENDING:
        signal.signal(number, signal.SIG_DFL)


def lines_of(path):
    """The lines of a file, once it has one."""
    limit = time.monotonic() + program.WAIT
    while time.monotonic() < limit:
        if os.path.exists(path) and os.path.getsize(path):
            with open(path, encoding="ascii") as file:
                return file.read().split()
        time.sleep(0.02)
    return []


def ends(process):
    """Whether a process is gone soon."""
    limit = time.monotonic() + 10
    while time.monotonic() < limit:
        try:
            with open(f"/proc/{process}/stat", encoding="utf-8", errors="replace") as file:
                if file.read().rpartition(")")[2].split()[0] == "Z":
                    return True
        except OSError:
            return True
        time.sleep(0.02)
    return False


def begins_group():
    """Has a process begin a group of its own and heed the signals that end it."""
    os.setpgrp()
    heeds()


def launched(copy, text):
    """The launcher of a copy with this text as its program and a terminal as standard error, and the terminal."""
    copy.write("crates/tiger_main/out/tiger_main", f"#!/bin/sh\n{text}\n")
    subprocess.run(["/bin/sh", "-c", '. tools/built.sh && record "$(sources_sum)"'], cwd=copy.top, check=True,
                   env={**os.environ, "PATH": copy.path})
    ours, theirs = pty.openpty()
    started = subprocess.Popen([os.path.join(copy.top, "tiger"), "make", "1"], cwd=copy.top, stdin=subprocess.DEVNULL,
                               stdout=subprocess.PIPE, stderr=theirs, preexec_fn=begins_group,
                               env={**os.environ, "PATH": copy.path})
    os.close(theirs)
    return started, ours


def on_a_terminal(folder):
    """A signal to the launcher alone ends the program too, and a program that a signal ends gives that signal's status
    with no word of the shell."""
    copy = launcher_checks.Copy(folder).build()
    begun = os.path.join(copy.top, "begun")
    for number in (signal.SIGTERM, signal.SIGHUP, signal.SIGKILL):
        started, ours = launched(copy, f"echo $$ >'{begun}'; exec sleep 600")
        process = lines_of(begun)[0]
        started.send_signal(number)
        got = program.ended(started, program.WAIT)
        good = got.status == -number and ends(int(process))
        yield f"{number.name} to the launcher", "" if good else f"status {got.status}, or the program goes on"
        os.remove(begun)
        os.close(ours)
    for number in (signal.SIGKILL, signal.SIGSEGV, signal.SIGXFSZ):
        started, ours = launched(copy, f"kill -{int(number)} $$")
        got = program.ended(started, program.WAIT)
        yield f"a program that ends by {number.name}", got.differs(Ended(-number, b"", b"")) + shown_on(ours)


def shown_on(ours):
    """What a terminal that nobody writes to any more has shown."""
    with os.fdopen(ours, "rb", 0) as screen:
        try:
            return screen.read(4096).decode()
        except OSError:
            return ""


def first_words(tiger, folder):
    """What the launcher answers before a build is what the program answers."""
    copy = launcher_checks.Copy(folder)
    with open(os.path.join(program.TOP, "crates/tiger_main/src/main.rt"), encoding="utf-8") as file:
        copy.write("crates/tiger_main/src/main.rt", file.read())
    for words in (["--help"], ["--version"], [], ["help"], ["--help", "x"], ["run", "gone", "1"], ["run", "", "1"],
                  ["run", "crates", "1"], ["journal", "gone"], ["journal", "gone", "1"],
                  ["check"], ["check", "gone"], ["check", ""], ["check", "crates"], ["check", "gone", "1"], ["check", b"\xff"],
                  ["journal", "gone", "0"], ["spare"], ["spare", "gone"], ["spare", "gone", "1"], ["spare", "gone", "65"],
                  ["spare", "crates", "1"], ["spare", b"\xff", "1"],
                  ["net"], ["net", "gone"], ["net", ""], ["net", "crates"], ["net", b"\xff"],
                  ["net", "gone", "1"], ["run", "gone", "65"], ["run", "gone", "01"], ["run", b"\xff", "1"],
                  ["make", "01"], ["make", "18446744073709551616"], ["make", "1", "1"],
                  ["disks"], ["disks", "gone"], ["disks", "gone", "image"], ["disks", "gone", "image", "--force"],
                  ["disks", "gone", "image", "force"], ["disks", "gone", "image", "--force", "--force"],
                  ["disks", "gone", "--force"], ["disks", "gone", ""], ["disks", "", "image"],
                  ["disks", "crates", "image"], ["disks", "crates", "image", "--force"], ["disks", b"\xff", "image"],
                  ["disks", "gone", b"\xff"], ["disks", "gone", "image", b"\xff"], ["--force", "gone", "image"]):
        wanted = program.run([tiger, *words], copy.top)
        for before in ([], ["--unproved"]):
            yield f"the launcher's first answer to {before + words}", copy.run(*before, *words).differs(wanted)
    yield "-h", copy.run("-h").differs(copy.run("--help"))
    yield "no build for a first answer", copy.holds("copied") + copy.holds("tries")
    yield "no image for a first answer", "there is one" if os.path.exists(os.path.join(copy.top, "image")) else ""


def all_of_them(tiger, folder):
    """Each check's name, and what it found; nothing if all is well. The folder has the examples and their files."""
    yield from wrong_words(folder)
    yield from no_program(folder)
    yield from nothing_to_try(tiger, folder)
    yield from interrupted(folder)
    yield from as_it_begins(folder)
    yield from leaves_nothing(folder)
    yield from tries_unproved(folder)
    yield from taken_by_another(folder)
    for number, check in enumerate((on_a_terminal, lambda at: first_words(tiger, at))):
        at = os.path.join(folder, f"launcher {number}")
        os.mkdir(at)
        yield from check(at)
