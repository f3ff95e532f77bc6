"""Checks of faults outside the program for tools/check-program: streams that are closed, full or read by nobody,
scenarios and plans that cannot be read or do not end, and workers for whom there is no thread or no memory; and of the
pieces in which a long output goes out. The status is the one of docs/formats.md, nothing is written on the wrong stream,
and no core is dumped."""
import concurrent.futures
import contextlib
import json
import os
import resource
import shutil
import socket
import subprocess

import program
import tool_checks
from program import Ended, refused

FAULT = refused(6, "write fault")
RUN, ABSENT = ["run", "one.json", "1"], ["run", "absent.json", "1"]
JOURNAL, NO_JOURNAL = ["journal", "one.json", "1"], ["journal", "absent.json", "1"]
SPARE, NO_SPARE = ["spare", "one.json", "1"], ["spare", "absent.json", "1"]
NET, NO_NET = ["net", "net.json"], ["net", "absent.json"]
DISKS, NO_DISKS = ["disks", "one.json", "image", "--force"], ["disks", "absent.json", "image", "--force"]
DISK_LINES = os.path.join(program.CASES, "disks", "one.stdout")
CHECK, NO_CHECK = ["check", "one.json"], ["check", "absent.json"]
AUDIT, NO_AUDIT = ["audit", "one.journal"], ["audit", "absent.json"]
UNSOUND = ["check", "unsound.json"]  # a plan with false conditions
CROWD = "long-report.json"  # a scenario with many cubs and viewers, for which 8 MiB are too few
WORKERS = ("2", "8", "64")
THREADS = (1, 3)  # how many threads a user may have, of whom one is the program's first
ROOMS = (8, 32, 128, 512)  # MiB of addresses that a run may have, of which its threads take some
PUT_MOST = 65536  # bytes of a put, unless a line has more
TOO_LONG = refused(8, "too long scenario given 4194305 most 4194304")
TOO_LONG_TEXT = refused(8, "too long scenario given 268435457 most 268435456")


def in_child(closed, is_nobody, limits):
    """Prepares a child: cores may be dumped, these of its streams are closed, it may be nobody, and it has these limits."""
    def prepare():
        most = resource.getrlimit(resource.RLIMIT_CORE)[1]
        resource.setrlimit(resource.RLIMIT_CORE, (most, most))
        for stream in closed:
            os.close(stream)
        if is_nobody:
            program.becomes_nobody()
        for what, most in limits:
            resource.setrlimit(what, (most, most))
    return prepare


def run(tiger, words, folder, out=None, err=None, closed=(), is_nobody=False, given=subprocess.DEVNULL, limits=()):
    """How the program ends if a stream is this file, where one is named, or is closed. What it writes on such a stream
    is not seen."""
    with contextlib.ExitStack() as stack:
        streams = [subprocess.PIPE if it is None else stack.enter_context(it) for it in (out, err)]
        return program.run([tiger, *words], folder, stdin=given, stdout=streams[0], stderr=streams[1],
                           preexec_fn=in_child(closed, is_nobody, limits))


def full():
    """A stream that takes nothing."""
    return open("/dev/full", "wb")


def read_only():
    """A stream that is open for reading alone."""
    return open(os.devnull, "rb")


def unread():
    """A pipe that nobody reads any more."""
    reads, writes = os.pipe()
    os.close(reads)
    return os.fdopen(writes, "wb")


def piped(tiger, words, folder, command):
    """How the program ends if standard input is a pipe into which a command writes."""
    writer = program.Interrupt.begin(command, cwd=folder, stdin=subprocess.DEVNULL, stdout=subprocess.PIPE,
                                     stderr=subprocess.DEVNULL)
    try:
        return run(tiger, words, folder, given=writer.stdout)
    finally:
        program.Interrupt.end(writer)


def streams(tiger, folder):
    """Faults of standard output and of standard error."""
    with open(os.path.join(folder, UNSOUND[1]), "wb") as file:
        file.write(content(folder, "one.json").replace(b'"play":1000000', b'"play":700000'))
    for what, words in (("run", RUN), ("made run", ["make", "0"]), ("journal", JOURNAL),
                        ("run in which disks may die", SPARE), ("plan", NET),
                        ("line of disks", DISKS), ("check", CHECK), ("check of a plan with false conditions", UNSOUND),
                        ("verdict", AUDIT),
                        ("usage", ["--help"]), ("version", ["--version"])):
        yield f"a {what} on a full disk", run(tiger, words, folder, out=full()), FAULT
        yield f"a {what} for a reader that is gone", run(tiger, words, folder, out=unread()), FAULT
        yield f"a {what} with no standard output", run(tiger, words, folder, closed=[1]), FAULT
    for words, absent, report in ((RUN, ABSENT, "one.stdout"), (JOURNAL, NO_JOURNAL, "one.journal"),
                                  (SPARE, NO_SPARE, "one.stdout"),
                                  (NET, NO_NET, "net.stdout"), (DISKS, NO_DISKS, DISK_LINES),
                                  (CHECK, NO_CHECK, "one.check"), (AUDIT, NO_AUDIT, "one.audit")):
        yield f"an output of {words} that is open for reading", run(tiger, words, folder, out=read_only()), FAULT
        yield f"{words} with neither input nor output", run(tiger, words, folder, closed=[0, 1]), FAULT
        yield f"{words} with no stream at all", run(tiger, words, folder, closed=[0, 1, 2]), Ended(6, b"", b"")
        yield f"{absent} with no standard output", run(tiger, absent, folder, closed=[1]), refused(3, "absent scenario")
        for given, wanted in ((words, Ended(0, content(folder, report), b"")), (absent, Ended(3, b"", b""))):
            yield f"{given} with no standard error", run(tiger, given, folder, closed=[2]), wanted
            yield f"{given} with output alone", run(tiger, given, folder, closed=[0, 2]), wanted
            yield f"{given} with a full standard error", run(tiger, given, folder, err=full()), wanted
        yield f"{words} with both streams full", run(tiger, words, folder, out=full(), err=full()), Ended(6, b"", b"")


def puts(tiger, folder):
    """What a long output of each command goes out in: whole lines, as many at a time as fit, and at least one."""
    tool_checks.put(folder, CROWD, tool_checks.crowd())
    with open(os.path.join(folder, "long-plan.json"), "w", encoding="ascii") as file:
        json.dump({"cubs": 3, "quanta": 4, "capacity": 1, "steps": 1,
                   "events": [{"step": 0, "at": 0, "rate": 1}] * 4000}, file)
    with open(os.path.join(folder, "long-spare.json"), "w", encoding="ascii") as file:
        json.dump({**tool_checks.crowd(), "deaths": []}, file)
    for words in (["run", CROWD, "1"], ["journal", CROWD, "1"], ["spare", "long-spare.json", "1"],
                  ["net", "long-plan.json"]):
        yield f"the puts of {words}", fault_of(*put(tiger, words, folder))


def put(tiger, words, folder):
    """How the program ends, and each piece that it writes on standard output: a socket of packets keeps them apart."""
    ours, theirs = socket.socketpair(socket.AF_UNIX, socket.SOCK_SEQPACKET)
    with ours, concurrent.futures.ThreadPoolExecutor(1) as pool:
        pieces = pool.submit(lambda: list(iter(lambda: ours.recv(1 << 20), b"")))
        return run(tiger, words, folder, out=theirs), pieces.result()


def fault_of(ended, pieces):
    """What is wrong with a long output in pieces; nothing if each has whole lines, and no more would have fit."""
    if ended.differs(Ended(0, b"", b"")) or len(pieces) < 2:
        return f"status {ended.status}, {len(pieces)} puts"
    if any(len(piece) > PUT_MOST or not piece.endswith(b"\n") for piece in pieces):
        return "a put has more bytes than may be, or part of a line"
    has_room = any(len(piece) + later.index(b"\n") + 1 <= PUT_MOST for piece, later in zip(pieces, pieces[1:]))
    return "a put has fewer lines than fit" if has_room else ""


def content(folder, name):
    """The bytes of a file of a folder, or of one with a whole path."""
    with open(os.path.join(folder, name), "rb") as file:
        return file.read()


def inputs(tiger, folder):
    """Scenarios, plans and files that cannot be read, and some that do not end."""
    os.chmod(folder, 0o755)
    tiger, scenario = shutil.copy(tiger, folder), content(folder, "one.json")  # nobody may not get at the first one
    for name, command in (("secret.json", RUN), ("secret-spare.json", SPARE), ("secret-net.json", NET),
                          ("secret-disks.json", DISKS), ("secret-check.json", CHECK), ("secret-audit.json", AUDIT)):
        with open(os.path.join(folder, name), "wb") as file:
            file.write(content(folder, command[1]))
        os.chmod(file.name, 0)
        got = run(tiger, [command[0], name, *command[2:]], folder, is_nobody=True)
        yield f"a secret file for {command[0]}", got, refused(4, "read fault scenario")
    for name, path, wanted in (("secret", "secret.json", refused(4, "read fault file 0")),
                               ("endless", "/dev/zero", refused(8, "too long file 0 given 16777217 most 16777216")),
                               ("below-a-file", "one.json/x", refused(4, "read fault file 0"))):
        with open(os.path.join(folder, f"{name}-file.json"), "wb") as file:
            file.write(scenario.replace(b'"ten"', b'"%s"' % path.encode()))
        for command in (RUN, SPARE, DISKS, CHECK):
            words = [command[0], f"{name}-file.json", *command[2:]]
            yield f"the file {path} for {command[0]}", run(tiger, words, folder, is_nobody=True), wanted
    no_scenario = refused(5, "scenario rule 1 item 0 left 0 right 0")
    for command, no_json, report in ((RUN, no_scenario, "one.stdout"), (JOURNAL, no_scenario, "one.journal"),
                                     (SPARE, no_scenario, "one.stdout"),
                                     (NET, refused(13, "net rule 1"), "net.stdout"), (DISKS, no_scenario, DISK_LINES),
                                     (CHECK, no_scenario, "one.check"),
                                     (AUDIT, refused(10, "journal line 1"), "one.audit")):
        name, behind = command[0], command[2:]
        too_long = TOO_LONG_TEXT if command is AUDIT else TOO_LONG
        for path, wanted in (("/dev/zero", too_long), ("/proc/self/mem", refused(4, "read fault scenario")),
                             ("/dev/null", no_json)):
            yield f"{name} {path}", run(tiger, [name, path, *behind], folder), wanted
        words = [name, "/dev/stdin", *behind]
        yield f"{name} of a pipe that does not end", piped(tiger, words, folder, ["cat", "/dev/zero"]), too_long
        whole = Ended(0, content(folder, report), b"")
        yield f"{name} of a pipe", piped(tiger, words, folder, ["cat", command[1]]), whole


def workers(tiger, folder):
    """What is wrong where no thread can be made for workers, or there is hardly any memory for their threads: a run goes on
    with those that it has, and is whole or ends for want of memory."""
    os.chmod(folder, 0o755)
    limited = shutil.copy(tiger, folder)  # a limit of threads counts for nobody, who may not get at the first one
    tool_checks.put(folder, CROWD, tool_checks.crowd())
    whole, none = run(tiger, ["run", CROWD, "1"], folder), refused(7, "no memory")
    yield "a run for each worker below", "" if program.is_answer(whole) else f"status {whole.status}"
    for words in (["run", CROWD, count] for count in WORKERS):
        for most in THREADS:
            got = run(limited, words, folder, is_nobody=True, limits=[(resource.RLIMIT_NPROC, most)])
            yield f"{words} with threads up to {most}", got.differs(whole)
        for most in ROOMS:
            got = run(tiger, words, folder, limits=[(resource.RLIMIT_AS, most << 20)])
            may_be_whole = got.status == 0 and most > ROOMS[0]
            yield f"{words} with {most} MiB", got.differs(whole if may_be_whole else none)


def all_of_them(tiger, folder):
    """Each check's name, and what it found; nothing if all is well. The folder has the examples and their files."""
    for name, got, wanted in [*streams(tiger, folder), *inputs(tiger, folder)]:
        yield name, got.differs(wanted)
    yield from puts(tiger, folder)
    yield from workers(tiger, folder)
    yield "cores", ", ".join(name for name in os.listdir(folder) if name.startswith("core"))
