"""What the tools of this folder share: their words and how they end, the built program, the reference simulator, and
runs of either.

A tool fails if it tried nothing. A word that is wrong is one line on standard error and status 64. SIGINT, SIGTERM and
SIGHUP end a tool and what it runs, with what was found so far and 128 and the signal's number as status.

Python 3.8 or later, and nothing but its standard library.
"""
import argparse
import concurrent.futures
import contextlib
import math
import os
import re
import signal
import subprocess
import sys
import threading
import time

TOP = os.path.dirname(os.path.dirname(os.path.realpath(__file__)))
LAUNCHER = os.path.join(TOP, "tiger")
BUILD = os.path.join(TOP, "tools", "build")
PROGRAM = os.path.join(TOP, "crates", "tiger_main", "out", "tiger_main")
CASES = os.path.join(TOP, "conformance")
WAIT = 300  # seconds after which a run counts as hung, unless --wait gives others
MOST_WAIT = 999999  # seconds that may be given so
WAKE = 0.1  # seconds that the main thread has to take a signal, before it is sent again
ENDING = (signal.SIGINT, signal.SIGTERM, signal.SIGHUP)  # the signals that end a tool

NOBODY = 65534
WRONG_WORD = 64
NO_REFERENCE = 69
NO_PROGRAM = 70
MOST_WORKERS = 64
TOTAL = re.compile(rb"^total starts \d+ placed \d+ whole \d+ pieces \d+ missing \d+\n(?:report [^\n]*\n)?\Z",
                   re.M)  # how the output of a run ends
PEAK = re.compile(rb"^peak \d+ at \d+\n\Z", re.M)  # how the output of a network's schedule ends
END = re.compile(rb"^end\n\Z", re.M)  # how the journals of a run end
DISK = re.compile(rb"^disk \d+ parts \d+ bytes \d+\n\Z", re.M)  # how the lines of a scenario's disks end
SAID = re.compile(rb"\Ascenario cubs \d+ slots \d+ starts \d+ beats \d+ memory \d+\n(?:warning [^\n]+\n)*\Z")  # of a scenario
YES = re.compile(rb"\Aaudit yes\nentries \d+ puts \d+ stops \d+ deaths \d+ blocks \d+ pieces \d+"
                 rb" settled \d+ read \d+ piece \d+ dead \d+ stopped \d+\n\Z")  # of a kept run
CONDITIONS = re.compile(rb"\A(?:condition \d+ left \d+ right \d+ needs [^\n]+\n)+\Z")  # of a plan, by `check`
LAST = {"run": TOTAL, "make": TOTAL, "net": PEAK, "journal": END, "spare": TOTAL, "disks": DISK, "check": SAID,
        "audit": YES}  # of each command
REFUSALS = (2, 3, 4, 5, 8, 13)  # the statuses of runs that write nothing but one line on standard error
IMAGES = (11, 12, 14)  # those of `disks` that do so besides: the device, a damaged part, an image that exists
AUDITS = (9, 10)  # those of `audit`: a broken clause, which has a second line for its place, and a text that is none


class Ended:
    """How one run ended: its exit status, what it wrote on standard output, and on standard error."""

    def __init__(self, status, out, err):
        self.status, self.out, self.err = status, out, err

    def differs(self, other):
        """What differs from the run that was wanted, in one line; nothing where they are alike."""
        found = []
        if self.status != other.status:
            found.append(f"status {self.status} for {other.status}")
        if self.err != other.err:
            found.append(f"'{first_line(self.err)}' for '{first_line(other.err)}' on standard error")
        if self.out != other.out:
            found.append(where_differ(self.out, other.out))
        return ", ".join(found)


def becomes_nobody():
    """Makes the superuser's process one of nobody, for whom permissions count."""
    if os.geteuid() == 0:
        os.setgroups([])
        os.setuid(NOBODY)


def refused(status, line):
    """A run that writes nothing but one line on standard error."""
    return Ended(status, b"", f"tiger: {line}\n".encode())


def first_line(text):
    """The first line of some bytes, as text."""
    return text.split(b"\n", 1)[0].decode(errors="replace")


def where_differ(got, wanted):
    """The first line in which two outputs differ."""
    ours, theirs = got.split(b"\n"), wanted.split(b"\n")
    for number, (mine, other) in enumerate(zip(ours, theirs), 1):
        if mine != other:
            return f"line {number} is '{mine.decode(errors='replace')}' for '{other.decode(errors='replace')}'"
    return f"{len(ours) - 1} lines for {len(theirs) - 1}"


class Interrupt:
    """The signals that end a tool: the first one kills what runs and lets no other process begin, and those after it
    change nothing. It is raised at once if it is not held back, and else where a process ends or begins."""

    lock, running, held, starting, came = threading.RLock(), set(), 0, 0, 0

    @classmethod
    def handle(cls, number, _):
        """Takes a signal."""
        if cls.came:
            return
        cls.came = number
        with cls.lock:  # (which another thread has until the process that it starts is known)
            is_starting = cls.starting
            for process in cls.running:
                kill(process)
        if not cls.held and not is_starting:
            raise KeyboardInterrupt

    @classmethod
    @contextlib.contextmanager
    def starts(cls):
        """Has a signal wait until a process that begins is known, so that it is not left: it is raised at the end."""
        with cls.lock:
            cls.starting += 1
            try:
                if cls.came:
                    raise KeyboardInterrupt
                yield
            finally:
                cls.starting -= 1
        if cls.came:
            raise KeyboardInterrupt

    @classmethod
    def begin(cls, command, **how):
        """Starts a process, which has a group of its own with all that it starts. A tool's signals are taken by then, as
        `finish` has it: one that comes before it is known kills it as soon as it is."""
        begun = []
        try:
            with cls.starts():
                begun.append(subprocess.Popen(command, start_new_session=True, **how))
                cls.running.add(begun[0])
        except KeyboardInterrupt:
            for process in begun:
                cls.end(process)
            raise
        return begun[0]

    @classmethod
    def end(cls, process):
        """Kills a process with its group, waits for it, and forgets it."""
        kill(process)
        with process:
            pass
        with cls.lock:
            cls.running.discard(process)

    @classmethod
    @contextlib.contextmanager
    def held_back(cls):
        """Has what was found told at the end, if a signal comes."""
        cls.held += 1
        try:
            yield
        except KeyboardInterrupt:
            if not cls.came:
                raise
        finally:
            cls.held -= 1


def kill(process):
    """Kills a process and its group, if it has one of its own: what it started and left there too, also if it has ended."""
    try:
        os.killpg(process.pid, signal.SIGKILL)
    except ProcessLookupError:
        process.kill()  # (which does nothing if it has ended)


def run(command, folder, is_limited=True, **how):
    """Runs a command in a folder."""
    streams = {"stdin": subprocess.DEVNULL, "stdout": subprocess.PIPE, "stderr": subprocess.PIPE, **how}
    try:
        process = Interrupt.begin(command, cwd=folder, **streams)
    except OSError as error:
        return Ended("none", b"", f"{command[0]} does not start: {error.strerror}\n".encode(errors="replace"))
    return ended(process, WAIT if is_limited else None)


def ended(process, seconds):
    """How a process ends; one that does not end in so many seconds, if a limit is given, is killed: it hung. What it
    started and left is killed too."""
    try:
        out, err = process.communicate(timeout=seconds)
        found = Ended(process.returncode, out or b"", err or b"")
    except subprocess.TimeoutExpired:
        found = Ended("none", b"", f"no answer in {seconds} seconds\n".encode())
    finally:
        Interrupt.end(process)
    if Interrupt.came:
        raise KeyboardInterrupt
    return found


def is_answer(one, last=TOTAL):
    """Whether a run ended as the program may: with a report that ends so and status 0, or with the line of a refusal
    and its status, behind the false conditions of a plan that is checked."""
    if one.status == 0:
        return last.search(one.out) is not None and one.err == b""
    statuses = REFUSALS + {DISK: IMAGES, YES: AUDITS}.get(last, ())
    says_all = last is SAID and one.err.startswith(b"tiger: scenario rule 4 ")
    is_silent = CONDITIONS.search(one.out) is not None if says_all else one.out == b""
    place = rb"(?:tiger: at [^\n]+\n)?" if one.status == AUDITS[0] else rb""
    return one.status in statuses and is_silent and re.fullmatch(rb"tiger: [^\n]+\n" + place, one.err) is not None


def in_turn(work, items, jobs):
    """What comes of the work on each item, in their order, with so many at a time, until SIGINT comes."""
    with Interrupt.held_back(), concurrent.futures.ThreadPoolExecutor(jobs) as pool:
        yield from pool.map(work, items)


def status_of(tried, failed):
    """The status of a tool that tried so many and found so many failed."""
    return 128 + Interrupt.came if Interrupt.came else 1 if failed or not tried else 0


def heed_signals():
    """Has the signals that end a tool taken, from before its first process begins, and a signal that no thread wakes for
    sent again."""
    for number in ENDING:
        if signal.getsignal(number) is not signal.SIG_IGN:
            signal.signal(number, Interrupt.handle)
    told, tell = os.pipe()
    os.set_blocking(tell, False)
    signal.set_wakeup_fd(tell, warn_on_full_buffer=False)
    threading.Thread(target=wake_main, args=(told,), daemon=True).start()


def wake_main(told):
    """Sends the main thread a signal that ends the tool until it is taken. Python only notes a signal: if the main thread
    begins a wait just then, or if another thread gets it, the main thread waits on as if none had come."""
    number = None
    while number not in ENDING:  # (a tool may have others, as an alarm)
        number = os.read(told, 1)[0]
    while not Interrupt.came:
        time.sleep(WAKE)
        signal.pthread_kill(threading.main_thread().ident, number)


def finish(main):
    """Does a tool's work, and ends with its status, or by a signal that came: also if it came when the work was done."""
    try:
        heed_signals()
        status = worked(main)
        Interrupt.held += 1  # (what is left is short, and is not cut off)
    except KeyboardInterrupt:
        status = 1
    sys.exit(128 + Interrupt.came if Interrupt.came else status)


def worked(main):
    """The status of a tool's work; 1 if it cannot write or read what it needs, and says so in one line."""
    if sys.stderr is None:  # (the stream is closed, and what is said there is lost)
        sys.stderr = open(os.devnull, "w", encoding="utf-8")
    try:
        if sys.stdout is None:
            raise OSError("standard output is closed")
        status = main()
        sys.stdout.flush()
        return status
    except OSError as error:
        # (what is still to be written there would be tried once more at the end)
        os.dup2(os.open(os.devnull, os.O_WRONLY), 1)
        print(f"{os.path.basename(sys.argv[0])}: {error}", file=sys.stderr)
        return 1


def built(starts=Interrupt.starts):
    """The path of the built program; it is built first if it is not built from what stands here. A signal ends the build
    too: one that comes as it begins waits in `starts` until it is known."""
    building = []
    try:
        with starts():
            building.append(subprocess.Popen([sys.executable, BUILD], stdin=subprocess.DEVNULL))
        status = building[0].wait()
    except BaseException:
        for process in building:
            process.terminate()
            process.wait()
        raise
    if status != 0:
        print("the program could not be built", file=sys.stderr)
        sys.exit(NO_PROGRAM)
    return PROGRAM


class Reader(argparse.ArgumentParser):
    """A reader of words that says in one line which word is wrong."""

    def error(self, message):
        """Ends with the line."""
        self.exit(WRONG_WORD, f"{self.prog}: {' '.join(message.split())}\n")


def count(text):
    """The number of a word, which is 1 or more."""
    if not (text.isascii() and text.isdecimal() and int(text) >= 1):
        raise argparse.ArgumentTypeError(f"'{text}' is no number from 1 on")
    return int(text)


def waiting(text):
    """How many seconds a tool waits for a run."""
    if len(text) > len(str(MOST_WAIT)) or count(text) > MOST_WAIT:
        raise argparse.ArgumentTypeError(f"'{text}' is no number from 1 to {MOST_WAIT}")
    return int(text)


def workers(text):
    """A number of workers."""
    if count(text) > MOST_WORKERS:
        raise argparse.ArgumentTypeError(f"'{text}' is no number from 1 to {MOST_WORKERS}")
    return int(text)


def minutes(text):
    """A time in minutes, which is not 0."""
    number = float(text)
    if not (math.isfinite(number) and number > 0):
        raise argparse.ArgumentTypeError(f"'{text}' is no time above 0")
    return number


def executable(text):
    """The whole path of a program."""
    if not (os.path.isfile(text) and os.access(text, os.X_OK)):
        raise argparse.ArgumentTypeError(f"'{text}' is no program that is there")
    return os.path.abspath(text)


def folder(text):
    """The whole path of a folder that is there."""
    if not os.path.isdir(text):
        raise argparse.ArgumentTypeError(f"'{text}' is no folder that is there")
    return os.path.abspath(text)


def words_alone(doc):
    """A reader of words, with none but --help."""
    return Reader(description=doc, formatter_class=argparse.RawDescriptionHelpFormatter)


def words(doc):
    """A reader of words with the options that all tools have that run the program."""
    reader = words_alone(doc)
    reader.add_argument("--program", metavar="PATH", type=executable, help="run this in place of the built program")
    with_wait(reader)
    return reader


def with_wait(reader):
    """Adds the option that says how long a tool waits for the program, in each of its runs."""
    reader.add_argument("--wait", metavar="S", type=waiting, default=WAIT,
                        help="the seconds after which a run counts as hung, and is killed (%(default)s)")


def with_jobs(reader, what):
    """Adds the option that says how many of something run at a time."""
    reader.add_argument("--jobs", type=count, default=os.cpu_count(), help=f"how many {what} run at a time")


def with_reference(reader):
    """Adds the option that names the reference simulator."""
    reader.add_argument("--reference", metavar="PATH", type=executable,
                        help="the reference simulator; else the environment's TIGER_REFERENCE names it")


def program_of(given):
    """The program that was asked for, else the built one."""
    global WAIT
    WAIT = given.wait
    return given.program or built()


def reference_of(given):
    """The reference simulator's path; None if it is not there."""
    path = given.reference or os.path.abspath(os.environ.get("TIGER_REFERENCE") or os.devnull)
    return path if os.access(path, os.X_OK) and os.path.isfile(path) else None
