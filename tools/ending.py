"""How the tools for users read their words, run the program and end: wrong words get one line and status 64, a signal
ends a tool and what it runs, quietly, and an output that cannot be written is said in one line."""
import argparse
import contextlib
import os
import signal
import subprocess
import sys
import threading

import program
from reports import Unfit

FAILED = 1
WRONG_WORDS = 64
AS_IT_STANDS = argparse.RawDescriptionHelpFormatter
HUNG = "hung"  # the status of a run that was not over in time
GRACE = 5  # seconds in which what is to end may do so by itself
STATUSES = range(2, 9)  # those with which the program ends without a report, or with a part of one


class Stopped(BaseException):
    """A signal came that ends the tool."""

    def __init__(self, number):
        super().__init__(number)
        self.number = number


class Held:
    """The signal that came while the tool's first thread begins a process: it counts once that one is known, so that
    it ends too."""

    is_on, came = False, None

    @classmethod
    @contextlib.contextmanager
    def starts(cls):
        """Holds signals back, and lets the one go that came."""
        is_first = threading.current_thread() is threading.main_thread()
        cls.is_on = cls.is_on or is_first
        try:
            yield
        finally:
            cls.is_on = cls.is_on and not is_first
        if is_first and cls.came:
            raise Stopped(cls.came)


class Words(argparse.ArgumentParser):
    """A reader of words that says in one line what is wrong with them."""

    def error(self, message):
        say(self.prog, message)
        sys.exit(WRONG_WORDS)


def words(doc):
    """A reader of words with the option of all tools that run the program."""
    reader = Words(description=doc, formatter_class=AS_IT_STANDS)
    reader.add_argument("--program", metavar="PATH", help="run this in place of the built program")
    return reader


def words_of_run(doc):
    """A reader of words with the options of all tools that show one run: the program or a kept report, and a limit."""
    reader = words(doc)
    reader.add_argument("--report", metavar="FILE", help="take this report, and run no program")
    program.with_wait(reader)
    reader.add_argument("scenario", metavar="SCENARIO")
    return reader


def say(tool, message):
    """Writes one line on standard error; it is lost if that is closed."""
    try:
        print(f"{tool}: {' '.join(str(message).split())}", file=sys.stderr, flush=True)
    except OSError:
        pass


def program_of(given):
    """The program that was asked for, else the built one. A signal ends the build too."""
    if given.program and not (os.path.isfile(given.program) and os.access(given.program, os.X_OK)):
        raise Unfit(f"{given.program} cannot be run")
    given.program = given.program and os.path.abspath(given.program)
    return given.program or program.built(Held.starts)


def positive(text):
    """A whole number from 1 to 999999999."""
    if not (text.isdecimal() and text.isascii()) or not 1 <= int(text[:10]) <= 999999999:
        raise ValueError
    return int(text)


def ended_of(command, seconds):
    """How a command ends; after so many seconds it is hung. If it hangs or a signal comes, what it started ends too."""
    begun = []
    try:
        with Held.starts():
            begun.append(subprocess.Popen(command, stdin=subprocess.DEVNULL, stdout=subprocess.PIPE,
                                          stderr=subprocess.PIPE, start_new_session=True))
        out, err = begun[0].communicate(timeout=seconds)
        return program.Ended(begun[0].returncode, out, err)
    except subprocess.TimeoutExpired:
        return program.Ended(HUNG, b"", f"no answer in {seconds} seconds\n".encode())
    except OSError as why:
        raise Unfit(f"{command[0]} cannot be run: {why.strerror}")
    finally:
        for ran in begun:
            end(ran)


def end(ran):
    """Ends a process, if it has not ended: by SIGTERM, since what it is may have to end more. Then it ends what is left of
    its group, by SIGKILL."""
    if ran.returncode is None:
        ran.terminate()
        with contextlib.suppress(subprocess.TimeoutExpired):
            ran.wait(GRACE)
    program.kill(ran)
    with ran:
        pass


def how(status):
    """How a run ended that ended neither with a report nor with a refusal, in words."""
    if status == HUNG:
        return "it hung"
    return f"signal {-status}" if status < 0 else f"status {status}"


def line_of(ended):
    """The line of the program if a run ended with one of its statuses and its line; else nothing."""
    line = ended.err.decode(errors="replace")
    is_line = line.startswith("tiger: ") and line.endswith("\n") and line.count("\n") == 1
    return line[:-1] if ended.status in STATUSES and is_line else ""


def report_of(given):
    """The report of the run that the words name: the kept one, or that of a run of the program; a refusal is handed
    on."""
    if given.report is not None:
        return content(given.report)
    tiger = program_of(given)
    ended = ended_of([tiger, "run", given.scenario, "1"], given.wait)
    if ended.status == 0:
        return ended.out
    line = line_of(ended)
    if not line:
        raise Unfit(f"{tiger} ended without a report: {how(ended.status)}")
    print(line, file=sys.stderr)
    sys.exit(ended.status)


def content(path):
    """The bytes of a file."""
    try:
        with open(path, "rb") as file:
            return file.read()
    except OSError as why:
        raise Unfit(f"{path}: {why.strerror}")


def put(path, text):
    """Writes a text into a file, as bytes."""
    try:
        with open(path, "wb") as file:
            file.write(text if isinstance(text, bytes) else text.encode())
    except OSError as why:
        raise Unfit(f"{path}: {why.strerror}")


def make_folder(path):
    """Makes a folder, if it is not there."""
    try:
        os.makedirs(path, exist_ok=True)
    except OSError as why:
        raise Unfit(f"{path}: {why.strerror}")


def write(text):
    """Writes a text on standard output at once."""
    try:
        sys.stdout.buffer.write(text.encode())
        sys.stdout.buffer.flush()
    except OSError as why:
        os.dup2(os.open(os.devnull, os.O_WRONLY), 1)  # else Python would try again at its end, and say so
        raise Unfit(f"standard output: {why.strerror}")


def run(tool, work):
    """Does the work of a tool, and ends with the status that it gives."""
    try:
        for number in program.ENDING:
            if signal.getsignal(number) != signal.SIG_IGN:
                signal.signal(number, stop)
        sys.exit(work())
    except Unfit as why:
        say(tool, why)
        sys.exit(FAILED)
    except Stopped as why:
        signal.signal(why.number, signal.SIG_DFL)
        os.kill(os.getpid(), why.number)


def stop(number, _):
    """Ends the tool by a signal: the first one counts, and those behind it are of no use."""
    for other in program.ENDING:
        signal.signal(other, signal.SIG_IGN)
    if not Held.is_on:
        raise Stopped(number)
    Held.came = number
