"""What tools/build and tools/unproved share: where the program lies, lines on standard error, and commands that end
with their caller.

Python 3.8 or later, and nothing but its standard library.
"""
import contextlib
import os
import select
import shutil
import signal
import subprocess
import tempfile
import time

TOP = os.path.dirname(os.path.dirname(os.path.realpath(__file__)))
CRATE = os.path.join(TOP, "crates", "tiger_main")
PROGRAM = os.path.join(CRATE, "out", "tiger_main")

NOT_BUILT = 70
NO_ANSWER = 71
ENDING = (signal.SIGHUP, signal.SIGINT, signal.SIGQUIT, signal.SIGTERM)
PATIENCE = 5  # seconds that a command has to end by itself


class Stopped(BaseException):
    """A signal that ends this process. Those behind it change nothing, so that the clean-up goes to its end."""

    has_come = False

    def __init__(self, number):
        super().__init__(number)
        self.number = number


class Failed(Exception):
    """Why the program cannot run, in one line, with the exit status that says so."""

    def __init__(self, line, status=NOT_BUILT):
        super().__init__(line)
        self.line, self.status = line, status


def say(text):
    """Writes one line on standard error, if that can be written."""
    write_error(f"tiger: {text}\n")


def write_error(text):
    """Writes on standard error, if that can be written."""
    written(2, text.encode(errors="surrogateescape"))


def written(stream, content):
    """Writes bytes to a stream, and gives whether all were written."""
    try:
        while content:
            content = content[os.write(stream, content):]
        return True
    except OSError:
        return False


def needs_rt():
    """Fails if `rt` is not on the path."""
    if not shutil.which("rt"):
        raise Failed("rt is not on the path, and it is needed to build or to try the program")


class Command:
    """A command with no input, in a process group of its own, and with these variables; what it writes is read here."""

    running = None

    def __init__(self, words, folder, errors=subprocess.STDOUT, **variables):
        # What the environment may ask of rt, as another compiler, is not for this build.
        environment = {key: value for key, value in os.environ.items() if not key.startswith("RT_")}
        environment.update(variables, PYTHONUNBUFFERED="1")
        how = {"env": environment, "stdin": subprocess.DEVNULL, "stdout": subprocess.PIPE}
        signal.pthread_sigmask(signal.SIG_BLOCK, ENDING)
        try:
            self.process = subprocess.Popen(words, cwd=folder, stderr=errors, preexec_fn=own_group, **how)
            Command.running = self
        except OSError as error:
            raise Failed(f"{words[0]} does not start ({error.strerror})")
        finally:
            signal.pthread_sigmask(signal.SIG_UNBLOCK, ENDING)

    def lines(self, patience):
        """Each line that the command writes, and None after each silence of so many seconds as `patience` gives."""
        rest = b""
        while True:
            if not select.select([self.process.stdout], [], [], patience())[0]:
                yield None
                continue
            got = os.read(self.process.stdout.fileno(), 1 << 16)
            if not got:
                break
            *whole, rest = (rest + got).split(b"\n")
            for line in whole:
                yield line.decode(errors="replace")
        if rest:
            yield rest.decode(errors="replace")

    def wait(self):
        """The command's exit status."""
        status = self.process.wait()
        Command.running = None
        return status

    def end(self):
        """Ends the command and all that it started."""
        self.signal(signal.SIGTERM)
        self.signal(signal.SIGCONT)
        limit = time.monotonic() + PATIENCE
        while self.process.poll() is None and time.monotonic() < limit:
            time.sleep(0.02)
        self.signal(signal.SIGKILL)
        self.process.wait()
        Command.running = None

    def signal(self, number):
        """Sends a signal to the command and to what it started."""
        try:
            os.killpg(self.process.pid, number)
        except OSError:
            pass


def own_group():
    """Puts a new process into a group of its own, and lets it get signals."""
    os.setpgid(0, 0)
    signal.pthread_sigmask(signal.SIG_UNBLOCK, ENDING)


def stop(number, _):
    """Takes a signal."""
    if not Stopped.has_come:
        Stopped.has_come = True
        raise Stopped(number)


def pause(*_):
    """Stops this process and the command with it, as Ctrl-Z asks, until both are to go on."""
    if Command.running:
        Command.running.signal(signal.SIGTSTP)
    os.kill(os.getpid(), signal.SIGSTOP)
    if Command.running:
        Command.running.signal(signal.SIGCONT)


def main(work, words):
    """Does the work on these words, and gives its status. A signal ends what it started, and then this process by that
    signal."""
    # (a stream that is closed would lend its number to the next file that is opened; this one refuses each write)
    for stream in range(3):
        try:
            os.fstat(stream)
        except OSError:
            os.open(os.devnull, os.O_RDONLY)
    for number in ENDING:
        if signal.getsignal(number) is not signal.SIG_IGN:
            signal.signal(number, stop)
    if signal.getsignal(signal.SIGTSTP) is signal.SIG_DFL:
        signal.signal(signal.SIGTSTP, pause)
    try:
        return work(words)
    except Failed as why:
        say(why.line)
        return why.status
    except OSError as error:
        say(str(error))
        return NOT_BUILT
    except Stopped as why:
        if Command.running:
            Command.running.end()
        say(f"stopped by {signal.Signals(why.number).name}")
        signal.signal(why.number, signal.SIG_DFL)
        os.kill(os.getpid(), why.number)


@contextlib.contextmanager
def folder_for_now():
    """A folder that is removed at the end, when what runs in it has been ended."""
    signal.pthread_sigmask(signal.SIG_BLOCK, ENDING)
    room = tempfile.mkdtemp(prefix="tiger-")
    try:
        signal.pthread_sigmask(signal.SIG_UNBLOCK, ENDING)
        yield room
    finally:
        if Command.running:
            Command.running.end()
        # (a check that has just been ended may still have written a file)
        while os.path.exists(room):
            shutil.rmtree(room, ignore_errors=True)


def run_program(words, program=PROGRAM):
    """Runs a program in this process's place."""
    # Python ignores these two, and the program would inherit that.
    for number in (signal.SIGPIPE, signal.SIGXFSZ):
        signal.signal(number, signal.SIG_DFL)
    os.execv(program, [program, *words])
