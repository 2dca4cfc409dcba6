"""Runs the built program in a folder of its own, one run at a time, and tells how it ended and what it left. For
tests/mutate.py."""

import os
import signal
import typing

from pages.kept_jobs import BESIDE, NAME, read_jobs, write_jobs

OLD_LOG = b"what stood in the log before\n"
LONGEST_WAIT = 120
OWN = (NAME, BESIDE, "said", "said-else")


class End(typing.NamedTuple):
    """How a run ended: what it was given, its status (negative where a signal ended it), and what is there now."""

    words: list
    given: dict
    kept: typing.Any
    status: int
    printed: bytes
    told: bytes
    seconds: float
    files: dict
    jobs: typing.Any


class Place:
    """A folder in which the program runs."""

    def __init__(self, folder, program):
        self.folder, self.program = folder, str(program)
        os.chdir(folder)
        signal.signal(signal.SIGALRM, self.stop)
        self.running = None

    def stop(self, *_):
        if self.running is not None:
            os.kill(self.running, signal.SIGKILL)

    def clear(self):
        for name in os.listdir(self.folder):
            os.unlink(os.path.join(self.folder, name))

    def run(self, words, files, jobs=None, also=(), spoil=None):
        """One run over these files and an old LOG; with these jobs in the job file, after these statements, and after the file
        was spoilt by a function of the folder. Without jobs there is no job file."""
        self.clear()
        given = {"LOG": OLD_LOG, **files}
        for name, data in given.items():
            with open(os.path.join(self.folder, name), "wb") as file:
                file.write(data)
        if jobs is not None:
            write_jobs(self.folder, jobs, also)
        if spoil is not None:
            spoil(self.folder)
        kept = read_jobs(self.folder) if jobs is not None else ({}, True)
        status, seconds = self.spawn(words)
        left = self.left()
        printed, told = left.pop("said"), left.pop("said-else")
        after = read_jobs(self.folder) if jobs is not None or NAME in os.listdir(self.folder) else ({}, True)
        return End(words, given, kept, status, printed, told, seconds, left, after)

    def spawn(self, words):
        new = os.O_WRONLY | os.O_CREAT | os.O_TRUNC
        actions = [(os.POSIX_SPAWN_OPEN, number, name, new, 0o600) for number, name in ((1, "said"), (2, "said-else"))]
        self.running = os.posix_spawn(self.program, [self.program, *words], {}, file_actions=actions)
        signal.alarm(LONGEST_WAIT)
        _, status, used = os.wait4(self.running, 0)
        signal.alarm(0)
        self.running = None
        return os.waitstatus_to_exitcode(status), used.ru_utime + used.ru_stime

    def left(self):
        """The files that are there, but for the job file."""
        found = {}
        for name in os.listdir(self.folder):
            if name not in (NAME, BESIDE):
                with open(os.path.join(self.folder, name), "rb") as file:
                    found[name] = file.read()
        return found
