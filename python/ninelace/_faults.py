"""What calls raise: one exception for each code that is neither done, no selection nor unfinished."""

from typing import Tuple

from . import _library as library


class NinelaceError(Exception):
    """A call that was refused.

    `code` is its code, `line` the fault line without its end, and `words` the words of that after `fault`: first `input`, `limit`,
    `saved`, `check` or `settle`, then mostly the file, the fault and its fields. docs/FORMATS.md, 'Fault lines', says when each comes.
    """

    def __init__(self, code: int, printed: bytes):
        self.code = code
        self.line = printed.decode("ascii", "backslashreplace").rstrip("\n")
        self.words: Tuple[str, ...] = tuple(self.line.split(" ")[1:])
        super().__init__(self.line or self.__doc__)

    @property
    def file(self) -> str:
        """What the line names after its kind: `wallet`, `blocks`, `book`, `request`, `bump`, `plan`, `tx`, or a rule."""
        return self.words[1] if len(self.words) > 1 else ""

    @property
    def fault(self) -> Tuple[str, ...]:
        """The fault's name and its fields: its place or index, its coin, or its member's name."""
        return self.words[2:]


class WrongNumbers(NinelaceError):
    """The number or the count of a workload is out of range (code 2)."""


class InputRefused(NinelaceError):
    """A rule of the wallet, the blocks, the request or the transaction is broken (code 3)."""


class OutOfMemory(NinelaceError, MemoryError):
    """There was not enough memory (code 7)."""


class JobRefused(NinelaceError):
    """The kept job isn't one of these files, or was changed (code 8)."""


class LimitExceeded(NinelaceError):
    """A limit is exceeded (code 9)."""


class ReportRefused(NinelaceError):
    """The report or its log isn't accepted (code 12)."""


class NotSettled(NinelaceError):
    """The signed transaction doesn't settle the payment (code 13)."""


class NotAJob(NinelaceError, ValueError):
    """The bytes that were given as a job are no packed job (code 21)."""


KINDS = {
    library.USAGE: WrongNumbers,
    library.INPUT: InputRefused,
    library.MEMORY: OutOfMemory,
    library.SAVED: JobRefused,
    library.LIMIT: LimitExceeded,
    library.REFUSED: ReportRefused,
    library.UNSETTLED: NotSettled,
    library.NO_JOB: NotAJob,
}


def check(answer: library.Answer) -> library.Answer:
    """The answer, where it is no refusal."""
    kind = KINDS.get(answer.code)
    if kind is not None:
        raise kind(answer.code, answer.printed)
    return answer
