"""The commands as functions."""

from typing import Callable, TypeVar, Union

from . import _library as library
from ._faults import check as checked
from ._reports import Funded, NoSelection, Shared, Swept, Unfinished, funded, no_selection, shared, swept, unfinished

Paid = TypeVar("Paid")


def _paid(answer: library.Answer, read: "Callable[[library.Answer], Paid]") -> "Union[Paid, NoSelection, Unfinished]":
    """What a command that pays came to."""
    checked(answer)
    if answer.code == library.NONE:
        return no_selection(answer)
    if answer.code == library.UNFINISHED:
        return unfinished(answer)
    return read(answer)


def _text(answer: library.Answer) -> str:
    return checked(answer).printed.decode("ascii")


def coins(wallet: bytes, blocks: bytes) -> str:
    """The listing of a wallet on its blocks: the tip, the pending payments and the coins that may be spent. As `coins`."""
    return _text(library.call("coins", wallet, blocks))


def fund(wallet: bytes, blocks: bytes, request: bytes) -> Union[Funded, NoSelection, Unfinished]:
    """Funds the payment of a request. As `fund` with a job, which `Unfinished` has."""
    return _paid(library.call("fund", wallet, blocks, request), funded)


def resume(wallet: bytes, blocks: bytes, request: bytes, job: bytes) -> Union[Funded, NoSelection, Unfinished]:
    """Goes on with the job of an unfinished run of the same wallet, blocks and request. As `resume`."""
    return _paid(library.call("resume", wallet, blocks, request, job), funded)


def wide(wallet: bytes, blocks: bytes, request: bytes) -> Union[Funded, NoSelection, Unfinished]:
    """Funds the payment of a request without change by the wide search. As `wide`."""
    return _paid(library.call("wide", wallet, blocks, request), funded)


def share(wallet: bytes, blocks: bytes, request: bytes) -> Union[Shared, NoSelection, Unfinished]:
    """Funds the payment of a request so that its recipients bear the fee. As `share`."""
    return _paid(library.call("share", wallet, blocks, request), shared)


def sweep(wallet: bytes, blocks: bytes, request: bytes) -> Union[Swept, NoSelection]:
    """Pays all coins to the one recipient of a request. As `sweep`."""
    answer = checked(library.call("sweep", wallet, blocks, request))
    return no_selection(answer) if answer.code == library.NONE else swept(answer)


def check(wallet: bytes, blocks: bytes, request: bytes, report: bytes, log: bytes = b"") -> str:
    """What `check` prints of a report with its log that is accepted. One that isn't raises `ReportRefused`."""
    return _text(library.call("check", wallet, blocks, request, report, log))


def settle(wallet: bytes, request: bytes, report: bytes, tx: bytes) -> str:
    """What `settle` prints of a signed transaction, in hex, that settles the payment of a report. Another raises `NotSettled`."""
    return _text(library.call("settle", wallet, request, report, tx))


def work(number: int, count: int) -> str:
    """The summary of a payment from the workload of a number and a count of coins. As `work`; it may end in any way but a refusal."""
    return _text(library.call("work", number, count))
