"""Reports, in fields. A report's lines are those of docs/FORMATS.md, 'Report'; nothing here decides anything."""

import base64
from dataclasses import dataclass, field
from typing import Dict, List, Optional, Tuple

from ._library import Answer


@dataclass(frozen=True)
class Coin:
    """An output that a payment spends: its txid as block explorers show it, its index, and its value in satoshi."""

    txid: str
    index: int
    value: int


@dataclass(frozen=True)
class Funded:
    """A payment, of `fund`, `resume` or `wide`. `mark` tells how its coins were found: docs/ANSWERS.md says what each mark promises."""

    mark: str
    row: int
    stage: str
    tries: int
    coins: Tuple[Coin, ...]
    weight: int
    vsize: int
    fee: int
    waste: int
    change: Optional[int]
    psbt: bytes = field(repr=False)
    report: bytes = field(repr=False)
    log: bytes = field(repr=False)


@dataclass(frozen=True)
class Shared:
    """A payment whose recipients bear the fee. `amounts` are what they get, in the order of the request."""

    row: int
    tries: int
    coins: Tuple[Coin, ...]
    amounts: Tuple[int, ...]
    weight: int
    vsize: int
    fee: int
    change: Optional[int]
    psbt: bytes = field(repr=False)
    report: bytes = field(repr=False)
    log: bytes = field(repr=False)


@dataclass(frozen=True)
class Swept:
    """A payment of all coins, of this amount."""

    amount: int
    coins: Tuple[Coin, ...]
    weight: int
    vsize: int
    fee: int
    psbt: bytes = field(repr=False)
    report: bytes = field(repr=False)


@dataclass(frozen=True)
class NoSelection:
    """No coins pay. The log proves it; `sweep` writes none."""

    tries: int
    report: bytes = field(repr=False)
    log: bytes = field(repr=False)


@dataclass(frozen=True)
class Unfinished:
    """The tries are used up, a search of this row and stage is open, and nothing is taken. `resume` goes on with `job`; `wide` and
    `share` give none."""

    tries: int
    row: int
    stage: str
    job: bytes = field(repr=False)
    report: bytes = field(repr=False)


def _lines(report: bytes) -> List[Tuple[str, List[str]]]:
    """The first word of each line, and the words after it."""
    parted = [line.split(" ") for line in report.decode("ascii").splitlines()]
    return [(words[0], words[1:]) for words in parted]


def _coins(lines: List[Tuple[str, List[str]]]) -> Tuple[Coin, ...]:
    coins = []
    for name, words in lines:
        if name == "in":
            txid, index = words[0].split(":")
            coins.append(Coin(txid, int(index), int(words[1])))
    return tuple(coins)


def _named(lines: List[Tuple[str, List[str]]]) -> Dict[str, str]:
    return {name: " ".join(words) for name, words in lines}


def _change(named: Dict[str, str]) -> Optional[int]:
    return None if named["change"] == "none" else int(named["change"])


def funded(answer: Answer) -> Funded:
    """The payment of a report that begins with `funded`."""
    lines = _lines(answer.printed)
    named = _named(lines)
    return Funded(
        mark=named["funded"],
        row=int(named["row"]),
        stage=named["stage"],
        tries=int(named["tries"]),
        coins=_coins(lines),
        weight=int(named["weight"]),
        vsize=int(named["vsize"]),
        fee=int(named["fee"]),
        waste=int(named["waste"]),
        change=_change(named),
        psbt=base64.b64decode(named["psbt"]),
        report=answer.printed,
        log=answer.log,
    )


def shared(answer: Answer) -> Shared:
    """The payment of a report that begins with `shared`."""
    lines = _lines(answer.printed)
    named = _named(lines)
    return Shared(
        row=int(named["row"]),
        tries=int(named["tries"]),
        coins=_coins(lines),
        amounts=tuple(int(words[1]) for name, words in lines if name == "pay"),
        weight=int(named["weight"]),
        vsize=int(named["vsize"]),
        fee=int(named["fee"]),
        change=_change(named),
        psbt=base64.b64decode(named["psbt"]),
        report=answer.printed,
        log=answer.log,
    )


def swept(answer: Answer) -> Swept:
    """The payment of a report that begins with `swept`."""
    lines = _lines(answer.printed)
    named = _named(lines)
    return Swept(
        amount=int(named["swept"]),
        coins=_coins(lines),
        weight=int(named["weight"]),
        vsize=int(named["vsize"]),
        fee=int(named["fee"]),
        psbt=base64.b64decode(named["psbt"]),
        report=answer.printed,
    )


def no_selection(answer: Answer) -> NoSelection:
    """The report that nothing pays."""
    return NoSelection(int(_named(_lines(answer.printed))["tries"]), answer.printed, answer.log)


def unfinished(answer: Answer) -> Unfinished:
    """The report of an open search."""
    named = _named(_lines(answer.printed))
    return Unfinished(int(named["tries"]), int(named["row"]), named["stage"], answer.job, answer.printed)
