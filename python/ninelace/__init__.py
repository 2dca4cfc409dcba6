"""Ninelace from Python: coin selection for Bitcoin wallets, by a library that is proved.

Each function does one command of the program on bytes and returns what that prints, in fields. What refuses raises an exception.

    import ninelace

    paid = ninelace.fund(wallet, blocks, request)
    if isinstance(paid, ninelace.Funded):
        print(paid.fee, paid.psbt)

All amounts are satoshi, weights are weight units, and `vsize` is in virtual bytes. A call keeps nothing and may run in any thread;
other threads of Python run meanwhile.
"""

from ._calls import check, coins, fund, resume, settle, share, sweep, wide, work
from ._faults import (
    InputRefused,
    JobRefused,
    LimitExceeded,
    NinelaceError,
    NotAJob,
    NotSettled,
    OutOfMemory,
    ReportRefused,
    WrongNumbers,
)
from ._library import Answer, abi_version, call
from ._reports import Coin, Funded, NoSelection, Shared, Swept, Unfinished

__all__ = [
    "Answer",
    "Coin",
    "Funded",
    "InputRefused",
    "JobRefused",
    "LimitExceeded",
    "NinelaceError",
    "NoSelection",
    "NotAJob",
    "NotSettled",
    "OutOfMemory",
    "ReportRefused",
    "Shared",
    "Swept",
    "Unfinished",
    "WrongNumbers",
    "abi_version",
    "call",
    "check",
    "coins",
    "fund",
    "resume",
    "settle",
    "share",
    "sweep",
    "wide",
    "work",
]
