"""The first fault of a PSBT's text, or of a transaction's bytes, by docs/FORMATS.md alone. For tests/mutate.py."""

import base64

from lib.bitcoin import double_sha256

MAX_MONEY = 2_100_000_000_000_000


class Fault(Exception):
    """A fault by its words."""


class Bytes:
    """Bytes that are read on, with the faults of a field that is cut and of a CompactSize that has a shorter spelling."""

    def __init__(self, data):
        self.data, self.at = data, 0

    def take(self, size):
        start = self.at
        if start + size > len(self.data):
            raise Fault(f"Truncated {start}")
        self.at += size
        return self.data[start : self.at]

    def number(self, size):
        return int.from_bytes(self.take(size), "little")

    def compact(self):
        start = self.at
        first = self.number(1)
        if first < 253:
            return first
        size = {253: 2, 254: 4, 255: 8}[first]
        if start + 1 + size > len(self.data):
            raise Fault(f"Truncated {start}")
        value = self.number(size)
        if value < {2: 253, 4: 2**16, 8: 2**32}[size]:
            raise Fault(f"LongCompact {start}")
        return value

    def string(self):
        return self.take(self.compact())

    def ends(self):
        if self.at < len(self.data):
            raise Fault(f"Trailing {self.at}")


def outputs_of(data):
    outputs, total = [], 0
    for index in range(data.compact()):
        value = data.number(8)
        total += value
        if total > MAX_MONEY:
            raise Fault(f"ValueRange {index}")
        outputs.append((value, data.string()))
    if not outputs:
        raise Fault("NoOutputs")
    return outputs


def transaction(data, is_legacy):
    """The same of a whole transaction."""
    data = Bytes(data)
    read = read_tx(data, is_legacy)
    data.ends()
    return read


def read_tx(data, is_legacy):
    """The inputs with their scripts, the outputs, and the txid of a transaction, in the legacy form alone or in either."""
    version = data.take(4)
    segregated = not is_legacy and data.data[data.at : data.at + 1] == b"\x00"
    if segregated and data.take(1) and data.take(1) != b"\x01":
        raise Fault("BadFlag")
    start, inputs = data.at, []
    for _ in range(data.compact()):
        point = (data.take(32), data.number(4))
        inputs.append((point, data.string()))
        data.take(4)
    if not inputs:
        raise Fault("NoInputs")
    outputs = outputs_of(data)
    end = data.at
    stacks = [[data.string() for _ in range(data.compact())] for _ in inputs] if segregated else []
    locktime = data.take(4)
    if segregated and not any(stacks):
        raise Fault("EmptyWitness")
    bare = version + data.data[start:end] + locktime
    return inputs, outputs, double_sha256(bare)


def pairs(data, own, judge=None):
    """Reads a map: keys of these types have no key data, and `judge` takes each such value. The pairs, each as its type, whether
    its key is the type alone, its value and its place."""
    seen, every = set(), []
    while True:
        start = data.at
        size = data.compact()
        if size == 0:
            return every
        place = data.at
        key = Bytes(data.take(size))
        try:
            kind = key.compact()
        except Fault as fault:
            raise Fault(f"LongCompact {place}" if str(fault).startswith("Long") else f"Field {start}") from fault
        if key.data in seen:
            raise Fault(f"RepeatKey {start}")
        seen.add(key.data)
        if kind in own and key.at < size:
            raise Fault(f"Field {start}")
        value = data.string()
        if kind in own and judge:
            try:
                judge(kind, value)
            except Fault as fault:
                raise Fault(f"Field {start}") from fault
        every.append((kind, key.at == size, value, start))


def value_of(every, kind):
    """The value of the pair whose key is this type alone, or None."""
    return next((value for one, alone, value, _ in every if one == kind and alone), None)


def lacks(every, kinds):
    for kind in kinds:
        if value_of(every, kind) is None:
            raise Fault(f"Lacking {kind}")


def has_size(value, size):
    if len(value) != size:
        raise Fault("another size")


def count(value):
    """A CompactSize that is the whole value."""
    value = Bytes(value)
    number = value.compact()
    value.ends()
    return number


# ---- the global map


def version_of(every):
    version = int.from_bytes(value_of(every, 0xFB) or b"", "little")
    if version not in (0, 2):
        raise Fault(f"Version {version}")
    return version


def unsigned_of(every):
    """The points of the inputs and the number of the outputs of the transaction of a global map of version 0."""
    unsigned = value_of(every, 0)
    if unsigned is None:
        raise Fault("NoUnsigned")
    try:
        inputs, outputs, _ = transaction(unsigned, True)
    except Fault as fault:
        raise Fault(f"Unsigned {fault}") from fault
    if any(script for _, script in inputs):
        raise Fault("NotBare")
    return [point for point, _ in inputs], len(outputs)


def counts_of(every):
    """The numbers of the inputs and of the outputs that a global map of version 2 tells."""
    for kind, _, _, start in every:
        if kind == 0:
            raise Fault(f"Mixed {start}")
    for field in (2, 3, 4, 5):
        for kind, alone, value, start in every:
            if kind != field:
                continue
            try:
                if not alone:
                    raise Fault("key data")
                has_size(value, 4) if kind in (2, 3) else count(value)
            except Fault as fault:
                raise Fault(f"Field {start}") from fault
    lacks(every, (2, 4, 5))
    inputs, outputs = (count(value_of(every, kind)) for kind in (4, 5))
    if inputs == 0 or outputs == 0:
        raise Fault("Unsigned NoInputs" if inputs == 0 else "Unsigned NoOutputs")
    return inputs, outputs


# ---- the other maps


def judge_input(kind, value):
    """The value of an input's field in its form."""
    if kind == 0:
        transaction(value, False)
    elif kind == 1:
        output = Bytes(value)
        amount = output.number(8)
        output.string()
        output.ends()
        if amount > MAX_MONEY:
            raise Fault("ValueRange")
    else:
        has_size(value, 32 if kind == 0x0E else 4)


def judge_output(kind, value):
    if kind == 3:
        has_size(value, 8)


def check_parent(every, index, point):
    """That the whole transaction beside an input, where there is one, is that which it spends."""
    whole = value_of(every, 0)
    if whole is not None:
        _, outputs, txid = transaction(whole, False)
        if txid != point[0] or point[1] >= len(outputs):
            raise Fault(f"WrongParent {index}")


def read_whole(data, every):
    """What is behind the global map in version 0."""
    points, outputs = unsigned_of(every)
    for index, point in enumerate(points):
        check_parent(pairs(data, (0, 1), judge_input), index, point)
    for _ in range(outputs):
        pairs(data, ())


def read_fields(data, every):
    """The same in version 2."""
    inputs, outputs = counts_of(every)
    for index in range(inputs):
        one = pairs(data, (0, 1, 0x0E, 0x0F, 0x10), judge_input)
        lacks(one, (0x0E, 0x0F))
        if any(kind in (0x11, 0x12) for kind, *_ in one):
            raise Fault(f"RequiredLock {index}")
        check_parent(one, index, (value_of(one, 0x0E), int.from_bytes(value_of(one, 0x0F), "little")))
    total = 0
    for index in range(outputs):
        one = pairs(data, (3, 4), judge_output)
        lacks(one, (3, 4))
        total += int.from_bytes(value_of(one, 3), "little")
        if total > MAX_MONEY:
            raise Fault(f"Unsigned ValueRange {index}")


def read_psbt(data):
    if data[:5] != b"psbt\xff":
        raise Fault("Magic")
    data = Bytes(data)
    data.take(5)
    every = pairs(data, (0, 0xFB), lambda kind, value: has_size(value, 4) if kind == 0xFB else None)
    (read_fields if version_of(every) == 2 else read_whole)(data, every)
    data.ends()


def fault_of(text):
    """The words of the first fault of a PSBT's text in base64, or None."""
    try:
        try:
            data = base64.b64decode(text, validate=True)
        except ValueError as wrong:
            raise Fault("NotBase64") from wrong
        if base64.b64encode(data) != text:
            raise Fault("NotBase64")
        read_psbt(data)
    except Fault as fault:
        return str(fault)
    return None
