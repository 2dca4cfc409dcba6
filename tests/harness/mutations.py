"""Seeded mutations: of bytes, JSON, lines with numbers, logs, reports, scripts, words and kept jobs. For tests/mutate.py.

Each takes a random.Random and what it mutates, and gives back another of the same kind."""

import base64
import hashlib
import json
import re

NUMBERS = [0, 1, -1, 164, 165, 293, 294, 400000, 400001, 2**31, 2**32 - 1, 2**32, 2**53, 2**63, 2**64 - 1, 2**64, 1.0, 1e300,
           100000000, 100000001, 2100000000000000, 2100000000000001]
VALUES = NUMBERS + ["", "00", "0g", "abc", "6a", "0014" + "bb" * 20, "manual", "auto", None, True, [], {}, [[]], "00" * 32 + ":0"]
MEMBERS = ("note", "", "pending", "locked", "abandoned", "bump", "tries", "seed", "zero_conf", "include_unsafe", "group", "coins",
           "when_unfinished", "long_term", "change_target", "a b\\\n\u00e4")
LETTERS = b"IAOHSTWLFM"
BOUNDS = (0, 1, 2, 5, 99, 255, 256, 9999999, 10000000, 2**32 - 1, 2**32, 2**64 - 1, 2**64)


# ---- bytes


def cut_bytes(rng, data):
    return data[: rng.randrange(len(data) + 1)]


def flip_bit(rng, data):
    place = rng.randrange(len(data))
    return data[:place] + bytes([data[place] ^ (1 << rng.randrange(8))]) + data[place + 1 :]


def set_byte(rng, data):
    place = rng.randrange(len(data))
    byte = rng.choice(b"\x00\xff\"{}[],:-019afAF qz\n") if rng.random() < 0.7 else rng.randrange(256)
    return data[:place] + bytes([byte]) + data[place + 1 :]


def drop_bytes(rng, data):
    place = rng.randrange(len(data))
    return data[:place] + data[place + rng.choice((1, 1, 2, 4, 8, 40)) :]


def repeat_bytes(rng, data):
    start = rng.randrange(len(data))
    end = min(len(data), start + rng.choice((1, 2, 4, 32, 100)))
    return data[:end] + data[start:end] + data[end:]


def put_bytes(rng, data):
    place = rng.randrange(len(data) + 1)
    return data[:place] + rng.randbytes(rng.choice((1, 1, 2, 5))) + data[place:]


BYTES = [cut_bytes, flip_bit, set_byte, drop_bytes, repeat_bytes, put_bytes]


def mutate_bytes(rng, data):
    if not data:
        return rng.choice((b"\x00", b"\x00" * 9, b"{", b"\n", bytes.fromhex("f9beb4d9"), rng.randbytes(90)))
    return rng.choice(BYTES)(rng, data)


# ---- JSON


def parents(value, found):
    """Every object and list in a JSON value."""
    if isinstance(value, (dict, list)):
        found.append(value)
        for inner in value.values() if isinstance(value, dict) else value:
            parents(inner, found)
    return found


def mutate_text(rng, text):
    """A text whose digits or length changed."""
    if not text:
        return "0"
    place = rng.randrange(len(text))
    kind = rng.randrange(4)
    if kind == 0:
        return text[:place] + rng.choice("0123456789abcdefABCDEFgq:") + text[place + 1 :]
    if kind == 1:
        return text[:place] + text[place + rng.choice((1, 2)) :]
    if kind == 2:
        return text[:place] + rng.choice(("00", "ff", "0", "fd")) + text[place:]
    return text.upper()


def changed(rng, inner, key):
    """Changes one member or entry."""
    old, kind = inner[key], rng.randrange(6)
    if kind == 0:
        del inner[key]
    elif kind == 1:
        inner[key] = rng.choice(VALUES)
    elif kind in (2, 5) and isinstance(old, str):
        inner[key] = mutate_text(rng, old)
    elif kind in (2, 5) and isinstance(old, int):
        inner[key] = old + rng.choice((-1000, -1, 1, 1000, 10**9))
    elif kind == 3 and isinstance(inner, list):
        inner.insert(rng.randrange(len(inner) + 1), old)
    elif isinstance(old, list) and old:
        rng.shuffle(old)
        old.append(rng.choice(old))
    else:
        inner[key] = rng.choice(NUMBERS)


def mutate_json(rng, data):
    """A JSON text in which one member or entry changed, went, came or was doubled."""
    try:
        value = json.loads(data)
    except (ValueError, RecursionError):
        return mutate_bytes(rng, data)
    inner = rng.choice(parents(value, []) or [{}])
    keys = list(inner) if isinstance(inner, dict) else list(range(len(inner)))
    if keys and rng.random() >= 0.1:
        changed(rng, inner, rng.choice(keys))
    elif isinstance(inner, dict):
        inner[rng.choice(MEMBERS)] = rng.choice(VALUES)
    else:
        inner.append(rng.choice(VALUES))
    return json.dumps(value).encode()


# ---- JSON that stays in order


def gentle_request(rng, request):
    """Another request of the same kind: one member has another value that it may have."""
    values = {"rate": rng.randrange(60_000), "long_term": rng.randrange(60_000), "discard": rng.randrange(60_000),
              "change_target": rng.randrange(200_000), "method": rng.choice(("auto", "changeless", "weight", "draw", "manual")),
              "seed": rng.randbytes(32).hex(), "tries": rng.choice((1, 2, 3, 7, 30, 200, 5000)), "locktime": rng.randrange(2**32),
              "psbt": rng.choice((0, 2)), "when_unfinished": rng.choice(("take", "stop")), **{name: rng.random() < 0.5 for name in
                                                                 ("zero_conf", "include_unsafe", "group", "replaceable")}}
    kind = rng.randrange(4)
    if kind == 0:
        for entry in request["recipients"]:
            entry["amount"] = max(600, entry["amount"] * rng.randrange(1, 30) // 10)
    elif kind == 1 and request.get("coins"):
        del request["coins"][rng.randrange(len(request["coins"]))]
    else:
        name = rng.choice(list(values))
        request[name] = values[name]
    if request.get("method", "auto") in ("auto", "draw"):
        request.setdefault("seed", values["seed"])


def gentle_wallet(rng, wallet):
    """Another wallet of the same kind: a transaction less, or another height, weight or list of what is locked or abandoned."""
    kind = rng.randrange(6)
    earlier, pending = wallet.setdefault("earlier", []), wallet.setdefault("pending", [])
    if kind == 0 and earlier:
        del earlier[rng.randrange(len(earlier))]
    elif kind == 1 and pending:
        del pending[rng.randrange(len(pending))]
    elif kind == 2 and earlier:
        rng.choice(earlier)["height"] = rng.randrange(wallet["height"] + 1)
    elif kind == 3:
        rng.choice(wallet["scripts"] + [wallet["change"]])["weight"] = rng.choice((165, 230, 272, 593, 4000, 399_000))
    elif kind == 4:
        rng.shuffle(earlier)
    else:
        rng.shuffle(wallet["scripts"])
        wallet.setdefault(rng.choice(("locked", "abandoned")), [])


def mutate_gently(rng, name, data):
    """A wallet or a request that may well be in order."""
    try:
        value = json.loads(data)
        (gentle_wallet if name.startswith("wallet") else gentle_request)(rng, value)
        return json.dumps(value).encode()
    except (ValueError, KeyError, IndexError, TypeError, AttributeError, RecursionError):
        return mutate_json(rng, data)


# ---- texts of lines


def mutate_number(rng, text):
    """A text of which one decimal number is another."""
    found = list(re.finditer(rb"(?<![0-9a-f])[0-9]{1,20}(?![0-9a-f:])", text))
    if not found:
        return mutate_bytes(rng, text)
    one = rng.choice(found)
    number = int(one[0]) + rng.choice((-2, -1, 1, 2, 10)) if rng.random() < 0.7 else rng.choice(BOUNDS)
    return text[: one.start()] + str(max(0, number)).encode() + text[one.end() :]


def mutate_lines(rng, text):
    """A text of which a line went, came again, or changed its place."""
    lines = text.splitlines(keepends=True) or [b"\n"]
    place, kind = rng.randrange(len(lines)), rng.randrange(4)
    if kind == 0:
        del lines[place]
    elif kind == 1:
        lines.insert(rng.randrange(len(lines) + 1), lines[place])
    elif kind == 2:
        other = rng.randrange(len(lines))
        lines[place], lines[other] = lines[other], lines[place]
    else:
        lines[place] = mutate_bytes(rng, lines[place])
    return b"".join(lines)


def mutate_letters(rng, text):
    """A log of which letters changed, went, or came again; or which names other places."""
    found = list(re.finditer(rb"(?<=tokens )[!-~]+|(?<=answer )[^\n]+", text)) or list(re.finditer(rb"[A-Z]+\Z", text))
    if not found:
        return mutate_bytes(rng, text)
    one = rng.choice(found)
    inner = one[0]
    if not inner.isalpha() or inner == b"none":
        inner = rng.choice((b"none", b"0", b"0 1", b"1 2 3", b"%d" % rng.randrange(9), mutate_number(rng, inner)))
    else:
        place, letter = rng.randrange(len(inner)), bytes([rng.choice(LETTERS)])
        inner = rng.choice((inner[:place] + letter + inner[place + 1 :], inner[:place] + letter + inner[place:],
                            inner[:place] + inner[place + 1 :], inner[:place], inner + inner[place:]))
    return text[: one.start()] + inner + text[one.end() :]


def mutate_report(rng, text):
    """A report of which a number, a line, the mark or the PSBT is another."""
    kind = rng.randrange(6)
    if kind < 2:
        return mutate_number(rng, text)
    if kind == 2:
        return mutate_lines(rng, text)
    if kind == 3:
        words = (b"exhausted", b"partial", b"drawn", b"given", b"changeless", b"lean-big", b"lean-small", b"draw", b"presets", b"none")
        return text.replace(rng.choice([word for word in words if word in text] or [b"\n"]), rng.choice(words), 1)
    found = re.search(rb"(?<=psbt )[^\n]*", text)
    if kind == 4 and found:
        try:
            inner = base64.b64encode(mutate_bytes(rng, base64.b64decode(found[0])))
        except ValueError:
            inner = mutate_bytes(rng, found[0])
        return text[: found.start()] + inner + text[found.end() :]
    return mutate_bytes(rng, text)


def mutate_log(rng, text):
    return rng.choice((mutate_letters, mutate_letters, mutate_lines, mutate_number, mutate_bytes))(rng, text)


def mutate_script(rng, text):
    """A desk's script of which lines or words are others, or which has more of them."""
    kind = rng.randrange(6)
    if kind < 2:
        return mutate_lines(rng, text)
    if kind == 2:
        return mutate_number(rng, text)
    if kind == 3:
        return mutate_bytes(rng, text)
    words = text.split(b" ") if kind == 4 else text.splitlines()
    new = [rng.choice(words or [b""]), b"turn A 50", b"turn B 10000000", b"commit A", b"commit B", b"close A", b"open A R",
           b"open B X", b"open A " + b"no/such", b"blocks blocks.dat", b"pending 00", b"release " + b"0" * 64, b"", b"fly"]
    at = rng.randrange(len(words) + 1)
    words[at : at + rng.randrange(2)] = [rng.choice(new)]
    return b" ".join(words) if kind == 4 else b"\n".join(words) + b"\n" * rng.randrange(2)


def mutate_tx(rng, text):
    """The hex of a transaction of which bytes or letters are others."""
    try:
        data = bytes.fromhex(text.decode())
    except ValueError:
        return mutate_bytes(rng, text)
    if rng.random() < 0.2:
        return mutate_bytes(rng, text)
    return mutate_bytes(rng, data).hex().encode() + b"\n" * rng.randrange(2)


def mutate_words(rng, words):
    """Words of a command of which one is another, went or came."""
    words, kind = list(words), rng.randrange(6)
    place = rng.randrange(len(words))
    if kind == 0:
        del words[place]
    elif kind == 1:
        words.insert(place, rng.choice(words + ["", "x"]))
    elif kind == 2:
        words[place] = rng.choice(words)
    elif kind == 3:
        words[place] = rng.choice(("", "0", "7", "00", "07", "-1", "+1", "1e1", "10000", "10001", "job-1", "a_b", "x" * 32, "y" * 33))
    elif kind == 4:
        words[0] = rng.choice(("coins", "fund", "resume", "check", "desk", "work", "wide", "share", "sweep", "settle", "Fund", "help"))
    else:
        words.append(rng.choice(("job-1", "", "1", "-", "a b", "\u00e4")))
    return words


# ---- kept jobs


def mutate_parts(rng, parts):
    """Parts of which the bytes, the number or the order is another."""
    parts, kind = dict(parts), rng.randrange(8)
    number = rng.choice(list(parts) or [0])
    part = parts.get(number, b"")
    if kind < 3:
        parts[number] = mutate_log(rng, part)
    elif kind == 3:
        parts.pop(number, None)
    elif kind == 4:
        parts[rng.choice((-7, -1, number + 1, 2**31, 2**32 - 1, 2**32, 2**63 - 1))] = part
    elif kind == 5:
        other = rng.choice(list(parts) or [0])
        parts[number], parts[other] = parts.get(other, b""), part
    elif kind == 6:
        place = rng.randrange(len(part) + 1)
        parts = {**{at + (at > number): one for at, one in parts.items()}, number: part[:place], number + 1: part[place:]}
    else:
        parts[number] = rng.choice((b"", part + bytes([rng.choice(LETTERS)]), part[:-1], b"fund-log 1\nend\n", rng.randbytes(9)))
    return {min(number, 2**63 - 1): part for number, part in parts.items()}


def mutate_saved(rng, saved):
    """A saved text of which a number, a place or a line is another."""
    kind = rng.randrange(12)
    if kind < 5:
        return mutate_number(rng, saved)
    if kind == 5:
        return rng.choice((mutate_bytes, mutate_lines))(rng, saved)
    places = rng.sample(range(rng.choice((3, 10, 60))), rng.randrange(4))
    text = " ".join(map(str, sorted(places) if rng.random() < 0.8 else places)).encode()
    if kind < 8:
        return re.sub(rb"chosen [^\n]*", b"chosen " + (text or b"-"), saved, count=1)
    if kind < 11:
        return re.sub(rb"best [^\n]*", b"best " + (text or b"none"), saved, count=1)
    return re.sub(rb"stage [^\n]*", b"stage " + rng.choice((b"changeless", b"lean-big", b"lean-small", b"draw")), saved, count=1)


def digest_mended(saved, parts):
    """A saved text of version 2 whose digest is that of the parts that it counts, where these are there."""
    counted = re.search(rb"\nparts (\d{1,9})\nlog ", saved)
    numbers = range(int(counted[1])) if counted and int(counted[1]) <= len(parts) else ()
    if not numbers or any(number not in parts for number in numbers):
        return saved
    digest = hashlib.sha256(b"".join(parts[number] for number in numbers)).hexdigest()
    return re.sub(rb"\nlog [^\n]*", b"\nlog " + digest.encode(), saved, count=1)


def first_version(saved):
    """The same saved text in version 1."""
    return re.sub(rb"\nlog [^\n]*\n", b"\n", saved.replace(b"fund-saved 2\n", b"fund-saved 1\n", 1), count=1)


def mutate_job(rng, job, others):
    """A job of which the text or the parts are others; or which has the text of one of these other jobs."""
    saved, parts = job
    for _ in range(rng.choice((1, 1, 1, 2, 3))):
        kind = rng.random()
        if kind < 0.45:
            saved = mutate_saved(rng, saved) if saved is not None else None
        elif kind < 0.9:
            parts = mutate_parts(rng, parts)
        elif kind < 0.97 and others:
            other = rng.choice(others)
            saved, parts = rng.choice(((other[0], parts), (saved, other[1])))
        elif rng.random() < 0.2:
            saved = None
    if saved is not None and rng.random() < 0.7:
        saved = digest_mended(saved, parts) if rng.random() < 0.8 else first_version(saved)
    return saved, parts
