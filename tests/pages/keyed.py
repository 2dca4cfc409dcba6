"""What a keys file tells in a PSBT, by docs/FORMATS.md alone: 'A keys file' and 'Keys in a PSBT' (BIP 174 and 371)."""
import json

HARDENED = 2**31
# of each kind of map the types of redeem script, witness script, internal key, and of a key without and with an internal one
INPUT = (0x04, 0x05, 0x17, 0x06, 0x16)
OUTPUT = (0x00, 0x01, 0x05, 0x02, 0x07)


def path_bytes(text):
    steps = []
    for step in text.split("/")[1:]:
        hardened = step[-1] in "h'"
        steps.append(int(step[:-1] if hardened else step) + (HARDENED if hardened else 0))
    return b"".join(step.to_bytes(4, "little") for step in steps)


def origin(key):
    return bytes.fromhex(key["fingerprint"]) + path_bytes(key["path"])


def due_of(entry, types):
    """The pairs that an entry asks for in a map of these types, in the order in which they are judged."""
    redeem, witness, internal, plain, taproot = types
    pairs = [(bytes([kind]), bytes.fromhex(entry[name]))
             for kind, name in ((redeem, "redeem"), (witness, "witness"), (internal, "internal")) if name in entry]
    kind, before = (taproot, b"\x00") if "internal" in entry else (plain, b"")
    return pairs + [(bytes([kind]) + bytes.fromhex(key["pubkey"]), before + origin(key)) for key in entry["keys"]]


def due_in(keys, script, types):
    entries = [one for one in keys["scripts"] if one["script"] == script.hex()]
    return due_of(entries[0], types) if entries else []


def extended(pairs, due):
    """The map with the due pairs, or the place of the first that it tells otherwise."""
    pairs = list(pairs)
    for place, (key, value) in enumerate(due):
        here = dict(pairs).get(key)
        if here is None:
            at = next((n for n, one in enumerate(pairs) if one[0] > key), len(pairs))
            pairs.insert(at, (key, value))
        elif here != value:
            return place
    return pairs


def added(spent, outputs, maps, keys):
    """The maps with what the keys tell of them, or the line of the first pair in the way. `spent` has the script that each input
    spends, and `outputs` those of the outputs."""
    dues = [[(b"\x01" + bytes.fromhex(key["xpub"]), origin(key)) for key in keys.get("xpubs", [])]]
    dues += [due_in(keys, script, INPUT) for script in spent] + [due_in(keys, script, OUTPUT) for script in outputs]
    made = []
    for number, (pairs, due) in enumerate(zip(maps, dues)):
        one = extended(pairs, due)
        if isinstance(one, int):
            if number == 0:
                return f"fault input psbt KeyGlobal {one}\n"
            kind, index = ("Input", number - 1) if number <= len(spent) else ("Output", number - 1 - len(spent))
            return f"fault input psbt Key{kind} {index} {due[one][0][0]}\n"
        made.append(one)
    return made


def read(text):
    """A keys file without a fault."""
    return json.loads(text)
