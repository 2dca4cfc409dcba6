#!/usr/bin/env python3
"""Runs the library of c/ and the package of python/ against folders of cases, and against the program. Outside the gate, after
c/build.sh:

    tests/library.py [--program PROGRAM] [--fuzz COUNT] [--seed SEED] [--valgrind EVERY] [--every NUMBER] [FOLDER..]

It does the commands of eight parts of rows_cases, each of which has to give what is stored. A FOLDER has more cases, in folders by their
command: fund, bump, first-path, prices, wide, share, sweep, check, settle and resume. Each of these has the files of its command and what
that gives: status, stdout and log; one of resume has steps and kept jobs. All go through Python. With --every N each Nth goes through
a program in C under sanitizers too (1 if nothing is said, 0 for none), and with --valgrind N each Nth through that program under
valgrind. Then every length of the buffer is tried over one payment, eight threads at once, how little stack is
enough, and that each allocation may fail. With --program,
COUNT changed inputs go through the library and the program: each status and each byte has to be the same. It ends with 1 where
anything differs.
"""
import argparse
import collections
import ctypes
import hashlib
import json
import os
import pathlib
import random
import resource
import shutil
import subprocess
import sys
import tempfile
import threading

TOP = pathlib.Path(__file__).resolve().parent.parent
sys.path.insert(0, str(TOP / "python"))

from lib.stored_rows import answers_of  # noqa: E402
from packed import Reader, packed  # noqa: E402
from ninelace import _library as library  # noqa: E402

PAYMENT = ("wallet.json", "blocks.dat", "request.json")
# The folders of cases: the command and its files, in the order of the call.
FOLDERS = {
    "fund": ("fund", PAYMENT),
    "first-path": ("fund", PAYMENT),
    "bump": ("fund", PAYMENT),
    "prices": ("fund", PAYMENT),
    "wide": ("wide", PAYMENT),
    "share": ("share", PAYMENT),
    "sweep": ("sweep", PAYMENT),
    "check": ("check", (*PAYMENT, "report", "log")),
    "prices-check": ("check", (*PAYMENT, "report", "log")),
    "settle": ("settle", ("wallet.json", "request.json", "report", "tx")),
}
EXAMPLE = TOP / "crates" / "fund_cli" / "data"
# The parts of rows_cases of which the commands are done.
PARTS = ("methods", "prices", "versions", "wide", "share", "sweep", "check", "settle")
# The lengths of a stack that are tried, in KiB.
STACKS = (16, 24, 32, 48, 64, 80, 96, 112, 128, 192, 256, 512, 1024)

tally, wrong = collections.Counter(), []


def same(kind, name, got, due):
    """Counts a case, and keeps it where what was got isn't what is due."""
    tally[kind] += 1
    if got != due:
        wrong.append((kind, name, [pair for pair in zip(got, due) if pair[0] != pair[1]][:1]))


def read(folder, name):
    """The bytes of a file; None where there is none."""
    path = folder / name
    return path.read_bytes() if path.is_file() else None


# ---- cases


class Compiled:
    """The program in C, built with these flags and run behind these words, and a folder for what it writes. Each Nth case is tried."""

    def __init__(self, kind, folder, every, flags, words=()):
        self.kind, self.folder, self.every, self.words, self.seen = kind, folder / kind.replace(" ", "-"), every, words, 0
        self.folder.mkdir()
        self.program = self.folder / "library"
        archive = TOP / "c" / "out" / "libninelace.a"
        subprocess.run(
            [os.environ.get("CC", "cc"), "-std=c11", "-O1", "-g", "-Wall", "-Wextra", *flags]
            + [f"-I{TOP / 'c'}", str(TOP / "tests" / "library.c"), str(archive), "-o", str(self.program)],
            check=True,
        )

    def call(self, command, inputs, stack=None):
        names = []
        for number, data in enumerate(inputs):
            path = self.folder / str(number)
            path.write_bytes(data)
            names.append(str(path))

        def limit():
            resource.setrlimit(resource.RLIMIT_STACK, (stack * 1024, resource.RLIM_INFINITY))

        ended = subprocess.run([*self.words, str(self.program), command, str(self.folder), *names], check=False, preexec_fn=limit if stack else None)
        return library.Answer(ended.returncode, *(read(self.folder, name) for name in ("printed", "log", "job")))

    def takes(self):
        """Whether the next case is one of those that are tried."""
        self.seen += 1
        return self.seen % self.every == 0


def compiled_forms(folder, every, valgrind):
    """The program in C under sanitizers, and under valgrind."""
    checks = ["-fsanitize=address,undefined", "-fno-sanitize-recover=all"]
    words = ("valgrind", "-q", "--error-exitcode=99", "--leak-check=full")
    return ([Compiled("C", folder, every, checks)] if every else []) + ([Compiled("valgrind", folder, valgrind, [], words)] if valgrind else [])


def try_all(kind, name, command, inputs, due, shown, forms):
    """A command through Python, and through the programs in C whose turn it is. `shown` gives of an answer what is compared."""
    same(f"{kind}: Python", name, shown(library.call(command, *inputs)), due)
    for form in forms:
        if form.takes():
            same(f"{kind}: {form.kind}", name, shown(form.call(command, inputs)), due)


def try_stored(forms):
    """The commands of the stored runs, but those of which a put fails or a file isn't there."""
    for part in PARTS:
        for step, status, text in answers_of(part):
            label, command, *names = step.columns
            files = names[:-1] if command in ("fund", "wide", "share") else names
            if step.verb != "do" or command not in library.INPUTS or step.puts or not all(name in step.files for name in files):
                tally[f"stored {part}: left out"] += 1
                continue

            def shown(answer, has_log="-log 1\n" in text or text.endswith("no log\n")):
                return [answer.code, (answer.printed + ((answer.log or b"no log\n") if has_log else b"")).decode("latin-1")]

            try_all(f"stored {part}", label, command, [step.files[name] for name in files], [status, text], shown, forms)


def try_case(kind, case, forms):
    command, names = FOLDERS[kind]
    inputs = [read(case, name) for name in names]
    if None in inputs or read(case, "status") is None:
        tally[f"{kind}: without a file"] += 1
        return
    due = [int(read(case, "status")), read(case, "stdout"), b"" if command in ("check", "settle") else read(case, "log") or b""]
    if (priced := read(case, "with-prices")) is not None:  # the status and what is printed; of the log nothing is said
        status, _, printed = priced.partition(b"\n")
        due = [int(status), printed]
    try_all(kind, case.name, command, inputs, due, lambda answer: [answer.code, answer.printed, answer.log][: len(due)], forms)


def job_in(folder, stem):
    """A kept job of a case: its saved text and parts; None where there is none."""
    saved = read(folder, stem + "saved")
    if saved is None:
        return None
    parts = []
    while (part := read(folder, f"{stem}part-{len(parts)}")) is not None:
        parts.append(part)
    return saved, parts


def of_version_2(saved, parts):
    """A kept job in version 2, whose saved text has the digest of its counted parts."""
    if not saved.startswith(b"fund-saved 1\n"):
        return saved, parts
    count = next(int(line.split()[1]) for line in saved.splitlines() if line.startswith(b"parts "))
    digest = hashlib.sha256(b"".join(parts[:count])).hexdigest()
    return b"fund-saved 2\n" + saved.removeprefix(b"fund-saved 1\n") + f"log {digest}\n".encode(), parts


def try_resume(kind, case):
    """The steps of a case of resume, one after the other, with the job that each leaves."""
    files = {path.name: path.read_bytes() for path in case.iterdir()}
    job = job_in(case, "before.")
    for number, step in enumerate(read(case, "steps").decode().splitlines()):
        words = step.split()
        if words[0] == "copy":
            files[words[2]] = files[words[1]]
            continue
        inputs = [files.get(name) for name in words[1:4]]
        name = f"{case.name} {number}"
        if None in inputs or (words[0] == "resume" and job is None):
            tally[f"{kind}: step without a file or a job"] += 1
        else:
            given = [packed(*job)] if words[0] == "resume" else []
            answer = library.call(words[0], *inputs, *given)
            if given and not job[1]:
                same(f"{kind}: a job without a part", name, [answer.code], [library.NO_JOB])
            else:
                due = [int(read(case, f"{number}.status")), read(case, f"{number}.stdout"), read(case, f"{number}.log") or b""]
                same(f"{kind}: {words[0]}", name, [answer.code, answer.printed, answer.log], due)
            if answer.code == library.UNFINISHED:
                job = Reader(answer.job).job()
        kept = job_in(case, f"{number}.")
        if kept is not None:
            same(f"{kind}: kept job", name, [job], [of_version_2(*kept)])


def try_folder(top, forms):
    for folder in sorted(pathlib.Path(top).iterdir()):
        if folder.name in FOLDERS:
            for case in sorted(folder.iterdir()):
                try_case(folder.name, case, forms)
        elif folder.name in ("resume", "resume2"):
            for case in sorted(folder.iterdir()):
                try_resume(folder.name, case)


# ---- the buffer and threads


def example():
    return [(EXAMPLE / name).read_bytes() for name in PAYMENT]


def try_lengths():
    """A buffer of each length up to two bytes more than is needed: nothing after it is touched, and nothing in it where it's short."""
    inputs = example()
    due = library.call("fund", *inputs)
    whole = due.printed + due.log + due.job
    given = library._given("fund", tuple(inputs))
    for room in range(len(whole) + 3):
        sizes = library.Sizes(9, 9, 9)
        into = ctypes.create_string_buffer(b"\xa5" * (room + 8), room + 8)
        code = library._LIBRARY.ninelace_fund(*given, into, room, ctypes.byref(sizes))
        told = (sizes.printed, sizes.log, sizes.job)
        fits = room >= len(whole)
        left = whole + b"\xa5" * (room + 8 - len(whole)) if fits else b"\xa5" * (room + 8)
        same("lengths", str(room), [code, told, into.raw], [due.code if fits else library.SHORT, (len(due.printed), len(due.log), len(due.job)), left])


def try_threads(count=8, calls=100):
    """Many threads that pay at once."""
    inputs = example()
    due = library.call("fund", *inputs)
    found = []

    def pay():
        found.extend(library.call("fund", *inputs) == due for _ in range(calls))

    threads = [threading.Thread(target=pay) for _ in range(count)]
    for thread in threads:
        thread.start()
    for thread in threads:
        thread.join()
    same("threads", str(count), [found.count(True)], [count * calls])


def try_stacks(folder):
    """How little stack is enough for a payment, and for a wallet of JSON in 127 levels, which is refused."""
    program = Compiled("stack", folder, 1, ["-O2"])
    _, *others = example()
    for kind, inputs in (("a payment of two coins", example()), ("JSON of 127 levels", [b"[" * 127 + b"]" * 127, *others])):
        due = library.call("fund", *inputs)
        enough = [kibibytes for kibibytes in STACKS if program.call("fund", inputs, kibibytes) == due]
        print(f"stack: {kind}: {min(enough)} KiB are enough")
        same("stack", kind, [enough], [[kibibytes for kibibytes in STACKS if kibibytes >= min(enough)]])


def unfinished_example():
    """A payment that two tries don't finish, and its job."""
    wallet, blocks, request = example()
    asked = json.loads(request)
    asked.update(method="changeless", tries=2, when_unfinished="stop")
    inputs = [wallet, blocks, json.dumps(asked).encode()]
    return [*inputs, library.call("fund", *inputs).job]


def try_memory(folder):
    """A payment, and going on with one, where each allocation fails in turn."""
    program = folder / "library_memory"
    words = [os.environ.get("CC", "cc"), "-std=c11", "-O1", "-g", "-Wall", "-Wextra", f"-I{TOP / 'c'}", str(TOP / "tests" / "library_memory.c")]
    subprocess.run([*words, str(TOP / "c" / "out" / "libninelace.a"), "-o", str(program)], check=True)
    for kind, inputs in (("fund", example()), ("resume", unfinished_example())):
        names = []
        for number, data in enumerate(inputs):
            (folder / f"input-{number}").write_bytes(data)
            names.append(str(folder / f"input-{number}"))
        ended = subprocess.run([str(program), *names], check=False, capture_output=True, text=True)
        print(f"memory: {kind}: {ended.stdout.strip()}")
        same("memory", kind, [ended.returncode], [0])


# ---- changed inputs


def changed(data, chance):
    """The bytes with up to three changes: one byte, a part left out, or a part twice."""
    data = bytearray(data)
    for _ in range(chance.randrange(4)):
        at = chance.randrange(len(data) + 1)
        end = min(len(data), at + chance.randrange(1, 9))
        kind = chance.randrange(4)
        if kind == 0 and at < len(data):
            data[at] = chance.randrange(256)
        elif kind == 1 and at < len(data):
            data[at] = data[chance.randrange(len(data))]
        elif kind == 2:
            del data[at:end]
        else:
            data[end:end] = data[at:end]
    return bytes(data)


def try_changed(program, count, folder, seed):
    """Changed inputs through the library and the program: `fund`, and `check` of what that gave, changed too."""
    chance = random.Random(seed)
    plain = example()
    for number in range(count):
        inputs = [changed(data, chance) if chance.randrange(3) == 0 else data for data in plain]
        answer = library.call("fund", *inputs)
        compare(program, folder, "fund", inputs, answer, number)
        if answer.code == library.DONE:
            judged = [*inputs, changed(answer.printed, chance), changed(answer.log, chance)]
            compare(program, folder, "check", judged, library.call("check", *judged), number)


def compare(program, folder, command, inputs, answer, number):
    names = []
    for name, data in zip(("wallet", "blocks", "request", "report", "checked"), inputs):
        (folder / name).write_bytes(data)
        names.append(name)
    log = folder / "written"
    log.unlink(missing_ok=True)
    if command == "fund":
        names.append("written")
    ended = subprocess.run([program, command, *names], cwd=folder, stdout=subprocess.PIPE, check=False)
    due = [ended.returncode, ended.stdout, read(folder, "written") or b""]
    same(f"changed: {command}", str(number), [answer.code, answer.printed, answer.log], due)


def main():
    words = argparse.ArgumentParser(description=__doc__.splitlines()[0])
    words.add_argument("folders", nargs="*")
    words.add_argument("--program")
    words.add_argument("--fuzz", type=int, default=1000)
    words.add_argument("--seed", type=int, default=1)
    words.add_argument("--every", type=int, default=1)
    words.add_argument("--valgrind", type=int, default=0)
    given = words.parse_args()
    with tempfile.TemporaryDirectory() as place:
        folder = pathlib.Path(place)
        has_compiler = shutil.which(os.environ.get("CC", "cc")) is not None
        forms = compiled_forms(folder, given.every, given.valgrind) if has_compiler else []
        try_lengths()
        try_threads()
        if has_compiler:
            try_stacks(folder)
            try_memory(folder)
        try_stored(forms)
        for top in given.folders:
            try_folder(top, forms)
        if given.program:
            try_changed(str(pathlib.Path(given.program).resolve()), given.fuzz, folder, given.seed)
    for kind, number in sorted(tally.items()):
        print(f"{number:7} {kind}")
    for one in wrong[:20]:
        print("WRONG", one)
    for kind, number in sorted(collections.Counter(kind for kind, _, _ in wrong).items()):
        print(f"{number:7} WRONG of {kind}")
    print(f"{sum(tally.values())} compared or left out, {len(wrong)} wrong")
    return 1 if wrong else 0


if __name__ == "__main__":
    sys.exit(main())
