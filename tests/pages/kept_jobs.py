"""Kept jobs as docs/FORMATS.md has them: the job file by Python's own sqlite3, the saved text with the place of its fault, and
the line by which `resume` refuses a job, as far as it can be told without the searches. For tests/mutate.py and tests/faults.py.
"""

import hashlib
import os
import re
import shutil
import sqlite3

NAME = "fund-jobs.sqlite"
BESIDE = NAME + "-wal"
JOB_TABLE = "CREATE TABLE job (name TEXT NOT NULL PRIMARY KEY, saved BLOB NOT NULL) STRICT"
PART_TABLE = (
    "CREATE TABLE part (job TEXT NOT NULL, number INTEGER NOT NULL, bytes BLOB NOT NULL, PRIMARY KEY (job, number)) STRICT"
)
MOST_TRIES = 10_000_000
MOST_BYTES = 67_108_864
MOST = 2**32 - 1
STAGES = (b"changeless", b"lean-big", b"lean-small")


# ---- the job file


def write_jobs(folder, jobs, also=()):
    """Makes the job file with these jobs, each a saved text and its parts by number; then does these statements."""
    for name in (NAME, BESIDE, NAME + "-shm", NAME + "-journal"):
        path = os.path.join(folder, name)
        if os.path.lexists(path):
            os.unlink(path)
    base = sqlite3.connect(os.path.join(folder, NAME), isolation_level=None)
    base.execute("PRAGMA journal_mode=WAL")
    base.execute("PRAGMA synchronous=OFF")
    base.execute("BEGIN")
    base.execute(JOB_TABLE)
    base.execute(PART_TABLE)
    for job, (saved, parts) in jobs.items():
        if saved is not None:
            base.execute("INSERT INTO job VALUES (?, ?)", (job, saved))
        base.executemany("INSERT INTO part VALUES (?, ?, ?)", [(job, number, part) for number, part in parts.items()])
    base.execute("COMMIT")
    for statement in also:
        base.execute(statement)
    base.close()


def read_jobs(folder):
    """The jobs of the job file, and whether SQLite finds the file sound; None where it can't be read. The file isn't touched."""
    if not os.path.exists(os.path.join(folder, NAME)):
        return {}, True
    copy = os.path.join(folder, "copy")
    os.mkdir(copy)
    try:
        for name in (NAME, BESIDE):
            if os.path.exists(os.path.join(folder, name)):
                shutil.copy(os.path.join(folder, name), copy)
        return rows_of(os.path.join(copy, NAME))
    except (sqlite3.Error, OSError, UnicodeDecodeError):
        return None, False
    finally:
        shutil.rmtree(copy)


def rows_of(path):
    base = sqlite3.connect(path)
    base.text_factory = lambda text: text.decode(errors="backslashreplace")
    try:
        sound = base.execute("PRAGMA integrity_check").fetchall() == [("ok",)]
        texts = [row[0] for row in base.execute("SELECT sql FROM sqlite_schema WHERE sql IS NOT NULL ORDER BY name")]
        if texts != [JOB_TABLE, PART_TABLE]:
            return ({} if not texts else None), sound
        jobs = {name: (saved, {}) for name, saved in base.execute("SELECT name, saved FROM job")}
        for job, number, part in base.execute("SELECT job, number, bytes FROM part ORDER BY number"):
            jobs.setdefault(job, (None, {}))[1][number] = part
        return jobs, sound
    finally:
        base.close()


# ---- the saved text


class Reader:
    """Reads on in a text; `fault` is the first byte at which no text of the form goes on."""

    def __init__(self, text):
        self.text, self.at, self.fault = text, 0, None

    def word(self, *words):
        """One of these words, none of which begins another; the fault is where the last of them leaves."""
        furthest = 0
        for word in words:
            length = len(os.path.commonprefix([word, self.text[self.at :]]))
            if length == len(word):
                self.at += length
                return word
            furthest = max(furthest, length)
        self.fault = self.at + furthest
        raise ValueError

    def digits(self):
        """64 hex digits of either case."""
        for _ in range(64):
            if self.text[self.at : self.at + 1] not in re.findall(b".", b"0123456789abcdefABCDEF"):
                self.fault = self.at
                raise ValueError
            self.at += 1
        return self.text[self.at - 64 : self.at].lower().decode()

    def number(self, least, most):
        first, value = self.at, None
        while self.at < len(self.text) and 48 <= self.text[self.at] <= 57 and value != 0:
            value = (value or 0) * 10 + self.text[self.at] - 48
            if value > most or value < least:
                self.fault = self.at
                raise ValueError
            self.at += 1
        if self.at == first:
            self.fault = self.at
            raise ValueError
        return value

    def places(self, empty):
        """The word for none, or numbers with one blank between them."""
        if not self.text[self.at : self.at + 1].isdigit():
            return self.word(empty) and []
        found = [self.number(0, MOST)]
        while self.text[self.at : self.at + 1] == b" ":
            self.at += 1
            found.append(self.number(0, MOST))
        return found


def read_saved(text):
    """What a saved text says, or the place of its fault."""
    reader = Reader(text)
    try:
        version = reader.word(b"fund-saved 1\njob ", b"fund-saved 2\njob ")
        said = {"job": reader.digits()}
        reader.word(b"\ntries ")
        said["tries"] = reader.number(0, 2**64 - 1)
        reader.word(b"\nrow ")
        said["row"] = reader.number(0, 255)
        reader.word(b"\nstage ")
        said["stage"] = reader.word(*STAGES).decode()
        reader.word(b"\nchosen ")
        said["chosen"] = reader.places(b"-")
        reader.word(b"\nnext ")
        said["next"] = reader.number(0, MOST)
        reader.word(b"\nbest ")
        said["best"] = reader.places(b"none")
        reader.word(b"\nparts ")
        said["parts"] = reader.number(1, min(said["tries"], MOST - 1) + 1)
        if version.startswith(b"fund-saved 2"):
            reader.word(b"\nlog ")
            said["log"] = reader.digits()
        reader.word(b"\n")
        if reader.at < len(text):
            return None, reader.at
        return said, None
    except ValueError:
        return None, reader.fault


# ---- why a job is refused


def digest_of(files):
    """The digest of a job, of the bytes of its wallet, blocks and request."""
    return hashlib.sha256(b"".join(hashlib.sha256(file).digest() for file in files)).hexdigest()


def log_digest(parts, count):
    """The digest of the first parts of a log, one behind the other."""
    return hashlib.sha256(b"".join(parts[number] for number in range(count))).hexdigest()


def refusal_of(job, files):
    """The line by which the job is refused before its log is read, the files being in order; or None."""
    if job is None or job[0] is None:
        return b"fault saved NoJob\n"
    said, place = read_saved(job[0])
    if said is None:
        return b"fault saved SavedForm %d\n" % place
    now = digest_of(files)
    if said["job"] != now:
        return f"fault saved JobElse {said['job']} {now}\n".encode()
    if said["tries"] >= MOST_TRIES:
        return b"fault limit tries\n"
    size = 0
    for number in range(said["parts"]):
        if number not in job[1]:
            return b"fault saved SavedFalse Part %d\n" % number
        size += len(job[1][number])
        if size > MOST_BYTES:
            return b"fault limit log\n"
    kept, digest = said.get("log"), log_digest(job[1], said["parts"])
    return None if kept in (None, digest) else f"fault saved SavedFalse Parts {kept} {digest}\n".encode()


def gone_on(before, after, report):
    """What is wrong with a job that was gone on with and is unfinished again, by the report; or None. Rows with a number below 0
    are no parts."""
    said, _ = read_saved(before[0])
    kept = {number: part for number, part in before[1].items() if 0 <= number < said["parts"]}
    left = {number: part for number, part in after[1].items() if number >= 0}
    if sorted(left) != list(range(said["parts"] + 1)) or any(left[number] != part for number, part in kept.items()):
        return "the parts that were kept aren't followed by one more alone"
    return not_saved(after, said["job"], said["parts"] + 1, report)


def not_saved(job, digest, parts, report):
    """What is wrong with the saved text of a job of a report that is unfinished; or None."""
    now, place = read_saved(job[0])
    if now is None:
        return f"the saved text leaves its form at {place}"
    told = b"unfinished\ntries %d\nrow %d\nstage %s\n" % (now["tries"], now["row"], now["stage"].encode())
    if told != report or now["job"] != digest or now["parts"] != parts or now.get("log") != log_digest(job[1], parts):
        return f"the saved text has {now}"
    return None
