#!/usr/bin/env python3
"""Tries the edits of edits/CRATE/*.edit, or the gate's of crates/CRATE/must-fail/*.edit: the prover must refuse each.

Usage: tests/edits.py [--gate] [--jobs N] [--proved] [--each] [CRATE..|CRATE/EDIT..]     (at the top of the repository; none: all)

An edit has the form that must-fail edits have: a line 'file: src/x.rt', then pairs of lines 'old: TEXT' and 'new: TEXT',
each TEXT standing once in that file. A function is proved against its own contract and those of what it calls. So edits in
different functions are tried in one check of those functions alone. Each is refused where a function that it touches isn't
proved, and let through where all of them are. An edit outside a function, or one of which a shared check says neither, is
tried alone, by a check of the whole crate: then it is refused where that fails. A line says which goals of an edit stayed open.
A line '# refused by: FUNCTION GOAL' of an edit names the goal that must stay open, with its function as a check names it, less
the crate. Where that one is closed and another is open, the edit is refused by another goal. That shows a proof's shape, and no
promise. rt reads no such line.
--gate tries the gate's edits in place of those of edits/. --jobs N is handed on to rt check. --proved leaves out the check before
any edit: for a tree that rt ci has passed. --each gives each edit a check of its own, so that the first results come soon.
The last line is 'N refused, M let through, K that don't apply, L refused by another goal'; an edit that doesn't compile is one
that doesn't apply. The status is 0 where M, K and L are 0.
"""
import collections, os, re, shutil, subprocess, sys, tempfile, time

TOP = os.path.dirname(os.path.dirname(os.path.abspath(__file__)))
ITEM = re.compile(r"\bfn (\w+)|^ *(?:pub )?(?:const|static|struct|enum|trait|mod)\b|^impl\b.*|^}", re.M)

NAMED = "# refused by: "

# its name, its pairs of lines, the functions that it touches, and the function and the goal that it names, if any
Edit = collections.namedtuple("Edit", "name parts paths named")


def read_edit(path):
    """The edit as a list of (file, old, new)."""
    file, old, parts = None, None, []
    for line in open(path):
        line = line.rstrip("\n")
        if line.startswith("file: "):
            file = line[6:].strip()
        elif line.startswith("old: "):
            old = line[5:]
        elif line.startswith("new: "):
            parts.append((file, old, line[5:]))
    return parts


def named_goal(path):
    """The function and the goal that must refuse the edit, as it names them; None where it names none."""
    lines = [line[len(NAMED) :].split() for line in open(path) if line.startswith(NAMED)]
    return tuple(lines[0]) if lines else None


def apply(folder, parts):
    """Applies an edit; answers its error, or None."""
    texts = {}
    for file, old, new in parts:
        path = f"{folder}/{file}"
        if path not in texts:
            if not os.path.isfile(path):
                return f"no file {file}"
            texts[path] = open(path).read()
        if texts[path].count(old) != 1:
            return f"'{old}' stands {texts[path].count(old)} times in {file}"
        texts[path] = texts[path].replace(old, new)
    for path, text in texts.items():
        open(path, "w").write(text)
    return None


def module_of(file):
    """The path below the crate of a file of src/: '' of its root."""
    path = re.sub(r"^src/|\.rt$", "", file).split("/")
    return "::".join(word for word in path if word not in ("lib", "main", "mod"))


def bare(head):
    """The text without what stands in angle brackets, one within another too."""
    kept, depth = "", 0
    for at, letter in enumerate(head):
        if letter == ">" and head[at - 1] != "-":
            depth -= 1
        elif letter == "<":
            depth += 1
        elif depth == 0:
            kept += letter
    return kept


def owner_of(head):
    """The type that an impl is for, with its trait behind it, as a check names both; None where a trait has arguments."""
    words = re.sub(r"\s*\bwhere\b.*$", "", bare(head.split("{")[0].replace("impl", "", 1)))
    trait, _, name = words.rpartition(" for ")
    if trait and re.search(r"> for ", head):
        return None
    return name.strip() + trait.strip()


def home_of(folder, owner):
    """The path of the module that declares a type, by which a check names the functions of its impls; None where none or several do."""
    homes = []
    for root, _, files in os.walk(f"{folder}/src"):
        homes += [os.path.relpath(f"{root}/{file}", folder) for file in files if re.search(rf"\b(?:struct|enum) {owner}\b", open(f"{root}/{file}").read())]
    return module_of(homes[0]) if len(homes) == 1 else None


def reached(folder):
    """Of each function of a crate the names of those that it calls, also through others."""
    bodies = {}
    for root, _, files in os.walk(f"{folder}/src"):
        for file in files:
            text = open(f"{root}/{file}").read()
            heads = [*re.finditer(r"\bfn (\w+)", text)]
            for head, end in zip(heads, [*(it.start() for it in heads[1:]), len(text)]):
                bodies[head.group(1)] = bodies.get(head.group(1), "") + text[head.end() : end]
    calls = {name: {word for word in re.findall(r"\b(\w+)(?=\()", body) if word in bodies} - {name} for name, body in bodies.items()}
    grows = True
    while grows:
        more = {name: called.union(*(calls[it] for it in called)) for name, called in calls.items()}
        grows, calls = more != calls, more
    return calls


def touched(folder, parts):
    """The paths of the functions in which the edit's old lines stand; None for what stands outside one."""
    paths = set()
    for file, old, _ in parts:
        if not file.endswith(".rt"):
            paths.add(None)
            continue
        if old.startswith("use "):
            # (what it brings is used where the edit's other lines stand)
            continue
        text, module = open(f"{folder}/{file}").read(), module_of(file)
        line_end = text.find("\n", text.find(old))
        name, owner = None, ""
        for match in reversed(list(ITEM.finditer(text, 0, line_end if line_end >= 0 else len(text)))):
            if name is None and match.group(1):
                name = match.group(1)
                if not text[text.rfind("\n", 0, match.start()) + 1].isspace():
                    break
            elif name is None or match.group(0) == "}":
                break
            elif match.group(0).startswith("impl"):
                owner = owner_of(match.group(0))
                break
        if name is None:
            paths.add(None)
        elif owner is None:
            paths.add(module or None)
        else:
            home = home_of(folder, owner) if owner.isidentifier() else None
            paths.add("::".join(word for word in (module if home is None else home, owner, name) if word))
    return paths or {None}


def below(crate):
    """The crate and the crates of the repository that it stands on."""
    lines = [line.split("#")[0].split(":") for line in open(f"{TOP}/crates.txt")]
    stands_on = {line[0].split()[0]: line[1].split() for line in lines if len(line) == 2}
    names, left = set(), [crate]
    while left:
        name = left.pop()
        if name in stands_on and name not in names:
            names.add(name)
            left += stands_on[name]
    return names


def copy(crate, room):
    """A copy of the crate and of those below it, with their proved work, to check in."""
    for name in ("crates.txt", "HANDLES"):
        shutil.copy(f"{TOP}/{name}", f"{room}/{name}")
    os.makedirs(f"{room}/crates")
    os.mkdir(f"{room}/.git")
    names = below(crate)
    for name in names:
        subprocess.check_call(["cp", "-a", "--reflink=auto", f"{TOP}/crates/{name}", f"{room}/crates/{name}"])
    lines = [line for line in open(f"{room}/crates.txt") if line.split(":")[0].split()[:1] and line.split(":")[0].split()[0] in names]
    open(f"{room}/crates.txt", "w").writelines(lines)


def answered(path, number):
    """The goal to which this line of a file of answers belongs: that of the last line before it that begins with a name."""
    heads = [re.match(r"(?:pub )?([^\s:]+)", line) for line in open(path).read().split("\n")[:number]]
    return [head.group(1) for head in heads if head][-1]


class Check:
    """A check of a crate: its status, what it printed, and for each function that isn't proved why, and its open goals."""

    def __init__(self, folder, paths, jobs):
        words = ["rt", "check", *jobs]
        for path in sorted(paths):
            words += ["--only", path]
        ran = subprocess.run(words, cwd=folder, stdout=subprocess.PIPE, stderr=subprocess.STDOUT, text=True, errors="replace")
        self.status, self.out, self.why, self.open = ran.returncode, ran.stdout, {}, {}
        self.proved = set(re.findall(r"^fn \w+::(\S+): proved", self.out, re.M))
        # (else the front end refused the text, or no function has such a path)
        self.is_judged = bool(re.search(r"^(only|logic)=", self.out, re.M))
        self.read_open(folder)
        for line in self.out.split("\n"):
            found = re.match(r"fn \w+::(\S+): (?:no proof|not proved):? ?(?!.*(?:it calls|it passes|a call of))(.*)", line)
            if found:
                goals = re.findall(r"did not prove (.*)", found.group(2))
                self.why.setdefault(found.group(1), goals[0] if goals else found.group(2)[:160])
            found = re.search(r"proofs/((?:[^/\s]+/)*)(?:Answers|Invariants|Proof)\.antt:\d+:\d+: error:? ?(.*)", line)
            if found:
                self.why.setdefault(found.group(1).strip("/").replace("/", "::"), found.group(2)[:160])

    def read_open(self, folder):
        """Each goal that stayed open: one of which a note stands before its function's line, or of which a file has the answer."""
        noted = []
        for line in self.out.split("\n"):
            noted += re.findall(r"^note: \S+: it is not proved that .*?\(`([^`]+)`\)", line)
            found = re.match(r"fn \w+::(\S+): (.*)", line)
            if found and not found.group(2).startswith("proved"):
                listed = re.findall(r"did not prove ((?:`[^`]*`(?:, )?)+)", found.group(2))
                self.open.setdefault(found.group(1), set()).update(noted, re.findall(r"`([^`]*)`", "".join(listed)))
            noted = [] if found else noted
            found = re.search(r"(proofs/((?:[^/\s]+/)*)(?:Answers|Invariants)\.antt):(\d+):\d+: error", line)
            if found:
                name = found.group(2).strip("/").replace("/", "::")
                self.open.setdefault(name, set()).add(answered(f"{folder}/{found.group(1)}", int(found.group(3))))

    def is_by(self, named):
        """Whether the goal that an edit names stayed open, or it names none."""
        return named is None or named[1] in self.open.get(named[0], ())

    def goals(self, paths):
        """What stayed open in these functions, or in those of these modules; '' where nothing did."""
        said = [f"{name}: {why}" for name, why in self.why.items() for path in paths if path and (name == path or name.startswith(path + "::"))]
        return "; ".join(said)


def batches(edits, calls):
    """Edits in groups of which no two touch one function, or two of which one reaches the other: its goals wouldn't be told. Nor do
    two of a group change one line."""
    groups = []
    for edit in edits:
        for group in groups:
            if not any(meet(one, other, calls) for one in group[1] for other in edit.paths) and not any(share_a_line(it, edit) for it in group[0]):
                group[0].append(edit)
                group[1].update(edit.paths)
                break
        else:
            groups.append(([edit], set(edit.paths)))
    return [group[0] for group in groups]


def share_a_line(one, other):
    return any(file == its_file and (old in its_old or its_old in old) for file, old, _ in one.parts for its_file, its_old, _ in other.parts)


def meet(one, other, calls):
    a, b = one.split("::")[-1], other.split("::")[-1]
    return one == other or one.startswith(other + "::") or other.startswith(one + "::") or b in calls.get(a, ()) or a in calls.get(b, ())


class Crate:
    def __init__(self, name, room, jobs):
        self.name, self.room, self.jobs = name, room, jobs
        self.folder = f"{room}/crates/{name}"
        copy(name, room)
        # (rt check tells of each that no longer applies)
        shutil.rmtree(f"{self.folder}/must-fail", ignore_errors=True)
        self.kept = f"{room}/kept"
        for part in ("src", "specs", "proofs"):
            if os.path.isdir(f"{self.folder}/{part}"):
                shutil.copytree(f"{self.folder}/{part}", f"{self.kept}/{part}", symlinks=True)

    def fresh(self):
        """Puts the files back. What earlier checks kept in out/ stays: the next takes of it what is still up to date."""
        for part in ("src", "specs", "proofs"):
            shutil.rmtree(f"{self.folder}/{part}", ignore_errors=True)
            if os.path.isdir(f"{self.kept}/{part}"):
                shutil.copytree(f"{self.kept}/{part}", f"{self.folder}/{part}", symlinks=True)

    def tried(self, group, paths):
        self.fresh()
        for edit in group:
            apply(self.folder, edit.parts)
        return Check(self.folder, paths, self.jobs)

    def does_compile(self, edit):
        tried = self.tried([edit], [""])
        return tried.is_judged or tried.status == 0

    def group(self, edits):
        """Tries edits in one check; answers (edit, goals, whether its own is among them) of each that it refuses, those that are
        proved, and the others."""
        paths = set().union(*(edit.paths for edit in edits))
        check = self.tried(edits, paths)
        if check.status == 2:
            # (a path that the check doesn't know: the modules of all)
            edits = [edit._replace(paths={module_of(file) for file, _, _ in edit.parts}) for edit in edits]
            check = self.tried(edits, set().union(*(edit.paths for edit in edits)) - {""})
        goals = [(edit, check.goals(edit.paths) if check.is_judged and check.status == 1 else "", check.is_by(edit.named)) for edit in edits]
        left = [edit for edit, why, _ in goals if not why]
        proved = [edit for edit in left if edit.paths <= check.proved]
        return [it for it in goals if it[1]], proved, [edit for edit in left if edit not in proved], check.is_judged

    def read_edits(self, home, chosen):
        """The edits of a folder: those that touch functions alone, the others, and what is wrong with those that don't apply."""
        shared, alone, broken = [], [], []
        for file in sorted(os.listdir(home)):
            if not file.endswith(".edit") or chosen and file[:-5] not in chosen:
                continue
            name, parts = file[:-5], read_edit(f"{home}/{file}")
            self.fresh()
            paths = touched(self.folder, parts) if all(os.path.isfile(f"{self.folder}/{p[0]}") for p in parts) else {None}
            fault = apply(self.folder, parts) if parts else "no pair of lines 'old:' and 'new:'"
            if fault:
                broken.append(f"{name}: {fault}")
            else:
                (alone if None in paths else shared).append(Edit(name, parts, paths, named_goal(f"{home}/{file}")))
        self.fresh()
        return shared, alone, broken


class Tally:
    """What came of the edits of a crate, each as a line."""

    def __init__(self, crate):
        self.crate, self.refused, self.through, self.broken, self.other = crate, [], [], [], []

    def take(self, edit, why, is_by, how="refused"):
        """An edit that is refused, for what stayed open."""
        line = f"{edit.name}: {how}: {why}"
        if not is_by:
            line = f"{edit.name}: REFUSED BY ANOTHER GOAL than {' '.join(edit.named)}: {why}"
        (self.refused if is_by else self.other).append(line)
        print(f"{self.crate}: {line}", flush=True)

    def counts(self):
        return len(self.refused), len(self.through), len(self.broken), len(self.other)

    def end(self, seconds):
        for name in self.through:
            print(f"{self.crate}: {name}: LET THROUGH")
        for line in self.broken:
            print(f"{self.crate}: {line}: DOESN'T APPLY")
        print(f"{self.crate}: {told(self.counts())}, in {seconds:.0f} seconds", flush=True)


def told(counts):
    return "%d refused, %d let through, %d that don't apply, %d refused by another goal" % tuple(counts)


def try_alone(crate, edit, tally):
    """Tries an edit by a check of the whole crate."""
    check = crate.tried([edit], set())
    if not check.is_judged:
        tally.broken.append(f"{edit.name}: it doesn't compile")
        print(check.out[-1500:])
    elif check.status == 1:
        why = "; ".join(f"{name}: {why}" for name, why in check.why.items())
        tally.take(edit, why, check.is_by(edit.named), "refused (alone)")
    else:
        tally.through.append(edit.name)
        print(check.out[-1500:])


def try_crate(name, home, chosen, jobs, is_proved, is_each):
    began, tally = time.time(), Tally(name)
    with tempfile.TemporaryDirectory(prefix="edits-") as room:
        crate = Crate(name, room, jobs)
        shared, alone, tally.broken = crate.read_edits(home, chosen)
        if not is_proved:
            first = Check(crate.folder, set().union(*(it.paths for it in shared)) if not alone else set(), jobs)
            if first.status:
                print(first.out[-2000:])
                sys.exit(f"{name}: isn't proved before any edit")
        for group in [[edit] for edit in shared] if is_each else batches(shared, reached(crate.folder)):
            taken, proved, left, is_judged = crate.group(group)
            if not is_judged and len(group) > 1:
                good = [it for it in group if crate.does_compile(it)]
                tally.broken += [f"{it.name}: it doesn't compile" for it in group if it not in good]
                taken, proved, left, is_judged = crate.group(good) if good else ([], [], [], True)
            for edit, why, is_by in taken:
                tally.take(edit, why, is_by)
            for edit in proved:
                tally.through.append(edit.name)
                print(f"{name}: {edit.name}: proved", flush=True)
            alone += left
        for edit in alone:
            try_alone(crate, edit, tally)
    tally.end(time.time() - began)
    return tally.counts()


def main():
    words, jobs = sys.argv[1:], []
    is_gate, is_proved, is_each = ("--gate" in words, "--proved" in words, "--each" in words)
    words = [word for word in words if word not in ("--gate", "--proved", "--each")]
    if "--jobs" in words:
        at = words.index("--jobs")
        jobs = words[at : at + 2]
        del words[at : at + 2]
    home = TOP + ("/crates/%s/must-fail" if is_gate else "/edits/%s")
    all_crates = [crate for crate in sorted(os.listdir(f"{TOP}/{'crates' if is_gate else 'edits'}")) if os.path.isdir(home % crate)]
    chosen = {}
    for word in words or all_crates:
        crate, _, edit = word.partition("/")
        chosen.setdefault(crate, set()).update({edit} - {""})
    totals = [sum(counts) for counts in zip(*(try_crate(name, home % name, edits, jobs, is_proved, is_each) for name, edits in chosen.items()))]
    print(told(totals))
    sys.exit(1 if sum(totals[1:]) else 0)


if __name__ == "__main__":
    main()
