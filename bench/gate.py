#!/usr/bin/env python3
"""Measures what the gate's checks cost, in processor seconds.

Usage: bench/gate.py proof CRATE          the functions of a crate, dearest first
       bench/gate.py watch FOLDER FILE    over a run of `rt ci` in FOLDER, until it ends
       bench/gate.py table FILE           what FILE has, crate by crate
       bench/gate.py touch FILE           what a change of each crate costs, by FILE

proof checks the crate from nothing at one job, as the gate does, over libraries that are built: `rt check` in its folder
builds them. Between two lines 'checked FUNCTION' the prover has spent what the second function took. The first of a crate
bears what is read before it, and the first that uses a part of std bears the reading of that part.
watch looks once a second at the processes that rt has started there. As each ends FILE gets a line: the time, the crate,
the kind, the seconds. A process ends up to a second after it was last seen, which is left out. Kinds are proof; edit, which
has the ground of a crate's edits too; build, of a program by two compilers; and run. What rt itself spends goes by the name rt.
It waits for a run to begin. A run of `rt ci CRATE..` works on a copy elsewhere. So it is known by a shell in FOLDER that started it.
table prints for each crate the seconds of each kind, and its proof as a multiple of tx_codec's. Last stand the crates above 1.6.
touch prints for each crate how many crates are proved again when it changes, itself among them, and what all of these take.
"""
import collections, importlib.machinery, importlib.util, os, re, shutil, subprocess, sys, time

TOP = os.path.dirname(os.path.dirname(os.path.abspath(__file__)))
TICK = os.sysconf("SC_CLK_TCK")
KINDS = ("proof", "edit", "build", "run")
YARDSTICK, MOST = "tx_codec", 1.6


def stat_of(pid):
    """The parent of a process, when it began, its processor seconds, and those with its ended children's; None when it is gone."""
    try:
        fields = open(f"/proc/{pid}/stat").read().rpartition(")")[2].split()
    except OSError:
        return None
    own, ended = (sum(int(fields[at]) for at in pair) / TICK for pair in ((11, 12), (13, 14)))
    return int(fields[1]), fields[19], own, own + ended


def words_of(pid):
    try:
        return open(f"/proc/{pid}/cmdline", "rb").read().decode(errors="replace").split("\0")[:-1]
    except OSError:
        return []


def folder_of(pid):
    try:
        return os.readlink(f"/proc/{pid}/cwd")
    except OSError:
        return ""


def kit():
    """The kit's own module, which knows the words of a check."""
    path = os.path.join(os.path.dirname(os.path.realpath(shutil.which("rattle"))), "rtlib.py")
    loader = importlib.machinery.SourceFileLoader("rtlib", path)
    made = importlib.util.module_from_spec(importlib.util.spec_from_loader("rtlib", loader))
    sys.modules["rtlib"], sys.dont_write_bytecode = made, True
    loader.exec_module(made)
    return made


def proof(name):
    rtlib = kit()
    os.chdir(TOP)
    crate = next((it for it in rtlib.crates_below(TOP) if it.name == name), None)
    if crate is None:
        sys.exit(f"no crate {name}")
    unbuilt = [it.name for it in crate.below() if not os.path.isdir(it.rlib)]
    if unbuilt:
        sys.exit(f"not built: {' '.join(unbuilt)}")
    words = [rtlib.RATTLE, "check", *crate.words(["--jobs", "1"], keeps=False), "--empty-contracts", "--progress"]
    ran = subprocess.Popen(words, cwd=crate.folder, stdin=subprocess.DEVNULL, stdout=subprocess.PIPE, stderr=subprocess.STDOUT, text=True)
    spent, before, last = [], 0.0, ""
    for line in ran.stdout:
        last = line.strip() or last
        found = re.match(r"checked (\S+), \d+ of \d+", line)
        if found:
            now = (stat_of(ran.pid) or (0, 0, 0, before))[3]
            spent.append((now - before, found[1]))
            before = now
    _, status, used = os.wait4(ran.pid, 0)
    first = spent[0][1] if spent else ""
    for seconds, function in sorted(spent, reverse=True):
        print(f"{seconds:8.2f}  {function}{' (the first)' if function == first else ''}")
    print(f"{used.ru_utime + used.ru_stime:8.2f}  {name}: {len(spent)} functions; {last}")
    return 1 if status else 0


def crate_and_kind(words, folder):
    """Of a process that rt started its crate and kind; None where it is neither a proof nor an edit, a build or a run."""
    program = next((found[1] for found in (re.search(r"/rt-run-[^/]*/bin/(\w+)$", word) for word in words) if found), None)
    if program:
        return re.sub("_tests$", "", program), "run"
    tool = os.path.basename(words[0])
    name = words[words.index("--crate-name") + 1] if "--crate-name" in words[:-1] else (re.findall(r"/crates/(\w+)", folder) or [""])[-1]
    if not name or not (tool.startswith("rattle") or tool in ("cc", "clang")):
        return None
    if os.path.basename(folder).startswith("rt-edit-"):
        return name, "edit"
    return name, "proof" if words[1:2] == ["check"] or "--statements" in words else "build"


class Watch:
    def __init__(self, top, out):
        self.top, self.out, self.live, self.runs, self.judged = os.path.realpath(top), out, {}, set(), {}

    def is_run(self, pid, stats):
        """Whether this is an rt ci of the folder: by its own folder, or by that of a process that started it."""
        key = (pid, stats[pid][1])
        if key not in self.judged:
            words = words_of(pid)
            is_rt = any(os.path.basename(word) == "rt" and words[at + 1 : at + 2] == ["ci"] for at, word in enumerate(words[:3]))
            while is_rt and pid in stats and not (folder_of(pid) + "/").startswith(self.top + "/"):
                pid = stats[pid][0]
            self.judged[key] = is_rt and pid in stats
        return self.judged[key]

    def look(self):
        """Looks once; answers whether a run is there."""
        stats = {int(pid): stat for pid, stat in ((pid, stat_of(pid)) for pid in os.listdir("/proc") if pid.isdigit()) if stat}
        below = collections.defaultdict(list)
        for pid, stat in stats.items():
            below[stat[0]].append(pid)
        runs, now = [pid for pid in stats if self.is_run(pid, stats)], set()
        for run in runs:
            now.add(self.keep(run, stats, ("rt", "rt"), stats[run][2]))
            for pid in below[run]:
                words = words_of(pid)
                found = crate_and_kind(words, folder_of(pid)) if words else None
                tree, seconds = [pid], 0.0
                while tree:
                    seconds += stats[tree[-1]][3]
                    tree += below[tree.pop()]
                now.add(self.keep(pid, stats, found, seconds))
        for key in [key for key in self.live if key not in now]:
            (crate, kind), seconds = self.live.pop(key)
            print(time.strftime("%H:%M:%S"), crate, kind, f"{seconds:.2f}", sep="\t", file=self.out, flush=True)
        return bool(runs)

    def keep(self, pid, stats, found, seconds):
        key = (pid, stats[pid][1])
        if found or key in self.live:
            self.live[key] = (found or self.live[key][0], max(seconds, self.live.get(key, (None, 0.0))[1]))
        return key


def watch(folder, file):
    with open(file, "w") as out:
        it, has_begun = Watch(folder, out), False
        while it.look() or not has_begun:
            has_begun = has_begun or bool(it.live)
            time.sleep(1)
    return 0


def table(file):
    spent = collections.defaultdict(lambda: dict.fromkeys(KINDS, 0.0))
    own = 0.0
    for line in open(file):
        _, crate, kind, seconds = line.split()
        if kind in KINDS:
            spent[crate][kind] += float(seconds)
        else:
            own += float(seconds)
    one = spent[YARDSTICK]["proof"] if YARDSTICK in spent else 0.0
    times = {crate: seconds["proof"] / one for crate, seconds in spent.items() if one and seconds["proof"]}
    print("| Crate | Proof | Edits | Builds | Runs | Times tx_codec's proof |\n|---|---|---|---|---|---|")
    for crate, seconds in spent.items():
        cells = [f"{seconds[kind]:.0f}" if seconds[kind] else "" for kind in KINDS]
        print(f"| {crate} | {' | '.join(cells)} | {f'{times[crate]:.2f}' if crate in times else ''} |")
    sums = [sum(seconds[kind] for seconds in spent.values()) for kind in KINDS]
    print(f"| all | {' | '.join(f'{seconds:.0f}' for seconds in sums)} | |")
    print(f"All together {sum(sums) + own:.0f} seconds, {own:.0f} of them rt's own.")
    above = sorted(((many, crate) for crate, many in times.items() if many > MOST), reverse=True)
    print(f"Above {MOST} times {YARDSTICK}:", ", ".join(f"{crate} {many:.2f}" for many, crate in above) or ("none" if one else "not known"))
    return 0


def stands_on():
    """Of each crate of crates.txt the names of what it stands on."""
    lines = [line.split("#")[0].split(":") for line in open(f"{TOP}/crates.txt")]
    return {line[0].split()[0]: line[1].split() for line in lines if len(line) == 2}


def touch(file):
    spent = collections.Counter()
    for line in open(file):
        _, crate, _, seconds = line.split()
        spent[crate] += float(seconds)
    direct = stands_on()
    again = {crate: {crate} for crate in direct}
    grows = True
    while grows:
        more = {crate: names.union(*(again[it] for it in direct if not names.isdisjoint(direct[it]))) for crate, names in again.items()}
        grows, again = more != again, more
    print("| Crate | Crates | Seconds |\n|---|---|---|")
    for crate in sorted(again, key=lambda name: -sum(spent[it] for it in again[name])):
        print(f"| {crate} | {len(again[crate])} | {sum(spent[it] for it in again[crate]):.0f} |")
    return 0


def main():
    verbs = {"proof": (proof, 1), "watch": (watch, 2), "table": (table, 1), "touch": (touch, 1)}
    words = sys.argv[1:]
    if not words or words[0] not in verbs or len(words) - 1 != verbs[words[0]][1]:
        sys.exit(__doc__)
    sys.exit(verbs[words[0]][0](*words[1:]))


if __name__ == "__main__":
    main()
