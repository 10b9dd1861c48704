"""Runs a gate and writes its log with times, and makes a table of such a log."""
import os, re, subprocess, sys, threading, time

KINDS = ("proof", "tests", "edits")
LINES = (
    ("proof", re.compile(r"rt: (\w+) (?:NOT )?(?:PROVED|proved)")),
    ("tests", re.compile(r"rt: (\w+): its tests are (?:NOT )?(?:PROVED|proved)")),
    ("edits", re.compile(r"rt: (\w+): trying its must-fail edits \((\d+)\)")),
    ("took", re.compile(r"bench: (\w+) (proof|tests|edits) ([\d.]+)")),
)
TICKS = os.sysconf("SC_CLK_TCK")

# ---- running

def kind_of(words):
    """What a process of the prover works at: edits are checks that leave nothing."""
    if "--test" in words:
        return "tests"
    return "edits" if words[1] == "check" and "-o" not in words else "proof"

def parents():
    """The parent of each process."""
    found = {}
    for pid in filter(str.isdigit, os.listdir("/proc")):
        try:
            with open("/proc/%s/stat" % pid) as file:
                found[int(pid)] = int(file.read().rpartition(")")[2].split()[1])
        except OSError:
            pass
    return found

def is_below(pid, top, above):
    while pid in above and pid != top:
        pid = above[pid]
    return pid == top

def look(top, seen):
    """Notes the processor seconds that each process of the prover below `top` has used so far."""
    above = parents()
    for pid in above:
        if not is_below(pid, top, above):
            continue
        try:
            with open("/proc/%d/cmdline" % pid) as file:
                words = file.read().split("\0")
            with open("/proc/%d/stat" % pid) as file:
                fields = file.read().rpartition(")")[2].split()
        except OSError:
            continue
        if os.path.basename(words[0]) == "rattle" and "--crate-name" in words:
            crate = words[words.index("--crate-name") + 1]
            # (a number may be given to a later process, but not with the same start)
            seen[crate, kind_of(words), pid, fields[19]] = (int(fields[11]) + int(fields[12])) / TICKS

def run(log, command):
    start, seen, done = time.monotonic(), {}, threading.Event()
    process = subprocess.Popen(command, stdout=subprocess.PIPE, stderr=subprocess.STDOUT, text=True, errors="replace")

    def watch():
        while not done.wait(0.5):
            look(process.pid, seen)

    watcher = threading.Thread(target=watch)
    watcher.start()
    with open(log, "w") as file:
        for line in process.stdout:
            file.write("%.1f %s" % (time.monotonic() - start, line))
            file.flush()
        status = process.wait()
        done.set()
        watcher.join()
        sums = {}
        for (crate, kind, _, _), taken in seen.items():
            sums[crate, kind] = sums.get((crate, kind), 0) + taken
        for (crate, kind), taken in sums.items():
            file.write("%.1f bench: %s %s %.1f\n" % (time.monotonic() - start, crate, kind, taken))
    return status

# ---- the table

def events(log):
    """What the log's lines say: seconds, kind, crate and the rest, in their order, and the seconds at its end."""
    found, last = [], 0.0
    with open(log, errors="replace") as file:
        for line in file:
            at, _, text = line.rstrip("\n").partition(" ")
            if not re.fullmatch(r"[\d.]+", at):
                continue
            last = float(at)
            for kind, pattern in LINES:
                match = pattern.match(text)
                if match:
                    found.append((last, kind, *match.groups()))
    return found, last

def between(found, end):
    """The seconds of each line since the one before; edits end where the next line stands."""
    taken, last, trying = {}, 0.0, None
    for at, kind, crate, *_ in found + [(end, "end", "")]:
        of = trying or ((crate, kind) if kind in ("proof", "tests") else None)
        if of:
            taken[of] = taken.get(of, 0) + at - last
        trying, last = ((crate, "edits") if kind == "edits" else None), at
    return taken

def table(log):
    found, end = events(log)
    taken = {(crate, kind): float(much) for _, what, crate, *rest in found if what == "took" for kind, much in [rest]}
    found = [it for it in found if it[1] != "took"]
    at = {(it[2], it[1]): it[0] for it in found}
    count = {it[2]: it[3] for it in found if it[1] == "edits"}
    print("processor seconds" if taken else "seconds since the line before", "and the second of the line, of %.0f" % end)
    taken = taken or between(found, end)
    print("%-16s %8s %8s %8s %5s   %9s %9s %9s" % ("crate", *KINDS, "count", "proved", "tests", "edits"))
    crates = sorted({crate for crate, _ in [*taken, *at]}, key=lambda crate: -sum(taken.get((crate, kind), 0) for kind in KINDS))
    shown = lambda numbers, key: "%.0f" % numbers[key] if key in numbers else "-"
    for crate in crates:
        keys = [(crate, kind) for kind in KINDS]
        print("%-16s %8s %8s %8s %5s   %9s %9s %9s" % (
            crate, *(shown(taken, key) for key in keys), count.get(crate, "-"), *(shown(at, key) for key in keys)))
    sums = [sum(much for (_, kind), much in taken.items() if kind == it) for it in KINDS]
    print("%-16s %8.0f %8.0f %8.0f %5d" % ("all", *sums, sum(map(int, count.values()))))

if sys.argv[1] == "run":
    sys.exit(run(sys.argv[2], sys.argv[3:]))
table(sys.argv[2])
