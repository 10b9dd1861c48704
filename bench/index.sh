#!/bin/sh
# Spots of names of 30 bytes in 1,000 folders in an index of versions, 10,000 and 1,000,000 of them: the seconds in
# which all come in, in no order, with the time in which they go again; the nanoseconds of a seek of one of them; and
# the microseconds of pages of 1,000 rows from one place after the other: of names, of versions, and of folders, which
# begin with the first since there are no more. Beside it SQLite in memory (one table with the same key), `std::map`
# and `absl::btree_map` (bench/index.cc), in turn. The rows of the pages are whole versions, those beside them numbers.
# Then the peak of memory for each row above its name.
#
# It needs `rt`, Python 3, a C++ compiler ($CXX, or c++), pkg-config, and SQLite's and Abseil's libraries with their
# headers (Debian: libsqlite3-dev, libabsl-dev). Run it by hand, on a machine that does nothing else and has 3 GiB free.
# The first word is the number of runs, else 3.
set -e
. "$(dirname "$0")/program.sh"
build bench_index seek 10000 10
${CXX:-c++} -O2 -std=c++17 -march=x86-64-v2 -o "$folder/index" "$here/index.cc" -lsqlite3 $(pkg-config --libs absl_btree)
python3 - "$program" "$folder/index" "${1:-3}" <<'PYTHON'
import os, sys, time

ours, peer, RUNS = sys.argv[1], sys.argv[2], int(sys.argv[3])
FEW, MANY = 10_000, 1_000_000
NAME = 30
STORES = {"ours": [ours], "SQLite": [peer, "sqlite"], "std::map": [peer, "std"], "absl": [peer, "absl"]}
# What is done, how often, and what one of it counts: the unit and how many there are in a second.
ASKED = {"seek": (1_000_000, "ns", 1e9), "names": (5_000, "us", 1e6), "folders": (5_000, "us", 1e6), "versions": (5_000, "us", 1e6)}

def run(store, what, rows, times):
    """Seconds of the processor, peak resident bytes and what was printed."""
    reads, writes = os.pipe()
    pid = os.fork()
    if pid == 0:
        os.dup2(writes, 1)
        command = STORES[store] + [what, str(rows), str(times)]
        os.execvp(command[0], command)
    os.close(writes)
    with os.fdopen(reads) as printed:
        told = printed.read()
    _, status, usage = os.wait4(pid, 0)
    assert status == 0, (store, what, status)
    return usage.ru_utime + usage.ru_stime, usage.ru_maxrss * 1024, int(told)

def measure():
    """Of each store, what and number of rows the least seconds of none and of many, and the most bytes."""
    least, most = {}, {}
    for _ in range(RUNS):
        for what, (times, _, _) in ASKED.items():
            for rows in (FEW, MANY):
                told = set()
                for store in STORES:
                    for count in (0, times):
                        seconds, peak, sum = run(store, what, rows, count)
                        key = store, what, rows, count
                        least[key] = min(seconds, least.get(key, seconds))
                        most[key] = max(peak, most.get(key, peak))
                    told.add(sum)
                assert len(told) == 1, (what, rows, told)
    return least, most

least, most = measure()
empty = {store: min(run(store, "seek", 0, 0)[:2] for _ in range(RUNS)) for store in STORES}

def one(store, what, rows):
    """The seconds of one."""
    times = ASKED[what][0]
    return (least[store, what, rows, times] - least[store, what, rows, 0]) / times

print("%-28s" % "rows in order" + "".join("%12s" % store for store in STORES) + "   of absl   of least of others")
for rows in (FEW, MANY):
    fill = {store: least[store, "seek", rows, 0] - empty[store][0] for store in STORES}
    print("%-28s" % ("%d rows come in, s" % rows) + "".join("%12.3f" % fill[store] for store in STORES)
          + "   %7.2f   %7.2f" % (fill["ours"] / fill["absl"], fill["ours"] / min(fill["SQLite"], fill["std::map"])))
    for what, (_, unit, scale) in ASKED.items():
        taken = {store: one(store, what, rows) * scale for store in STORES}
        print("%-28s" % ("%s of %d, %s" % (what, rows, unit)) + "".join("%12.1f" % taken[store] for store in STORES)
              + "   %7.2f   %7.2f" % (taken["ours"] / taken["absl"], taken["ours"] / min(taken["SQLite"], taken["std::map"])))
above = {store: (most[store, "seek", MANY, 0] - empty[store][1]) / MANY - NAME for store in STORES}
print("%-28s" % "bytes a row above its name" + "".join("%12.1f" % above[store] for store in STORES))
flat = {what: one("ours", what, MANY) / one("ours", what, FEW) for what in ("names", "folders", "versions")}
print("pages of %d rows beside those of %d: " % (MANY, FEW) + ", ".join("%s %.2f" % each for each in flat.items()))

missed = []
for what in ASKED:
    for rows in (FEW, MANY):
        for other in ("SQLite", "std::map"):
            if one("ours", what, rows) > one(other, what, rows):
                missed.append("%s of %d behind %s" % (what, rows, other))
        if one("ours", what, rows) > 1.5 * one("absl", what, rows):
            missed.append("%s of %d over 1.5 times absl::btree_map" % (what, rows))
missed += ["pages of %s not flat" % what for what, ratio in flat.items() if ratio > 1.5]
if above["ours"] > 120:
    missed.append("more than 120 bytes a row above its name")
assert not missed, "; ".join(missed)
PYTHON
