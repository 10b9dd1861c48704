#!/bin/sh
# Thousands of calls a second: a request to authorize, the head of an upload with ten headers, a body that lists
# names and one that creates a bucket with ten lifecycle rules are read; the answers to three of them, of names a
# page of 100 rows, are written. Beside each stands what the kit's ports take to read or write the same bytes
# alone (`httparse` and `http_header` a head into a map of its headers, `serde_json` a body), and what Python's
# standard library takes to read the same fields or write the same body (bench/calls.py). All run in turn, and
# the figures are of the processor's time. To take at most twice what the ports take is the aim; the rows that
# miss it are told.
#
# It needs `rt` and Python 3. Run it by hand, on a machine that does nothing else; the first word is the number of
# runs, else 9.
set -e
. "$(dirname "$0")/program.sh"
build bench_fields none 1
PYTHONPATH=$here PYTHONDONTWRITEBYTECODE=1 python3 - "$program" "${1:-9}" <<'PYTHON'
import os, subprocess, sys, time
import calls

program, RUNS = sys.argv[1], int(sys.argv[2])
AIM = 2

def given(what, times):
    """The output of one run, without its last line feed."""
    done = subprocess.run([program, what, str(times)], stdout=subprocess.PIPE, check=True)
    return done.stdout[:-1]

def busy(what, times):
    """Seconds of the processor."""
    pid = os.posix_spawn(program, [program, what, str(times)], os.environ,
                         file_actions=[(os.POSIX_SPAWN_OPEN, 1, "/dev/null", os.O_WRONLY, 0)])
    _, status, usage = os.wait4(pid, 0)
    assert status == 0, (what, status)
    return usage.ru_utime + usage.ru_stime

def busy_here(call, text, times):
    start = time.process_time()
    for _ in range(times):
        call(text)
    return time.process_time() - start

def in_turn(what, times):
    """The least seconds of one call: ours, the ports', Python's."""
    call, text = getattr(calls, what), calls.prepared(what, given(what, "show"))
    least = {}
    def keep(key, taken):
        least[key] = min(taken, least.get(key, taken))
    for _ in range(RUNS):
        for each in (what, "ports_" + what):
            for count in (0, times):
                keep((each, count), busy(each, count))
        keep("python", busy_here(call, text, max(times // 20, 1)))
    ours, ports = ((least[each, times] - least[each, 0]) / times for each in (what, "ports_" + what))
    return ours, ports, least["python"] / max(times // 20, 1)

missed = []
print("thousand a second               ours     ports   of ports    Python   of Python")
for what, times, told in (
    ("authorize", 100_000, "authorize, read"), ("write_account", 20_000, "account, written"),
    ("upload", 50_000, "head of an upload, read"), ("names", 100_000, "list of names, read"),
    ("write_names", 400, "100 rows, written"), ("bucket", 20_000, "new bucket, read"),
    ("write_bucket", 10_000, "bucket, written")):
    wanted = len(given(what, "show")) if what.startswith("write_") else 1
    assert int(given(what, 1)) == wanted, what
    ours, ports, python = in_turn(what, times)
    if ours > AIM * ports:
        missed.append("%s (%.2f)" % (told, ours / ports))
    print("%-25s   %8.1f  %8.1f   %8.2f  %8.1f   %9.2f" % (
        told, 1e-3 / ours, 1e-3 / ports, ours / ports, 1e-3 / python, ours / python))
print("above %d times the ports: %s" % (AIM, ", ".join(missed) or "none"))
PYTHON
