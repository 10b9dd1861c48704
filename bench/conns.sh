#!/bin/sh
# Megabytes a second through `Conns::piece`: of a request whose body has 1 MiB and comes in pieces of 65,536
# bytes, and of a head that comes byte by byte; and events a second where 32 connections take pieces of 64 bytes
# in turn. Beside it a C program over the http-parser library, from which llhttp came, that cuts the same bytes
# and keeps the same body (bench/conns.c). They run in turn. A head and a body of half the size are to take half
# the time.
#
# It needs `rt`, Python 3, a C compiler (`cc`) and http-parser with its headers (libhttp-parser-dev). Run it by
# hand, on a machine that does nothing else; the first word is the number of runs, else 9.
set -e
. "$(dirname "$0")/program.sh"
build bench_conns none 1024 1
cc -O2 -o "$folder/conns" "$here/conns.c" -lhttp_parser
PYTHONPATH=$here PYTHONDONTWRITEBYTECODE=1 python3 - "$program" "$folder/conns" "${1:-9}" <<'PYTHON'
import os, subprocess, sys, time
from seconds import given

ours, peer, RUNS = *sys.argv[1:3], int(sys.argv[3])
MIB = 1 << 20
LONGEST = 16_000
HEAD = 120

def busy(program, what, size, times):
    """Seconds of the processor."""
    pid = os.posix_spawn(program, [program, what, str(size), str(times)], os.environ,
                         file_actions=[(os.POSIX_SPAWN_OPEN, 1, "/dev/null", os.O_WRONLY, 0)])
    _, status, usage = os.wait4(pid, 0)
    assert status == 0, (program, what, status)
    return usage.ru_utime + usage.ru_stime

def in_turn(what, size, times):
    """The least of each, ours and theirs, for one time."""
    least = {}
    for _ in range(RUNS):
        for program in (ours, peer):
            for count in (0, times):
                taken = busy(program, what, size, count)
                least[program, count] = min(taken, least.get((program, count), taken))
    return [(least[it, times] - least[it, 0]) / times for it in (ours, peer)]

for what, size, acts in (("body", MIB, 1), ("bytes", LONGEST, 1), ("events", 256, 32)):
    assert given(ours, what, size) == given(peer, what, size) == acts, what
print("                                ours   http-parser   ratio")
ratios = []
for what, size, times, told in (
    ("body", MIB // 2, 400, "MB/s, body of 512 KiB"), ("body", MIB, 200, "MB/s, body of 1 MiB"),
    ("bytes", LONGEST // 2, 200, "MB/s, head of 8,000 by bytes"), ("bytes", LONGEST, 100, "MB/s, head of 16,000 by bytes")):
    one, other = in_turn(what, size, times)
    ratios.append((what, size / one, one / other))
    print("%-29s   %5.1f   %11.1f   %5.2f" % (told, size / 1e6 / one, size / 1e6 / other, one / other))
size = 256
pieces = (HEAD + size + 63) // 64 * 32
one, other = in_turn("events", size, 2_000)
print("%-29s   %5.0f   %11.0f   %5.2f" % ("thousand events/s, 32 in turn", pieces / 1e3 / one, pieces / 1e3 / other, one / other))
for half, whole in (ratios[:2], ratios[2:]):
    assert whole[1] >= 0.7 * half[1], "not linear: " + half[0]
assert all(ratio <= 4 for _, _, ratio in ratios) and one <= 4 * other, "more than 4 times http-parser's"
PYTHON
