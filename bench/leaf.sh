#!/bin/sh
# Megabytes a second of the crates at the bottom: names of 1 KiB escaped and read back, and bodies of 1 KiB and
# of 1 MiB read and written, beside the port's own read and write of the same bodies, in turn.
#
# It needs `rt` and Python 3. Run it by hand, on a machine that does nothing else; it takes some minutes.
set -e
. "$(dirname "$0")/program.sh"
build bench_calls none 1024 1
PYTHONPATH=$here PYTHONDONTWRITEBYTECODE=1 python3 - "$program" <<'PYTHON'
import sys
from seconds import in_turn

program = sys.argv[1]
KIB, MIB = 1 << 10, 1 << 20
NAMES = ["encode_name", "decode_name"]
BODIES = ["object", "read_value", "render", "write_value"]

def taken(whats, size):
    return dict(zip(whats, in_turn(program, whats, size, 32 * MIB // size, 5)))

def rate(size, seconds):
    return size / MIB / seconds

small, large = taken(NAMES + BODIES, KIB), taken(BODIES, MIB)
print("call          1 KiB MB/s   1 MiB MB/s")
for what in NAMES:
    print("%-11s   %10.1f" % (what, rate(KIB, small[what])))
for what in BODIES:
    print("%-11s   %10.1f   %10.1f" % (what, rate(KIB, small[what]), rate(MIB, large[what])))
ours = large["object"] + large["render"]
theirs = large["read_value"] + large["write_value"]
print("object and render of 1 MiB take %.2f times the port's own read and write" % (ours / theirs))
assert ours <= 1.3 * theirs, "more than 1.3 times the port's own"
PYTHON
