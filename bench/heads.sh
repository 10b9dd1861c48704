#!/bin/sh
# Nanoseconds that `cut_head` and `read_head` take together for a head of 400 bytes with seven headers, beside
# what the ports take for the same head: `httparse` alone, into places, and with `http_header`, into a map of
# the same headers that `read_head` keeps. Once calls read one of the seven headers, once all seven. Then
# milliseconds that bytes without an end take that come one by one, where each search goes on after the former.
#
# It needs `rt` and Python 3. Run it by hand, on a machine that does nothing else; it takes some minutes.
set -e
. "$(dirname "$0")/program.sh"
build bench_calls none 1024 1
PYTHONPATH=$here PYTHONDONTWRITEBYTECODE=1 python3 - "$program" <<'PYTHON'
import sys
from seconds import given, in_turn

program = sys.argv[1]
SIZE, TIMES, RUNS = 400, 100_000, 25
LONGEST = 16_384

def nanoseconds(whats):
    return [taken * 1e9 for taken in in_turn(program, whats, SIZE, TIMES, RUNS)]

names = ["%s_%d" % (call, kept) for kept in (1, 7) for call in ("read_head", "parse", "map")]
taken = dict(zip(names, nanoseconds(names)))
print("headers that calls read, of seven   ours ns   map ns   ratio   places ns   ratio")
for kept in (1, 7):
    ours, places, in_map = (taken["%s_%d" % (call, kept)] for call in ("read_head", "parse", "map"))
    assert given(program, "read_head_%d" % kept, SIZE) == kept
    assert given(program, "map_%d" % kept, SIZE) == kept
    print("%34d   %7.0f   %6.0f   %5.2f   %9.0f   %5.2f" % (kept, ours, in_map, ours / in_map, places, ours / places))
print("bytes, one by one     ms for %d   ms for %d" % (LONGEST // 2, LONGEST))
for what, told in (("letters", "one long line"), ("lines", "lines of a letter"), ("ends", "empty lines")):
    half, whole = (in_turn(program, [what], size, 1_000, 5)[0] * 1e3 for size in (LONGEST // 2, LONGEST))
    print("%-17s   %14.3f   %12.3f" % (told, half, whole))
assert taken["read_head_1"] <= 4 * taken["parse_1"], "more than 4 times the parser's own"
PYTHON
