#!/bin/sh
# Nanoseconds of the policy of one call: its token is found among 100,000, its key among 10,000, and the rules of
# token, call and name are judged. Beside it a C++ program over `std::map` that does the same look-ups and
# comparisons (bench/decisions.cc). Once the look-ups alone, once with the rules.
#
# It needs `rt`, Python 3 and a C++ compiler ($CXX, or c++). Run it by hand, on a machine that does nothing else.
set -e
. "$(dirname "$0")/program.sh"
build bench_decisions policy 1000 10
${CXX:-c++} -O2 -std=c++17 -march=x86-64-v2 -o "$folder/decisions" "$here/decisions.cc"
PYTHONPATH=$here PYTHONDONTWRITEBYTECODE=1 python3 - "$program" "$folder/decisions" <<'PYTHON'
import sys
from seconds import given, seconds

ours, peer = sys.argv[1:]
TOKENS, TIMES, RUNS = 100_000, 2_000_000, 9

assert given(ours, "policy", TOKENS) == given(peer, "policy", TOKENS) == 1
print("policy of a call, %d tokens   ours ns   std::map ns   ratio" % TOKENS)
for what, told in (("find", "token and key found"), ("policy", "found and judged")):
    least = {}
    for _ in range(RUNS):
        for program in (ours, peer):
            for times in (0, TIMES):
                taken = seconds(program, what, TOKENS, times)
                least[program, times] = min(taken, least.get((program, times), taken))
    one, other = ((least[it, TIMES] - least[it, 0]) / TIMES * 1e9 for it in (ours, peer))
    print("%-31s   %8.0f   %11.0f   %5.2f" % (told, one, other, one / other))
assert one <= other, "slower than std::map"
PYTHON
