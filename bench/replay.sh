#!/bin/sh
# Times `b2d replay` on scripts of 1, 16 and 64 MiB beside `sha1sum` of the same files, with the peak resident
# memory. Both run in turn, also on the shortest script, which shows what the start of a process takes; the
# ratios are of the times without it.
#
# It needs `rt`, Python 3 and `sha1sum`. Run it by hand, on a machine that does nothing else.
set -e
. "$(dirname "$0")/program.sh"
build b2d replay < "$here/../crates/b2d/stdin"
python3 - "$program" "$folder" <<'PYTHON'
import os, sys, time

program, folder = os.path.abspath(sys.argv[1]), sys.argv[2]
MIB = 1 << 20
SIZES = (1, 16, 64)
RUNS = 7
REQUEST = "GET /b2api/v3/b2_authorize_account HTTP/1.1"
COMMANDS = {"replay": [program, "replay"], "sha1sum": ["sha1sum"]}

def pieces(size):
    """The pieces of a script of exactly so many bytes, nearly all of them `word` lines; of 0, the shortest with a
    request. They are small, since what this process holds counts for its children's peaks."""
    tail = "open 1\nline 1 %s\nline 1 A: %%s\nline 1 \nready 1\nstop\n" % REQUEST
    words, rest = divmod(max(size - len(tail % ""), 1), 22)
    if rest < 1:
        words, rest = words - 1, rest + 22
    for i in range(words):
        yield b"word %016x\n" % (i * 0x9E3779B97F4A7C15 % 2**64)
    yield (tail % ("a" * rest)).encode()

def write(mib):
    path = os.path.join(folder, "%d.script" % mib)
    with open(path, "wb") as file:
        file.writelines(pieces(mib * MIB))
    assert mib == 0 or os.path.getsize(path) == mib * MIB
    return path

def run(command, path):
    """Seconds and peak resident bytes of the command."""
    start = time.perf_counter()
    pid = os.fork()
    if pid == 0:
        os.dup2(os.open(path, os.O_RDONLY), 0)
        os.dup2(os.open("/dev/null", os.O_WRONLY), 1)
        os.execvp(command[0], command)
    _, status, usage = os.wait4(pid, 0)
    seconds = time.perf_counter() - start
    assert status == 0, (command, status)
    return seconds, usage.ru_maxrss * 1024

def measure(paths):
    """The least seconds and the most bytes of each command on each file, all of them in turn."""
    least, most = {}, {}
    for _ in range(RUNS):
        for mib, path in paths.items():
            for name, command in COMMANDS.items():
                seconds, peak = run(command, path)
                least[name, mib] = min(seconds, least.get((name, mib), seconds))
                most[name, mib] = max(peak, most.get((name, mib), peak))
    return least, most

def main():
    seconds, peaks = measure({mib: write(mib) for mib in (0,) + SIZES})
    starts = {name: seconds[name, 0] for name in COMMANDS}
    print("start: replay %.4f s, sha1sum %.4f s" % (starts["replay"], starts["sha1sum"]))
    print("MiB   replay s   sha1sum s   ratio without starts   peak MiB   allowed MiB")
    work = {}
    for mib in SIZES:
        ours, theirs = (seconds[name, mib] - starts[name] for name in ("replay", "sha1sum"))
        work[mib] = ours
        peak, allowed = peaks["replay", mib] / MIB, 4 * mib + 32
        print("%3d   %8.4f   %9.4f   %20.2f   %8.1f   %11d" % (
            mib, seconds["replay", mib], seconds["sha1sum", mib], ours / theirs, peak, allowed))
        assert peak <= allowed, "too much memory"
        assert ours <= 10 * theirs, "slower than ten times sha1sum"
    print("64 MiB takes %.1f times what 1 MiB takes, without the start" % (work[64] / work[1]))
    assert work[64] <= 80 * work[1], "not linear"

main()
PYTHON
