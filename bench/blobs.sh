#!/bin/sh
# Streams contents of 1 GiB, in pieces of 65,536 bytes, into extents: over a disk in memory, whose area has its
# memory before the time is taken, and over files in a folder. Beside them the kit's `sha1` alone on the same pieces, writes without a digest, OpenSSL's SHA-1 alone,
# and a C program that writes and hashes the same with OpenSSL. They run in turn. Then the microseconds of a take and a
# return among 100,000 holes: of the first hole, and past all of them.
#
# It needs `rt`, Python 3, a C compiler (`cc`) and OpenSSL's library with its headers. The files are made in the folder
# that the first word names, else in a folder of its own; the second word is the number of runs, else 5. Run it by
# hand, on a machine that does nothing else and has 3 GiB free.
set -e
. "$(dirname "$0")/program.sh"
build bench_blobs none 65536 1 .
cat > "$folder/stream.c" <<'C'
#include <openssl/evp.h>
#include <fcntl.h>
#include <stdio.h>
#include <stdlib.h>
#include <string.h>
#include <unistd.h>

enum { PIECE = 65536 };

/* stream hash|memory|file BYTES TIMES FOLDER: the SHA-1 alone, or with what is hashed written into memory that is
   there before, or into a file that is synced at its end. */
int main(int count, char **words)
{
    static unsigned char piece[PIECE], digest[EVP_MAX_MD_SIZE];
    unsigned char *area = NULL;
    size_t pieces, length = 0;
    long times, sum = 0;
    int file = -1;
    char path[4096];
    EVP_MD_CTX *hash = EVP_MD_CTX_new();
    if (count < 5 || !hash) return 1;
    pieces = strtoull(words[2], NULL, 10) / PIECE;
    times = atol(words[3]);
    for (size_t i = 0; i < PIECE; i++) piece[i] = i % 251;
    if (!strcmp(words[1], "file")) {
        snprintf(path, sizeof path, "%s/content", words[4]);
        file = open(path, O_RDWR | O_CREAT | O_TRUNC, 0644);
        if (file < 0) return 2;
    }
    if (!strcmp(words[1], "memory")) {
        area = malloc(pieces * PIECE);
        if (!area) return 2;
        memset(area, 1, pieces * PIECE);
    }
    for (long t = 0; t < times; t++) {
        if (area) length = 0;
        if (!EVP_DigestInit_ex(hash, EVP_sha1(), NULL)) return 2;
        for (size_t i = 0; i < pieces; i++) {
            if (file >= 0 && pwrite(file, piece, PIECE, length) != PIECE) return 2;
            if (area) memcpy(area + length, piece, PIECE);
            length += PIECE;
            if (!EVP_DigestUpdate(hash, piece, PIECE)) return 2;
        }
        if (file >= 0 && fdatasync(file)) return 2;
        if (!EVP_DigestFinal_ex(hash, digest, NULL)) return 2;
        sum += digest[0];
    }
    printf("%ld\n", sum);
    return 0;
}
C
cc -O2 -o "$folder/stream" "$folder/stream.c" -lcrypto
python3 - "$program" "$folder/stream" "${1:-$folder}" "${2:-5}" <<'PYTHON'
import os, sys, time

program, beside, files, RUNS = *sys.argv[1:4], int(sys.argv[4])
MIB = 1 << 20
SIZE = 1024 * MIB
HOLES = 100_000
# takes and returns in one run, far more seconds of them than a run's own start differs by
TAKES = {"first_hole": 1_000_000, "past_holes": 4_000}
STREAMS = {
    "sha1 alone": [program, "hash"],
    "into memory": [program, "store_flat"],
    "into files": [program, "store_file"],
    "writes into memory": [program, "write_flat"],
    "writes into files": [program, "write_file"],
    "OpenSSL alone": [beside, "hash"],
    "C into memory": [beside, "memory"],
    "C into a file": [beside, "file"],
}

def run(command, size, times):
    """Seconds, those of the processor, peak resident bytes and what was printed."""
    start = time.perf_counter()
    reads, writes = os.pipe()
    pid = os.fork()
    if pid == 0:
        os.dup2(writes, 1)
        os.execvp(command[0], command + [str(size), str(times), files])
    os.close(writes)
    with os.fdopen(reads) as printed:
        told = printed.read()
    _, status, usage = os.wait4(pid, 0)
    seconds = time.perf_counter() - start
    assert status == 0, (command, status)
    return seconds, usage.ru_utime + usage.ru_stime, usage.ru_maxrss * 1024, int(told)

def streams():
    """The least seconds of each and the least of the processor, without the start of its process, and the most
    bytes, all of them in turn."""
    least, busy, most = {}, {}, {}
    for _ in range(RUNS):
        for name, command in STREAMS.items():
            for times in (0, 1):
                seconds, used, peak, told = run(command, SIZE, times)
                least[name, times] = min(seconds, least.get((name, times), seconds))
                busy[name, times] = min(used, busy.get((name, times), used))
                most[name] = max(peak, most.get(name, peak))
                assert times == 0 or name.startswith("writes") or told == DIGEST, name
    return [{name: each[name, 1] - each[name, 0] for name in STREAMS} for each in (least, busy)] + [most]

def takes(what):
    """The least seconds of the processor for a take and a return."""
    least, most = {}, TAKES[what]
    for _ in range(min(RUNS, 2)):
        for times in (0, most):
            _, used, _, _ = run([program, what], HOLES, times)
            least[times] = min(used, least.get(times, used))
    return (least[most] - least[0]) / most

DIGEST = run(STREAMS["OpenSSL alone"], SIZE, 1)[3]
seconds, busy, peaks = streams()
print("1 GiB                MB/s   MB/s of the processor   of sha1 alone   of OpenSSL alone   peak MiB")
for name in STREAMS:
    print("%-18s   %5.0f   %21.0f   %13.2f   %16.2f   %8.1f" % (
        name, SIZE / 1e6 / seconds[name], SIZE / 1e6 / busy[name], busy["sha1 alone"] / busy[name],
        busy["OpenSSL alone"] / busy[name], peaks[name] / MIB))
for ours, theirs in (("into memory", "C into memory"), ("into files", "C into a file")):
    print("%s: %.2f times the speed of the C program" % (ours, busy[theirs] / busy[ours]))
for what, told in (("first_hole", "the first"), ("past_holes", "past all of them")):
    print("%d holes, a take and a return of %s: %.2f microseconds" % (HOLES, told, takes(what) * 1e6))
above = (peaks["into memory"] - SIZE) / MIB
print("into memory: %.1f MiB above the area; into files: %.1f MiB" % (above, peaks["into files"] / MIB))
assert above < 16 and peaks["into files"] < 16 * MIB, "too much memory"
assert busy["sha1 alone"] >= 0.9 * busy["into memory"], "less than 0.9 of sha1 alone"
PYTHON
