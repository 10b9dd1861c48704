#!/bin/sh
# For a gate with nothing kept: the processor seconds of each crate's proof, of its tests and of its must-fail
# edits, and when each of them was done.
#
#   bench/gate.sh        runs `rt ci --anew` in a fresh clone of this repository and prints the table. The log, with
#                        the times in front of its lines, is left as gate.times where the script was called.
#   bench/gate.sh LOG    prints the table of such a log once more, or of a log whose lines only have the seconds
#                        since the start and a space before them. There the seconds of each line are those since
#                        the one before, which is what it took only where the gate had one processor
#                        (`taskset -c 0 rt ci --anew`), so that it did one thing after another.
#
# It needs `rt`, git, Python 3 and Linux's /proc. Run it by hand, on a machine that does nothing else; a whole gate
# takes an hour or more.
set -e
here=$(cd "$(dirname "$0")" && pwd)
if [ -n "$1" ]; then
    exec python3 "$here/gate.py" table "$1"
fi
folder=$(mktemp -d)
trap 'rm -rf "$folder"' EXIT
git clone -q "$here/.." "$folder/clone"
log=$PWD/gate.times
status=0
(cd "$folder/clone" && exec python3 "$here/gate.py" run "$log" rt ci --anew) || status=$?
python3 "$here/gate.py" table "$log"
exit "$status"
