# Read by the other files here, after `set -e`: `build NAME ARGS..` proves and builds the program of a crate
# (with nothing kept some minutes; else at once), runs it once with these words on the rest of its standard
# input, and leaves its path in `program`. A folder of its own, in `folder`, goes away at the end.
here=$(cd "$(dirname "$0")" && pwd)
folder=$(mktemp -d)
trap 'rm -rf "$folder"' EXIT

build() {
    crate=$here/../crates/$1
    program=$crate/out/$1
    shift
    (cd "$crate" && rt run -- "$@" > "$folder/built.log" 2>&1) || { cat "$folder/built.log" >&2; exit 1; }
}
