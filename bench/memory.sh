#!/bin/sh
# Refuses each allocation of `b2d replay` in turn, on the script of its stored run: each run must end with
# Memory and write nothing, but the first that asks for no more.
#
# It needs `rt` and a C compiler (`cc`). Run it by hand: it takes no times, so the machine may do other things.
set -e
. "$(dirname "$0")/program.sh"
stored=$here/../crates/b2d
build b2d replay < "$stored/stdin"
cat > "$folder/refuse.c" <<'C'
#define _GNU_SOURCE
#include <dlfcn.h>
#include <stdlib.h>

/* The allocation of the number in REFUSE, counted from 1, finds no memory. */
static long left = -1;

static int refuses(void)
{
    if (left < 0) {
        const char *number = getenv("REFUSE");
        left = number ? atol(number) : 0;
    }
    return left > 0 && --left == 0;
}

void *malloc(size_t size)
{
    static void *(*next)(size_t);
    if (!next) next = (void *(*)(size_t))dlsym(RTLD_NEXT, "malloc");
    return refuses() ? NULL : next(size);
}

/* dlsym itself may ask for zeroed memory, before it can tell where calloc is. It does without. */
void *calloc(size_t count, size_t size)
{
    static void *(*next)(size_t, size_t);
    static int looking;
    if (!next) {
        if (looking) return NULL;
        looking = 1;
        next = (void *(*)(size_t, size_t))dlsym(RTLD_NEXT, "calloc");
    }
    return refuses() ? NULL : next(count, size);
}

void *realloc(void *old, size_t size)
{
    static void *(*next)(void *, size_t);
    if (!next) next = (void *(*)(void *, size_t))dlsym(RTLD_NEXT, "realloc");
    return refuses() ? NULL : next(old, size);
}

void *aligned_alloc(size_t alignment, size_t size)
{
    static void *(*next)(size_t, size_t);
    if (!next) next = (void *(*)(size_t, size_t))dlsym(RTLD_NEXT, "aligned_alloc");
    return refuses() ? NULL : next(alignment, size);
}

int posix_memalign(void **place, size_t alignment, size_t size)
{
    static int (*next)(void **, size_t, size_t);
    if (!next) next = (int (*)(void **, size_t, size_t))dlsym(RTLD_NEXT, "posix_memalign");
    return refuses() ? 12 : next(place, alignment, size);
}
C
cc -O1 -shared -fPIC -o "$folder/refuse.so" "$folder/refuse.c" -ldl
number=1
while [ "$number" -le 10000 ]; do
    status=0
    REFUSE=$number LD_PRELOAD="$folder/refuse.so" "$program" replay < "$stored/stdin" > "$folder/out" 2> "$folder/err" || status=$?
    if [ "$status" -eq 0 ]; then
        cmp "$folder/out" "$stored/stdout"
        echo "$((number - 1)) allocations, each refused in turn: Memory, and nothing written"
        exit 0
    fi
    if [ "$status" -ne 2 ] || [ -s "$folder/out" ] || [ "$(cat "$folder/err")" != "b2d: Memory" ]; then
        echo "allocation $number: status $status, $(cat "$folder/err")" >&2
        exit 1
    fi
    number=$((number + 1))
done
echo "no end after $number allocations" >&2
exit 1
