#!/bin/sh
# Lets each allocation of a handful of calls fail in turn, once that one alone and once it and all behind it. Each time the call
# has to give the answer that it gives with ample memory, or want of memory: status 7, and nothing written. It needs the proved
# program and a C compiler. It is no part of the gate, and fails where another answer comes.
#
# usage: bench/memory.sh [PROGRAM]    PROGRAM is a built program, which stands for the repository's own
set -eu
top=$(dirname -- "$(dirname -- "$(readlink -f -- "$0")")")
if [ $# -gt 0 ]; then
    program=$(readlink -f -- "$1")
else
    program=$top/crates/remora_cli/out/remora_cli
    "$top/remora" --prove >/dev/null
fi
work=$(mktemp -d)
trap 'rm -rf "$work"' EXIT
cd "$work"

# malloc and realloc of the system, which count their calls in the file COUNT and fail from call FIRST to call LAST.
cat >failing.c <<'END'
#include <errno.h>
#include <fcntl.h>
#include <stdlib.h>
#include <sys/mman.h>

extern void *__libc_malloc(size_t);
extern void *__libc_realloc(void *, size_t);

static long *count;
static long first, last;

__attribute__((constructor)) static void begin(void) {
    int file = open(getenv("COUNT"), O_RDWR);
    void *shared = mmap(NULL, sizeof *count, PROT_READ | PROT_WRITE, MAP_SHARED, file, 0);
    first = atol(getenv("FIRST"));
    last = atol(getenv("LAST"));
    if (shared == MAP_FAILED) abort();
    count = shared;
}

static int fails(void) {
    if (!count || ++*count < first || *count > last) return 0;
    errno = ENOMEM;
    return 1;
}

void *malloc(size_t size) { return fails() ? NULL : __libc_malloc(size); }
void *realloc(void *old, size_t size) { return fails() ? NULL : __libc_realloc(old, size); }
END
cc -shared -fPIC -O1 -o failing.so failing.c

# Calls the program with the words behind $1 and $2, allocations $1 to $2 failing. What it writes stands in out, its status in
# status, and the number of its allocations in allocations.
call() {
    head -c 8 /dev/zero >count
    first=$1 last=$2
    shift 2
    status=0
    COUNT=$work/count FIRST=$first LAST=$last LD_PRELOAD=$work/failing.so "$program" "$@" <data >out 2>err || status=$?
    allocations=$(od -An -td8 count | tr -d ' ')
}

failed=0
# Tries each allocation of the call with these words, on what stands in data.
try() {
    call 0 0 "$@"
    due=$status
    cp out due
    count=$allocations
    wanting=0
    if [ "$count" -eq 0 ]; then
        echo "$*: no allocation was seen" >&2
        failed=1
    fi
    at=1
    while [ "$at" -le "$count" ]; do
        for last in "$at" 1000000000; do
            call "$at" "$last" "$@"
            if [ "$status" -eq 7 ] && [ ! -s out ]; then
                wanting=$((wanting + 1))
            elif [ "$status" -ne "$due" ] || ! cmp -s out due; then
                echo "$*: status $status where allocations $at to $last fail" >&2
                failed=1
            fi
        done
        at=$((at + 1))
    done
    echo "$*: $count allocations, want of memory in $wanting of $((2 * count)) calls"
}

cp "$top"/examples/*.remora "$top"/examples/*.data .
echo '(main () (+ (array (2) 1 2) (array (3) 1 2 3)))' >frames.remora
echo '(array (3) 1 0 2) (array (2 3) 1 2 3 4 5 6)' >unfit.data
: >data
"$program" build matrix_by_vector.remora >matrix_by_vector.code
try check matrix_product.remora
try check frames.remora
try build polymorphic_map.remora
try run boxes.remora
try reduce add.remora
try soak 4
cp matrix_by_vector.data data
try run matrix_by_vector.remora
try exec matrix_by_vector.code
try reduce matrix_by_vector.remora
cp unfit.data data
try run matrix_by_vector.remora
cp mean.data data
try run mean.remora
exit $failed
