#!/bin/sh
# Measures the machine and the start-up of the program: nanoseconds an item of programs over arrays of three sizes, each
# twice the one before, beside the same work in CPython, numpy and Lua, where they are there. It is no part of the gate,
# and fails where the cost of a step or of an item grows by more than a tenth.
#
# usage: [PYTHON=python3] bench/machine.sh [RUNS [ITEMS]]
#
# PYTHON is a python3 with numpy. ITEMS, a power of 4 that is 4096 at least, is the largest number of items.
top=$(dirname -- "$(dirname -- "$(readlink -f -- "$0")")")
. "$top/bench/timing.sh"
python=${PYTHON:-python3}
most=${2:-16777216}
failed=0

# ---- the machine alone

# The number of additions, one after another, over each frame.
additions=64

# The code that adds 1 so many times to each cell of a frame of $1 cells.
write_code() {
    awk -v cells="$1" -v additions="$additions" 'BEGIN {
        print "remora-code 1"; print "params 0"; print "blocks 1"
        printf "block %d\n", 3 * additions + 1
        for (i = 0; i < additions; i++) print "prim +"
        printf "const (%d)", cells
        for (i = 0; i < cells; i++) printf " %d", i % 10
        printf "\n"
        for (i = 0; i < additions; i++) { print "const () 1"; print "app ((shape) (shape)) (shape)" }
    }'
}

# The steps of that code: for each addition four and one for each cell; the array, and the end of the block.
steps_of() {
    echo $((additions * ($1 + 4) + 2))
}

# Nanoseconds a step over a frame of $1 cells, without those of reading the code.
cost() {
    write_code "$1" >"$work/code"
    steps=$(steps_of "$1")
    whole=$(least "$runs" "$program" exec "$work/code" --steps "$steps")
    if ! grep -q '^(array (' "$work/out"; then
        echo "machine.sh: the code hasn't ended in $steps steps" >&2
        exit 1
    fi
    read_only=$(least "$runs" "$program" exec "$work/code" --steps 1)
    awk -v ns=$((whole - read_only)) -v steps="$steps" 'BEGIN { printf "%.2f\n", ns / steps }'
}

# ---- programs, and the same work elsewhere

# The integer $1, so many times as $2 says.
copies() {
    echo "((i-app (t-app replicate Int) $2 (shape)) $1)"
}

# The number of leading cells of an array: the expression $2, whose leading cells are $1.
counted() {
    echo "((i-app (t-app length Int) $1 (shape)) $2)"
}

# Writes the program that does the work $1 on $2 items, and in $3 the one that makes the arrays alone.
write_programs() {
    threes=$(copies 3 "$2")
    fours=$(copies 4 "$2")
    made=$(counted "$2" "$threes")
    case $1 in
    calls) work_is="((i-app (t-app fold Int Int) $2 (shape) (shape)) (fn ((a Int) (x Int)) Int (+ a (* x 2))) 0 $threes)" ;;
    add)
        work_is=$(counted "$2" "(+ $threes $fours)")
        made="(+ $made $(counted "$2" "$fours"))"
        ;;
    reduce) work_is="((i-app (t-app reduce Int) $(($2 - 1)) (shape)) + $threes)" ;;
    reverse) work_is=$(counted "$2" "((i-app (t-app reverse Int) $2 (shape)) $threes)") ;;
    take) work_is=$(counted $(($2 / 2)) "((i-app (t-app take Int) $(($2 / 2)) $(($2 / 2)) (shape)) $threes)") ;;
    transpose)
        side=$(awk -v n="$2" 'BEGIN { printf "%d", sqrt(n) }')
        square="((i-app (t-app replicate Int) $side (shape $side)) $(copies 3 "$side"))"
        made="((i-app (t-app length Int) $side (shape $side)) $square)"
        work_is="((i-app (t-app length Int) $side (shape $side)) ((i-app (t-app transpose Int) $side $side (shape)) $square))"
        ;;
    esac
    echo "(main () $work_is)" >"$3"
    echo "(main () $made)" >"$4"
}

# Nanoseconds an item of the work $1 on $2 items, without those of making the arrays.
item_cost() {
    write_programs "$1" "$2" "$work/program" "$work/arrays"
    whole=$(least "$runs" "$program" run "$work/program" --steps 1000000000)
    if ! grep -q '^(array ()' "$work/out"; then
        echo "machine.sh: $1 of $2 items: $(head -c 80 "$work/out")" >&2
        exit 1
    fi
    arrays=$(least "$runs" "$program" run "$work/arrays" --steps 1000000000)
    awk -v ns=$((whole - arrays)) -v items="$2" 'BEGIN { printf "%.3f\n", ns / items }'
}

cat >"$work/peer.py" <<'PYTHON'
# Nanoseconds an item of the work that is named, on so many items: the least of so many runs.
import sys, time

kind, name, items, runs = sys.argv[1], sys.argv[2], int(sys.argv[3]), int(sys.argv[4])

def call(a, x):
    return a + x * 2

def calls(xs, ys):
    a = 0
    for x in xs:
        a = call(a, x)
    return a

if kind == "numpy":
    import numpy
    xs, ys = numpy.full(items, 3, dtype=numpy.int64), numpy.full(items, 4, dtype=numpy.int64)
    side = int(items ** 0.5)
    works = {
        "add": lambda xs, ys: xs + ys,
        "reduce": lambda xs, ys: xs.sum(),
        "reverse": lambda xs, ys: xs[::-1].copy(),
        "take": lambda xs, ys: xs[: items // 2].copy(),
        "transpose": lambda xs, ys: xs.reshape(side, side).T.copy(),
    }
else:
    xs, ys = [3] * items, [4] * items
    works = {"calls": calls, "add": lambda xs, ys: [x + y for x, y in zip(xs, ys)], "reduce": lambda xs, ys: sum(xs)}
least = None
for _ in range(runs):
    begin = time.perf_counter_ns()
    works[name](xs, ys)
    took = time.perf_counter_ns() - begin
    least = took if least is None else min(least, took)
print(f"{least / items:.3f}")
PYTHON

cat >"$work/peer.lua" <<'LUA'
-- Nanoseconds an item of calls of a small function, on so many items: the least of so many runs.
local items, runs = tonumber(arg[1]), tonumber(arg[2])
local xs = {}
for i = 1, items do xs[i] = 3 end
local function call(a, x) return a + x * 2 end
local least
for _ = 1, runs do
    local begin = os.clock()
    local a = 0
    for i = 1, items do a = call(a, xs[i]) end
    local took = os.clock() - begin
    if not least or took < least then least = took end
end
print(string.format("%.3f", least * 1e9 / items))
LUA

# Prints how the work $1, of $3 nanoseconds an item, stands beside the peer $2, which the rest of the arguments run.
beside() {
    name=$1 peer=$2 mine=$3
    shift 3
    if theirs=$("$@" 2>/dev/null); then
        awk -v a="$mine" -v b="$theirs" -v peer="$peer" 'BEGIN { printf "; %s %.2f, ratio %.2f", peer, b, a / b }'
    fi
}

# Measures the work $1 on $2 items, on half and on a quarter of them, beside those of CPython, numpy and Lua that $3 names.
measure() {
    quarter=$(item_cost "$1" $(($2 / 4)))
    half=$(item_cost "$1" $(($2 / 2)))
    whole_cost=$(item_cost "$1" "$2")
    printf '%-10s %s, %s and %s ns an item of %d, %d and %d' "$1" "$quarter" "$half" "$whole_cost" $(($2 / 4)) $(($2 / 2)) "$2"
    for peer in $3; do
        case $peer in
        lua) beside "$1" lua5.4 "$whole_cost" lua5.4 "$work/peer.lua" "$2" "$runs" ;;
        *) beside "$1" "$peer" "$whole_cost" "$python" "$work/peer.py" "$peer" "$1" "$2" "$runs" ;;
        esac
    done
    printf '\n'
    if ! awk -v a="$quarter" -v b="$half" -v c="$whole_cost" 'BEGIN { exit b > a * 1.1 || c > a * 1.1 }'; then failed=1; fi
}

# Prints the most memory that `+` of two vectors of $1 items takes, beside three arrays of 8 bytes an item.
measure_memory() {
    write_programs add "$1" "$work/program" "$work/arrays"
    kib=$("$python" -c '
import resource, subprocess, sys
subprocess.run(sys.argv[1:], stdout=subprocess.DEVNULL, check=True)
print(resource.getrusage(resource.RUSAGE_CHILDREN).ru_maxrss)' "$program" run "$work/program" --steps 1000000000) || return 0
    awk -v kib="$kib" -v items="$1" 'BEGIN {
        printf "memory     %d MiB for + of two vectors of %d, ratio to three arrays of 8 bytes an item: %.2f\n", kib / 1024, items, kib * 1024 / (24 * items)
    }'
}

"$remora" --prove >/dev/null

small=$(cost 100000)
large=$(cost 200000)
awk -v a="$small" -v b="$large" 'BEGIN {
    printf "frame of 100000 cells: %.2f million steps a second\n", 1000 / a
    printf "frame of 200000 cells: %.2f million steps a second\n", 1000 / b
    printf "cost of a step, large to small: %.2f\n", b / a
}'
if ! awk -v a="$small" -v b="$large" 'BEGIN { exit b > a * 1.1 }'; then failed=1; fi

measure calls $((most * 5 / 8)) "cpython lua"
measure add "$most" "cpython numpy"
measure reduce "$most" "cpython numpy"
measure transpose "$most" numpy
measure reverse "$most" numpy
measure take "$most" numpy
measure_memory "$most"

start=$(least $((runs * 10)) "$program" run "$top/examples/add.remora")
echo "start-up: $((start / 1000)) microseconds"
if command -v lua5.4 >/dev/null; then
    lua=$(least $((runs * 10)) lua5.4 -e '')
    awk -v a="$start" -v b="$lua" 'BEGIN { printf "start-up beside lua5.4: %.2f\n", a / b }'
fi
exit "$failed"
