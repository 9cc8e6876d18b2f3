#!/bin/sh
# Measures the gate: in a new clone of what is committed it proves each crate and its tests, tries the must-fail edits and runs
# tests and programs, all from nothing as `rt ci --anew` does, and prints the processor seconds of each crate and the longest
# chain of proofs. It is no part of the gate, and takes as long. Each process is looked at once a second, so up to a second of
# each is missed; the last line says how much was seen.
#
# usage: bench/gate.sh [NAME..]    with names, these crates and those below them alone
top=$(dirname -- "$(dirname -- "$(readlink -f -- "$0")")")
. "$top/bench/timing.sh"

# Runs the gate, and leaves its process, its log, its processor time and its status in $work.
gate() {
    cd "$work/clone"
    TMPDIR=$work/tmp rt ci --anew "$@" >"$work/log" 2>&1 &
    echo $! >"$work/pid"
    wait $! && status=0 || status=$?
    times >"$work/times"
    echo "$status" >"$work/status"
}

# The process, its ticks so far, its folder and its words, of each that the gate has started.
processes() {
    cat /proc/[0-9]*/stat 2>/dev/null |
        awk -v parent="$1" '{ id = $1; sub(/.*\) /, ""); if ($2 == parent) print id, $20, $12 + $13 + $14 + $15 }' |
        while read -r id start ticks; do
            folder=$(readlink "/proc/$id/cwd") && words=$(tr '\0' ' ' 2>/dev/null <"/proc/$id/cmdline") &&
                echo "$id.$start $ticks $folder $words"
        done
}

# The same with the crate that the process proves, and whether it is its proof, an edit or its tests.
sample() {
    processes "$1" | awk '{
        crate = kind = ""
        for (i = 4; i <= NF; i++) {
            if ($i == "--crate-name") crate = $(i + 1)
            if ($i == "--test") kind = "tests"
        }
        if ($3 ~ /\/rt-edit-/) kind = "edits"
        if (crate != "") print $1, $2, crate, kind == "" ? "proof" : kind
    }'
}

git clone -q "$top" "$work/clone"
mkdir "$work/tmp"
begun=$(date +%s)
gate "$@" &
trap 'kill "$(cat "$work/pid")"; exit 130' INT TERM HUP
while [ ! -e "$work/status" ]; do
    sleep 1
    [ ! -e "$work/pid" ] || sample "$(cat "$work/pid")" >>"$work/samples"
done
took=$(($(date +%s) - begun))

awk -v ticks="$(getconf CLK_TCK)" -v took="$took" -v processors="$(nproc)" '
    FILENAME ~ /samples$/ { last[$1] = $2; of[$1] = $3 " " $4; crates[$3] }
    FILENAME ~ /crates.txt$/ && /^[^#]/ { split($0, line, ":"); below[line[1]] = line[2]; order[++lines] = line[1] }
    FILENAME ~ /times$/ { split($0, part, /[ms ]+/); whole = 60 * (part[1] + part[3]) + part[2] + part[4] }
    # The seconds of the longest chain of proofs that ends with this crate. The crate before it in the chain is kept.
    function chain(name,    deps, count, i, most) {
        if (name in longest) return longest[name]
        count = split(below[name], deps, " ")
        for (i = 1; i <= count; i++) {
            if (chain(deps[i]) > most) { most = longest[deps[i]]; before[name] = deps[i] }
        }
        return longest[name] = most + seconds[name " proof"]
    }
    END {
        for (id in last) { seconds[of[id]] += last[id] / ticks; seen += last[id] / ticks }
        printf "%-18s %8s %8s %8s %8s %6s\n", "crate", "proof", "edits", "tests", "all", "share"
        for (i = 1; i <= lines; i++) {
            name = order[i]
            if (!(name in crates)) continue
            proof = seconds[name " proof"]; edits = seconds[name " edits"]; tests = seconds[name " tests"]
            all_proof += proof; all_edits += edits; all_tests += tests
            printf "%-18s %8d %8d %8d %8d %5.1f%%\n", name, proof, edits, tests, proof + edits + tests, 100 * (proof + edits + tests) / seen
            if (chain(name) > chain(end)) end = name
        }
        printf "%-18s %8d %8d %8d %8d\n", "all", all_proof, all_edits, all_tests, seen
        for (name = end; name != ""; name = before[name]) path = name " " path
        printf "longest chain of proofs: %d seconds: %s\n", longest[end], path
        printf "%d seconds by the clock on %d processors; seen %d of %d processor seconds\n", took, processors, seen, whole
    }' "$work/samples" "$work/clone/crates.txt" "$work/times"
tail -n 1 "$work/log"
exit "$(cat "$work/status")"
