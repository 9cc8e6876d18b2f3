# Shared by the benchmarks, which read it with `.`: `runs`, where things lie, a folder to work in, and `least`.
set -eu
runs=${1:-11}
remora=$top/remora
program=$top/crates/remora_cli/out/remora_cli
work=$(mktemp -d)
trap 'rm -rf "$work"' EXIT

# The least time of $1 runs of a command, in nanoseconds. What it printed last stands in $work/out.
least() {
    best=
    i=0
    count=$1
    shift
    while [ "$i" -lt "$count" ]; do
        begin=$(date +%s%N)
        "$@" >"$work/out" 2>&1 || true
        end=$(date +%s%N)
        took=$((end - begin))
        if [ -z "$best" ] || [ "$took" -lt "$best" ]; then best=$took; fi
        i=$((i + 1))
    done
    echo "$best"
}

# Times the command $1 on a source of half a mebibyte and on a whole one of the kind $2, which `write_source` writes, and
# luac5.4, where it is there, on as long a Lua text of the like shape, which `write_lua` writes. It fails where the time
# more than doubles by a tenth.
doubling() {
    write_source "$2" 524288 >"$work/half"
    write_source "$2" 1048576 >"$work/whole"
    half=$(least "$runs" "$program" "$1" "$work/half")
    whole=$(least "$runs" "$program" "$1" "$work/whole")
    answer=$(head -c 40 "$work/out" | head -1)
    printf '%-12s %6d and %6d microseconds, ratio %s' "$2" $((half / 1000)) $((whole / 1000)) \
        "$(awk -v a="$half" -v b="$whole" 'BEGIN { printf "%.2f", b / a }')"
    if command -v luac5.4 >/dev/null; then
        write_lua "$2" 1048576 >"$work/text.lua"
        lua=$(least "$runs" luac5.4 -p "$work/text.lua")
        printf ', beside luac5.4 -p %s' "$(awk -v a="$lua" -v b="$whole" 'BEGIN { printf "%.2f", b / a }')"
    fi
    printf '; answers %s\n' "$answer"
    awk -v a="$half" -v b="$whole" 'BEGIN { exit b > a * 2.2 }'
}
