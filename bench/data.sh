#!/bin/sh
# Measures how data is read: `run` of a program that hands its input on to `length`, on a vector of integers of a quarter of a
# mebibyte, of a half and of a whole one, which is the most that is read. Numbers of one digit and of seven. The start-up of
# the program is taken off. Beside it stands CPython's `list(map(int, ..))` of the same numbers, without its start-up. It is no
# part of the gate, and fails where the time or the memory a byte is more than a tenth above that of half as much data.
#
# usage: bench/data.sh [RUNS]
top=$(dirname -- "$(dirname -- "$(readlink -f -- "$0")")")
. "$top/bench/timing.sh"

if [ ! -x /usr/bin/time ]; then
    echo "data.sh: /usr/bin/time is wanted, which tells the memory of a command" >&2
    exit 1
fi

# A vector of integers in a box, of at most $2 bytes: of so many digits as $1 says.
write_data() {
    awk -v digits="$1" -v limit="$2" 'BEGIN {
        part = " " substr("7654321", 1, digits)
        count = int((limit - 40) / length(part))
        printf "(box %d (array (%d)", count, count
        for (i = 0; i < count; i++) printf "%s", part
        printf "))\n"
    }'
}

# The numbers alone.
write_numbers() {
    tr -d '()a-z' <"$1" | cut -d ' ' -f 4-
}

# Reads the data $1.
read_data() {
    "$program" run "$work/length.remora" <"$1"
}

# The same by CPython.
read_numbers() {
    python3 -c 'import sys; list(map(int, sys.stdin.read().split()))' <"$1"
}

# The most memory that reading the data $1 takes, in bytes.
peak() {
    /usr/bin/time -f %M -o "$work/peak" "$program" run "$work/length.remora" <"$1" >"$work/out" 2>&1 || true
    awk 'END { printf "%d\n", $1 * 1024 }' "$work/peak"
}

# Measures $2 bytes of data of numbers of $1 digits: nanoseconds and bytes of memory for each byte of it.
measure() {
    write_data "$1" "$2" >"$work/data"
    bytes=$(wc -c <"$work/data")
    took=$(least "$runs" read_data "$work/data")
    if ! grep -q '^(array () [0-9]*)$' "$work/out"; then
        echo "data.sh: the data isn't read: $(head -c 80 "$work/out")" >&2
        exit 1
    fi
    memory=$(peak "$work/data")
    awk -v t="$took" -v m="$memory" -v t0="$start" -v m0="$base" -v n="$bytes" \
        'BEGIN { printf "%.2f %.2f\n", (t - t0) / n, (m - m0) / n }'
}

"$remora" --prove >/dev/null

echo '(main ((b (Sigma ((n Dim)) (A Int (shape n)))))
  (unbox (n v b) Int ((i-app (t-app length Int) n (shape)) v)))' >"$work/length.remora"
echo '(box 1 (array (1) 1))' >"$work/one"
echo 1 >"$work/one_number"
start=$(least $((runs * 10)) read_data "$work/one")
base=$(peak "$work/one")
python_start=$(least "$runs" read_numbers "$work/one_number")

failed=0
for digits in 1 7; do
    quarter=$(measure "$digits" 262144)
    half=$(measure "$digits" 524288)
    whole=$(measure "$digits" 1048576)
    write_numbers "$work/data" >"$work/numbers"
    python=$(least "$runs" read_numbers "$work/numbers")
    echo "$quarter $half $whole $((python - python_start))" | awk -v digits="$digits" '{
        python = $7 / 1048576
        printf "%d digits, nanoseconds a byte %6.2f %6.2f %6.2f, bytes of memory a byte %6.2f %6.2f %6.2f, beside CPython %.2f", digits, $1, $3, $5, $2, $4, $6, $5 / python
        bad = $3 > $1 * 1.1 || $5 > $3 * 1.1 || $4 > $2 * 1.1 || $6 > $4 * 1.1
        printf "%s\n", bad ? ": too much" : ""
        exit bad
    }' || failed=1
done
exit $failed
