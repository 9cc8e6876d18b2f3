#!/bin/sh
# Measures `check` on accepted sources of half a mebibyte and of a whole one: its time beside that of `luac5.4 -p`, which checks
# no types, and its user and system time and its greatest memory beside those of `ocamlc -stop-after typing`, each on as long a
# text of the like shape; and its greatest memory on a frame of 200,000 integers and a string of 10^6 characters. It is no part
# of the gate, and fails where the time more than doubles by a tenth, or a source isn't accepted.
#
# usage: bench/check.sh [RUNS]
top=$(dirname -- "$(dirname -- "$(readlink -f -- "$0")")")
. "$top/bench/timing.sh"

if [ ! -x /usr/bin/time ]; then
    echo "check.sh: /usr/bin/time is wanted, which tells the memory of a command" >&2
    exit 1
fi

# A source of at most $2 bytes of the kind $1, and a Lua text and an OCaml text of as many bytes and the like shape.
write_source() {
    awk -v kind="$1" -v limit="$2" 'BEGIN {
        if (kind == "definitions") {    # many definitions, each a function that uses the one before
            printf "(define f0 (-> (Int) Int) (fn ((x Int)) Int x))\n"
            for (i = 1; n + 160 < limit; i++) {
                line = sprintf("(define f%d (-> (Int) Int) (fn ((x Int)) Int (f%d (+ x 1))))\n", i, i - 1)
                n += length(line); printf "%s", line
            }
            printf "(main () (f%d 1))\n", i - 1
        } else {                        # a frame of sums, or of lengths, each with its type and indices
            part = kind == "applications" ? " (+ (* x 2) x)" : " ((i-app (t-app length Int) 2 (shape)) x)"
            count = int((limit - 100) / length(part))
            printf "(main ((x (A Int (shape 2)))) (frame (%d)", count
            for (i = 0; i < count; i++) printf "%s", part
            printf "))\n"
        }
    }'
}
write_lua() {
    awk -v kind="$1" -v limit="$2" 'BEGIN {
        if (kind == "definitions") {
            for (i = 1; n + 60 < limit; i++) {
                line = sprintf("function f%d(x) return f%d(x + 1) end\n", i, i - 1)
                n += length(line); printf "%s", line
            }
        } else {
            part = kind == "applications" ? " ((x * 2) + x)," : " length(Int)(2, shape())(x),"
            printf "y = {"
            for (n = 10; n + length(part) < limit; n += length(part)) printf "%s", part
            printf "}\n"
        }
    }'
}

write_ocaml() {
    awk -v kind="$1" -v limit="$2" 'BEGIN {
        if (kind == "definitions") {
            printf "let f0 (x : int) : int = x\n"
            for (i = 1; n + 60 < limit; i++) {
                line = sprintf("let f%d (x : int) : int = f%d (x + 1)\n", i, i - 1)
                n += length(line); printf "%s", line
            }
        } else {
            part = kind == "applications" ? " (x * 2) + x;" : " (length 2 []) x;"
            printf "let length (_ : int) (_ : int list) (v : int array) : int = Array.length v\n"
            printf "let y (x : %s) = [|", kind == "applications" ? "int" : "int array"
            for (n = 120; n + length(part) < limit; n += length(part)) printf "%s", part
            printf "|]\n"
        }
    }'
}

# An array of 200,000 integers by frame, and a string of 10^6 characters.
write_literal() {
    awk -v kind="$1" 'BEGIN {
        if (kind == "frame") {
            printf "(main () (frame (200000)"
            for (i = 0; i < 200000; i++) printf " %d", i % 10
            printf "))\n"
        } else {
            printf "(main () \""
            for (i = 0; i < 1000000; i++) printf "a"
            printf "\")\n"
        }
    }'
}

# The least user and system time of the runs of a command, in milliseconds, and the most memory of the last, in KiB.
spent() {
    i=0
    while [ "$i" -lt "$runs" ]; do
        /usr/bin/time -f '%U %S %M' -o "$work/spent" "$@" >"$work/out" 2>&1 || true
        tail -n 1 "$work/spent"
        i=$((i + 1))
    done | awk 'NR == 1 || $1 + $2 < t { t = $1 + $2 } { m = $3 } END { printf "%d %d\n", t * 1000, m }'
}

# What `check` of the whole source of the kind $1 takes, beside `ocamlc`, where it is there.
costs() {
    read -r took memory <<END
$(spent "$program" check "$work/whole")
END
    printf '%-12s %6d milliseconds, %d bytes of memory a byte' "$1" "$took" $((memory * 1024 / 1048576))
    if command -v ocamlc >/dev/null; then
        write_ocaml "$1" 1048576 >"$work/text.ml"
        read -r other other_memory <<END
$(spent ocamlc -stop-after typing "$work/text.ml")
END
        printf ', beside ocamlc %s, and %s of its memory' "$(awk -v a="$other" -v b="$took" 'BEGIN { printf "%.2f", b / a }')" \
            "$(awk -v a="$other_memory" -v b="$memory" 'BEGIN { printf "%.2f", b / a }')"
    fi
    echo
}

"$remora" --prove >/dev/null
failed=0
for kind in applications instances definitions; do
    doubling check "$kind" || failed=1
    costs "$kind"
    "$program" check "$work/whole" | grep -q '^ok ' || failed=1
done
for kind in frame string; do
    write_literal "$kind" >"$work/whole"
    read -r took memory <<END
$(spent "$program" check "$work/whole")
END
    printf '%-12s %6d milliseconds, %d MiB of memory\n' "$kind" "$took" $((memory / 1024))
    "$program" check "$work/whole" | grep -q '^ok ' || failed=1
done
exit $failed
