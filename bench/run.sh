#!/bin/sh
# Measures `run` of whole programs beside CPython and Lua on equal work: a dot product, a matrix product by rank, the greatest
# item by a fold, a sieve, a word count; each at half the size too, so that the cost of an item shows. It tells the start-up
# beside that of lua5.4, and what `build` of a source of a mebibyte takes beside `check`. It is no part of the gate.
#
# usage: bench/run.sh [RUNS]
top=$(dirname -- "$(dirname -- "$(readlink -f -- "$0")")")
. "$top/bench/timing.sh"

budget=1000000000

# The numbers from 0 to n - 1, as a function of a truth value.
places='(define places (Pi ((n Dim)) (-> (Bool) (A Int (shape n))))
  (ifn ((n Dim)) (fn ((b Bool)) (A Int (shape n))
    ((i-app (t-app positions Bool) n (shape)) ((i-app (t-app replicate Bool) n (shape)) b)))))'

dot='(define dot (Pi ((k Dim)) (-> ((A Int (shape k)) (A Int (shape k))) Int))
  (ifn ((k Dim)) (fn ((a (A Int (shape k))) (b (A Int (shape k)))) Int
    ((i-app (t-app fold Int Int) k (shape) (shape)) + 0 (* a b)))))'

# The program of the kind $1 and the size $2.
write_source() {
    case $1 in
    dot)
        printf '%s\n%s\n' "$places" "$dot"
        echo "(main () ((fn ((xs (A Int (shape $2)))) Int ((i-app dot $2) xs (mod xs 10))) ((i-app places $2) #t)))"
        ;;
    matrix)
        printf '%s\n%s\n' "$places" "$dot"
        cat <<END
(define table (Pi ((n Dim)) (-> ((A Int (shape n)) Int) (A Int (shape n))))
  (ifn ((n Dim)) (fn ((xs (A Int (shape n))) (x Int)) (A Int (shape n)) (mod (* x xs) 10))))
(define product (Pi ((n Dim)) (-> ((A Int (shape n n)) (A Int (shape n n))) (A Int (shape n n))))
  (ifn ((n Dim)) (fn ((a (A Int (shape n n))) (b (A Int (shape n n)))) (A Int (shape n n))
    ((fn ((row (A Int (shape n))) (columns (A Int (shape n n)))) (A Int (shape n)) ((i-app dot n) row columns))
     a ((i-app (t-app transpose Int) n n (shape)) b)))))
(define sum (Pi ((n Dim)) (-> ((A Int (shape n))) Int))
  (ifn ((n Dim)) (fn ((xs (A Int (shape n)))) Int ((i-app (t-app fold Int Int) n (shape) (shape)) + 0 xs))))
(main () ((fn ((xs (A Int (shape $2)))) Int
    ((fn ((a (A Int (shape $2 $2)))) Int ((i-app sum $2) ((i-app sum $2) ((i-app product $2) a a))))
     ((i-app table $2) xs xs)))
  ((i-app places $2) #t)))
END
        ;;
    greatest)
        echo "$places"
        cat <<END
(define greatest (Pi ((n Dim)) (-> ((A Int (shape n))) Int))
  (ifn ((n Dim)) (fn ((xs (A Int (shape n)))) Int
    ((i-app (t-app fold Int Int) n (shape) (shape)) (fn ((a Int) (x Int)) Int (max a x)) 0 xs))))
(main () ((i-app greatest $2) (mod (* 7919 ((i-app places $2) #t)) 1000003)))
END
        ;;
    sieve)
        divisors=$(awk -v n="$2" 'BEGIN { d = int(sqrt(n)) - 1; print d }')
        echo "$places"
        cat <<END
(define sieve (Pi ((n Dim) (d Dim)) (-> ((A Int (shape n)) (A Int (shape d))) (A Bool (shape n))))
  (ifn ((n Dim) (d Dim)) (fn ((xs (A Int (shape n))) (ds (A Int (shape d)))) (A Bool (shape n))
    ((i-app (t-app fold Int Bool) d (shape) (shape n))
     (fn ((kept (A Bool (shape n))) (x Int)) (A Bool (shape n)) (and kept (or (<= xs x) (not (= 0 (mod xs x))))))
     ((i-app (t-app replicate Bool) n (shape)) #t)
     ds))))
(define count (Pi ((n Dim)) (-> ((A Bool (shape n))) Int))
  (ifn ((n Dim)) (fn ((bs (A Bool (shape n)))) Int ((i-app (t-app fold Int Int) n (shape) (shape)) + 0 (bool->int bs)))))
(main () ((i-app count $2) ((i-app sieve $2 $divisors) (+ 2 ((i-app places $2) #t)) (+ 2 ((i-app places $divisors) #t)))))
END
        ;;
    words)
        cat <<END
(define is-blank (-> (Char) Bool) (fn ((c Char)) Bool (char= c #\\u20)))
(define words (Pi ((n Dim)) (-> ((A Char (shape (+ n 1)))) Int))
  (ifn ((n Dim)) (fn ((text (A Char (shape (+ n 1))))) Int
    ((fn ((before (A Char (shape (+ 1 n))))) Int
       ((i-app (t-app fold Int Int) (+ n 1) (shape) (shape))
        + 0 (bool->int (and (is-blank before) (not (is-blank text))))))
     ((i-app (t-app append Char) 1 n (shape)) (array (1) #\\u20) ((i-app (t-app take Char) n 1 (shape)) text))))))
END
        awk -v n="$2" 'BEGIN {
            printf "(main () ((i-app words %d) \"", n - 1
            for (i = 0; i < n; i++) printf "%s", i % 6 == 5 ? " " : "a"
            printf "\"))\n" }'
        ;;
    esac
}

# The same work in Python.
write_python() {
    case $1 in
    dot) echo "xs = list(range($2)); print(sum([a * b for a, b in zip(xs, [x % 10 for x in xs])]))" ;;
    matrix) cat <<END
n = $2
a = [[x * y % 10 for y in range(n)] for x in range(n)]
columns = list(zip(*a))
print(sum(sum([sum([p * q for p, q in zip(row, column)]) for column in columns]) for row in a))
END
        ;;
    greatest) cat <<END
greatest = 0
for x in [7919 * i % 1000003 for i in range($2)]:
    greatest = max(greatest, x)
print(greatest)
END
        ;;
    sieve) cat <<END
n = $2
kept = [True] * n
for d in range(2, int(n ** 0.5) + 1):
    kept = [k and (x <= d or x % d != 0) for k, x in zip(kept, range(2, n + 2))]
print(sum([int(k) for k in kept]))
END
        ;;
    words) cat <<END
text = "".join([" " if i % 6 == 5 else "a" for i in range($2)])
blank = [c == " " for c in text]
print(sum([int(b and not c) for b, c in zip([True] + blank[:-1], blank)]))
END
        ;;
    esac
}

# And in Lua.
write_lua() {
    case $1 in
    dot) cat <<END
local xs, ys, s = {}, {}, 0
for i = 1, $2 do xs[i] = i - 1 end
for i = 1, $2 do ys[i] = xs[i] % 10 end
for i = 1, $2 do s = s + xs[i] * ys[i] end
print(s)
END
        ;;
    matrix) cat <<END
local n, a, s = $2, {}, 0
for x = 1, n do a[x] = {} for y = 1, n do a[x][y] = (x - 1) * (y - 1) % 10 end end
for x = 1, n do for y = 1, n do
  local t = 0
  for k = 1, n do t = t + a[x][k] * a[k][y] end
  s = s + t
end end
print(s)
END
        ;;
    greatest) cat <<END
local xs, most = {}, 0
for i = 1, $2 do xs[i] = 7919 * (i - 1) % 1000003 end
local function f(a, x) return math.max(a, x) end
for i = 1, $2 do most = f(most, xs[i]) end
print(most)
END
        ;;
    sieve) cat <<END
local n, kept, s = $2, {}, 0
for i = 1, n do kept[i] = true end
for d = 2, math.floor(math.sqrt(n)) do
  for i = 1, n do kept[i] = kept[i] and (i + 1 <= d or (i + 1) % d ~= 0) end
end
for i = 1, n do if kept[i] then s = s + 1 end end
print(s)
END
        ;;
    words) cat <<END
local t, s = {}, 0
for i = 1, $2 do t[i] = i % 6 == 0 and " " or "a" end
local text = table.concat(t)
for i = 1, $2 do
  local before = i == 1 and " " or text:sub(i - 1, i - 1)
  if before == " " and text:sub(i, i) ~= " " then s = s + 1 end
end
print(s)
END
        ;;
    esac
}

# Measures the kind $1 at the size $2 and at half of it.
measure() {
    write_source "$1" $(($2 / 2)) >"$work/half.remora"
    write_source "$1" "$2" >"$work/whole.remora"
    write_python "$1" "$2" >"$work/whole.py"
    write_lua "$1" "$2" >"$work/whole.lua"
    half=$(least "$runs" "$program" run "$work/half.remora" --steps "$budget")
    whole=$(least "$runs" "$program" run "$work/whole.remora" --steps "$budget")
    answer=$(head -c 60 "$work/out" | tr -d '\n')
    memory=$(/usr/bin/time -f %M "$program" run "$work/whole.remora" --steps "$budget" 2>&1 >/dev/null | tail -1)
    python=$(least "$runs" /usr/bin/python3 "$work/whole.py")
    same=$(tr -d '\n' <"$work/out")
    lua=$(least "$runs" lua5.4 "$work/whole.lua")
    same="$same $(tr -d '\n' <"$work/out")"
    awk -v kind="$1" -v size="$2" -v half="$half" -v whole="$whole" -v python="$python" -v lua="$lua" -v memory="$memory" \
        -v answer="$answer" -v same="$same" -v start="$start" 'BEGIN {
        printf "%-9s of %8d: %8.1f ms, size doubled %.2f, beside CPython %.2f, beside Lua %.2f, %d kB; answers %s, peers %s\n",
            kind, size, whole / 1e6, (whole - start) / (half - start), whole / python, whole / lua, memory, answer, same }'
}

"$remora" --prove >/dev/null

start=$(least $((runs * 10)) "$program" run "$top/examples/add.remora")
lua=$(least $((runs * 10)) lua5.4 -e '')
awk -v a="$start" -v b="$lua" 'BEGIN { printf "start-up beside lua5.4: %.2f\n", a / b }'

measure dot 1000000
measure matrix 200
measure greatest 1000000
measure sieve 100000
measure words 100000

# A source of a mebibyte: many definitions, each a function that uses the one before.
awk 'BEGIN {
    print "(define f0 (-> (Int) Int) (fn ((x Int)) Int x))"
    for (i = 1; bytes < 1048300; i++) {
        text = sprintf("(define f%d (-> (Int) Int) (fn ((x Int)) Int (+ 1 (f%d x))))\n", i, i - 1)
        bytes += length(text)
        if (bytes < 1048300) { printf "%s", text; last = i }
    }
    printf "(main () (f%d 0))\n", last }' >"$work/long.remora"
check=$(least "$runs" "$program" check "$work/long.remora")
build=$(least "$runs" "$program" build "$work/long.remora")
awk -v a="$check" -v b="$build" 'BEGIN { printf "build of a source of a mebibyte beside check: %.2f\n", b / a }'
