#!/usr/bin/env bash
# Times the program on two tables of 16,384 records that it makes. Wide: a response, 99 columns of integers and a factor of 20
# levels. Long: a response, a factor of 16,384 texts and as many numbers, factors of 100 and of 25 levels, and two columns
# of integers with 1,000 values. The table is read, the formula, its design and its problem are made. With no pivot allowed,
# little follows on the wide table: the fit stops at its first basis, with status 6, or before that, where 100 columns outgrow
# 128 bits, with status 7. On the long one nothing does: a design of more than 128 columns is refused, and so is a smooth of
# 1,000 values, once the design of the terms beside it is made; both with status 1.
#
# usage: run.sh PROGRAM
set -eu
program=$1
work=$(mktemp -d)
trap 'rm -rf "$work"' EXIT
awk 'BEGIN {
  s = 1
  printf "y"; for (j = 1; j <= 99; j++) printf ",x%d", j; print ",f"
  for (i = 1; i <= 16384; i++) {
    printf "%d", i % 977
    for (j = 1; j <= 99; j++) { s = (1664525 * s + 1013904223) % 4294967296; printf ",%d", int(s / 65536) % 1000 }
    s = (1664525 * s + 1013904223) % 4294967296; printf ",level%d\n", int(s / 65536) % 20
  }
}' > "$work/wide.csv"
# The 16,384 texts come in two orders: mixed, and each before all that came (last).
awk 'BEGIN {
  s = 1
  print "y,mixed,last,number,f,g,a,b"
  for (i = 0; i < 16384; i++) {
    printf "%d,text%05d,text%05d,%d", i % 977, i * 7919 % 16384, 16383 - i, i * 7919 % 16384
    s = (1664525 * s + 1013904223) % 4294967296; printf ",level%d", int(s / 65536) % 100
    s = (1664525 * s + 1013904223) % 4294967296; printf ",level%d", int(s / 65536) % 25
    s = (1664525 * s + 1013904223) % 4294967296; printf ",%d", int(s / 65536) % 1000
    s = (1664525 * s + 1013904223) % 4294967296; printf ",%d\n", int(s / 65536) % 1000
  }
}' > "$work/long.csv"

# time_fit TABLE FORMULA
time_fit() {
  for _ in 1 2 3; do
    status=0
    /usr/bin/time -q -o "$work/time" -f "%e s, of a processor %U s, %M KB" "$program" process --formula "$2" --lo 1/2 --hi 1/2 --pivots 0 \
      < "$work/$1.csv" > "$work/report" 2> "$work/told" || status=$?
    echo "$(cat "$work/time"), status $status: $1, ${2:0:24}"
  done
}

wide="y ~ x1$(for j in $(seq 2 99); do printf ' + x%d' "$j"; done)"
for formula in "y ~ 1" "$wide" "y ~ f*x1 + f:x2" "y ~ 0 + f"; do time_fit wide "$formula"; done
for formula in "y ~ 1 + qss(a, 1)" "y ~ mixed" "y ~ last" "y ~ factor(number)" "y ~ f*a*b" "y ~ f + a + b + qss(a, 1)" "y ~ g*a*b + qss(a, 1)"; do
  time_fit long "$formula"
done
