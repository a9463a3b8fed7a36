#!/bin/sh
# Prints the nanoseconds of each operation on fractions, as the proved code takes them and as the same
# code does that rustc compiles, with their ratio and the machine's load. See README.md.
set -eu
here=$(cd "$(dirname "$0")" && pwd)
root=$(cd "$here/../.." && pwd)
temp=$(mktemp -d)
trap 'rm -rf "$temp"' EXIT

# the proved program
mkdir -p "$temp/bench/src"
cp "$here/main.rt.txt" "$temp/bench/src/main.rt"
cp "$here/work.rt.txt" "$temp/bench/src/work.rt"
"$here/../over.sh" "$temp/bench" frac_core
"$temp/bench/program" > "$temp/proved"

# the same code without its clauses
mkdir "$temp/rust"
for module in bounded divisor exact frac128 frac64 parts; do
    awk -f "$here/strip.awk" "$root/crates/frac_core/src/$module.rt" > "$temp/rust/$module.rs"
done
cp "$here/main.rs" "$temp/rust/main.rs"
cp "$here/work.rt.txt" "$temp/rust/work.rs"
(cd "$temp/rust" && rustc --edition 2024 -O -C target-cpu=x86-64-v2 -A warnings main.rs -o bench && ./bench > "$temp/compiled")

# each line: type, bits, operation, tenths of a nanosecond, and a sum that both must have
paste -d ' ' "$temp/proved" "$temp/compiled" | awk '
    BEGIN { print "type     bits  operation  proved  rustc  ratio" }
    $5 != $10 { print "the sums differ: " $0; bad = 1; next }
    { printf "%-7s  %4d  %-9s  %6.1f  %5.1f  %5.2f\n", $1, $2, $3, $4 / 10, $9 / 10, $4 / $9 }
    END { exit bad }'
uptime
