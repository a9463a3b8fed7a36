#!/usr/bin/env bash
# Runs the program that the gate has built, and compares its exit status, standard output and standard
# error byte for byte. The lines expected were written by hand, from the table of exit statuses in
# docs/MANUAL.md. It prints nothing where all is well.
cd "$(dirname "$0")/.." || exit 1
program=$PWD/crates/quantreg/out/quantreg
table=$PWD/examples/stackloss.csv
report=$PWD/crates/quantreg/stdout

skip() { echo "streams: skipped: $1" >&2; exit 0; }
[ -x "$program" ] || { echo "streams: the gate has left no program at crates/quantreg/out/quantreg" >&2; exit 1; }
for tool in cmp cat mktemp; do command -v "$tool" > /dev/null || skip "no command $tool"; done

room=$(mktemp -d) || exit 1
trap 'rm -rf "$room"' EXIT
failed=0
: > "$room/nothing"

wrong() { echo "streams: $1: $2" >&2; failed=1; }

# compare NAME WANTED STATUS LINE REPORT: of the run that wrote $room/out and $room/err and ended with STATUS
compare() {
  printf '%s' "$4" > "$room/line"
  [ "$3" -eq "$2" ] || wrong "$1" "exit status $3, and not $2"
  cmp -s "$room/out" "$5" || wrong "$1" "standard output differs: $(cat "$room/out")"
  cmp -s "$room/err" "$room/line" || wrong "$1" "standard error differs: $(cat "$room/err")"
}

# try NAME STATUS LINE REPORT INPUT WORD..
try() {
  local name=$1 status=$2 line=$3 wanted=$4 input=$5
  shift 5
  "$program" "$@" < "$input" > "$room/out" 2> "$room/err"
  compare "$name" "$status" $? "$line" "$wanted"
}

job=(process --formula "stack.loss ~ ." --lo 1/2 --hi 1/2)
nothing=$room/nothing
printf 'y,x\n1,2\n3,5\n' > "$room/two"
printf 'y,x\n1,2\n3\n' > "$room/ragged"
printf 'y,w\n1,1e38\n2,1e38\n3,1e38\n' > "$room/heavy"
power=100000000000000000000000000000000000000
# the median of one record, and the same with another coefficient
row='{"down0":"1","down1":"-1","up0":"0","up1":"1","x":["1"],"y":"7"}'
segment='"hi":"1/2","lo":"1/2","loss_hi":"0","loss_lo":"0","sides":"*"'
for coef in 7 5; do
  printf '{"columns":1,"hi":"1/2","intervals":[],"kind":"quantreg-certificate","lo":"1/2","rows":[%s],"segments":[{"basic_hi":["0"],"basic_lo":["0"],"coef":["%s"],%s}],"version":1}\n' "$row" "$coef" "$segment" > "$room/coef$coef"
done
mv "$room/coef7" "$room/line.json" && mv "$room/coef5" "$room/spoilt.json"
printf 'quantreg check 1\ncolumns 1\nrows 1\nsegments 1\nintervals 0\naccepted\nend\n' > "$room/accepted"

try "a report" 0 "" "$report" "$table" "${job[@]}"
try "no words" 2 $'quantreg: usage: NoJob\n' "$nothing" "$table"
try "a range that falls" 2 $'quantreg: usage: BadRange\n' "$nothing" "$table" process --formula "y ~ x" --lo 3/4 --hi 1/4
try "a word that isn't UTF-8" 5 "" "$nothing" "$table" $'\xff'
try "an empty input" 1 $'quantreg: table: NoHeader\n' "$nothing" "$nothing" "${job[@]}"
try "a short record" 1 $'quantreg: table: Ragged record=2 found=1 wanted=2\n' "$nothing" "$room/ragged" process --formula "y ~ x" --lo 1/2 --hi 1/2
try "a name that is no column" 1 $'quantreg: formula: UnknownName offset=4\n' "$nothing" "$room/two" process --formula "y ~ z" --lo 1/2 --hi 1/2
try "one pivot too few" 6 $'quantreg: solver: PivotLimit place=process limit=4\n' "$nothing" "$table" "${job[@]}" --pivots 4
try "as many pivots as are needed" 0 "" "$report" "$table" "${job[@]}" --pivots 5
try "weights whose sum is too wide" 7 "quantreg: solver: Overflow place=process quantity=nonbasic-total at=1,1 term=2 op=add left=$power right=$power"$'\n' "$nothing" "$room/heavy" process --formula "y ~ 1" --lo 1/2 --hi 1/2 --weights w
try "a certificate that is accepted" 0 "" "$room/accepted" "$room/line.json" check
try "a certificate that is rejected" 8 $'quantreg: check: Rejected condition=7 index=1 inner=1 left=0 right=1\n' "$nothing" "$room/spoilt.json" check
# a folder can't be read
try "a source that fails" 3 $'quantreg: source: SourceFault\n' "$nothing" "$room" "${job[@]}"

# a device that is always full
if [ -c /dev/full ]; then
  "$program" "${job[@]}" < "$table" > /dev/full 2> "$room/err"
  status=$?
  : > "$room/out"
  compare "standard output that fails" 4 $status $'quantreg: sink: SinkFault\n' "$nothing"
  "$program" < "$table" > "$room/out" 2> /dev/full
  status=$?
  : > "$room/err"
  compare "standard error that fails" 4 $status "" "$nothing"
else
  echo "streams: no device /dev/full, so no failing output was tried" >&2
fi

# Streams that are closed, and pipes: a byte at a time, a writer that pauses, a reader that stops and goes on, and one that leaves. The
# report over all quantiles of 300 records is longer than a pipe holds.
awk 'BEGIN { print "y,x"; for (i = 1; i <= 300; i++) print i * 7919 % 1009 "," i * 104729 % 997 }' > "$room/long"
range=(process --formula "y ~ x" --lo 0 --hi 1)
"$program" "${range[@]}" < "$room/long" > "$room/long.out" 2> "$room/err"
: > "$room/out"
compare "a long report" 0 $? "" "$nothing"
[ "$(wc -c < "$room/long.out")" -gt 65536 ] || wrong "a long report" "it fits a pipe"

"$program" "${job[@]}" <&- > "$room/out" 2> "$room/err"
compare "standard input that is closed" 3 $? $'quantreg: source: SourceFault\n' "$nothing"
"$program" "${job[@]}" < "$table" >&- 2> "$room/err"
status=$?
: > "$room/out"
compare "standard output that is closed" 4 $status $'quantreg: sink: SinkFault\n' "$nothing"
"$program" < "$table" > "$room/out" 2>&-
status=$?
: > "$room/err"
compare "standard error that is closed" 4 $status "" "$nothing"
dd if="$table" bs=1 2> "$room/dd" | "$program" "${job[@]}" > "$room/out" 2> "$room/err"
compare "a table byte by byte" 0 $? "" "$report"
{ head -c 100 "$table"; sleep 0.2; tail -c +101 "$table"; } | "$program" "${job[@]}" > "$room/out" 2> "$room/err"
compare "a table with a pause" 0 $? "" "$report"
"$program" "${range[@]}" < "$room/long" 2> "$room/err" | { sleep 0.2; cat; } > "$room/out"
compare "a reader that stops and goes on" 0 "${PIPESTATUS[0]}" "" "$room/long.out"
"$program" "${range[@]}" < "$room/long" 2> "$room/err" | head -c 1 > "$room/first"
status=${PIPESTATUS[0]}
: > "$room/out"
compare "a reader that leaves" 4 "$status" $'quantreg: sink: SinkFault\n' "$nothing"

# A design of 128 columns, the most, and one of 129: a factor of so many levels.
levels() { awk -v n="$1" 'BEGIN { print "y,f"; for (i = 1; i <= n; i++) print i ",l" i }' > "$room/levels"; }
levels 128
"$program" process --formula "y ~ f" --lo 1/2 --hi 1/2 < "$room/levels" > "$room/out" 2> "$room/err"
[ $? -eq 0 ] || wrong "a design of 128 columns" "$(cat "$room/err")"
[ "$(grep -c '^column ' "$room/out")" -eq 128 ] || wrong "a design of 128 columns" "it has another number of columns"
levels 129
try "a design of 129 columns" 1 $'quantreg: design: TooManyColumns\n' "$nothing" "$room/levels" process --formula "y ~ f" --lo 1/2 --hi 1/2

# A certificate that is longer than 2^26 bytes, of a table that isn't: each of 114 columns has one record with 1 there and the response 0,
# and 16,270 records have 33 ones in each column, half of them the response 1 and half -1. So the median has the coefficients 0 and the
# dual values 0, and loses 16,270 halves. The length is that of the text by its format.
ones=111111111111111111111111111111111
awk -v ones=$ones 'BEGIN {
  n = 114; printf "y"; for (j = 1; j <= n; j++) printf ",x%d", j; print ""
  for (i = 1; i <= n; i++) { printf "0"; for (j = 1; j <= n; j++) printf ",%d", i == j; print "" }
  for (j = 1; j <= n; j++) full = full "," ones
  for (i = 1; i <= 8135; i++) { print "1" full; print "-1" full }
}' > "$room/wide"
awk -v ones=$ones 'function list(x, n,  t, j) { for (j = 1; j <= n; j++) t = t (j > 1 ? "," : "") "\"" x "\""; return "[" t "]" }
function row(x, y) { return "{\"down0\":\"1\",\"down1\":\"-1\",\"up0\":\"0\",\"up1\":\"1\",\"x\":" x ",\"y\":\"" y "\"}" }
BEGIN {
  n = 114; zeros = list("0", n); full = list(ones, n)
  head = "{\"columns\":114,\"hi\":\"1/2\",\"intervals\":[],\"kind\":\"quantreg-certificate\",\"lo\":\"1/2\",\"rows\":["
  tail = "],\"segments\":[{\"basic_hi\":" zeros ",\"basic_lo\":" zeros ",\"coef\":" zeros ",\"hi\":\"1/2\",\"lo\":\"1/2\",\"loss_hi\":\"8135\",\"loss_lo\":\"8135\",\"sides\":\"\"}],\"version\":2}\n"
  print length(head) + length(tail) + 114 * length(row(zeros, "0")) + 8135 * (length(row(full, "1")) + length(row(full, "-1"))) + 2 * 16384 - 1
}' > "$room/length"
try "a certificate that is too long" 1 "quantreg: certificate: CertTooLong length=$(cat "$room/length")"$'\n' "$nothing" "$room/wide" certify --formula "y ~ 0 + ." --lo 1/2 --hi 1/2

# The deepest formula and the deepest text that are read, with a stack of 256 KiB.
deep=$(printf '%64s' '' | tr ' ' '(')x$(printf '%64s' '' | tr ' ' ')')
"$program" process --formula "y ~ x" --lo 1/2 --hi 1/2 < "$room/two" > "$room/shallow" 2> "$room/err"
(ulimit -s 256 && exec "$program" process --formula "y ~ $deep" --lo 1/2 --hi 1/2) < "$room/two" > "$room/out" 2> "$room/err"
compare "64 parentheses on a small stack" 0 $? "" "$room/shallow"
{ printf '%127s' '' | tr ' ' '['; printf '%127s' '' | tr ' ' ']'; } > "$room/deep.json"
(ulimit -s 256 && exec "$program" check) < "$room/deep.json" > "$room/out" 2> "$room/err"
compare "127 lists on a small stack" 1 $? $'quantreg: certificate: Shape path=\n' "$nothing"

# A program that is stopped while it reads, and then goes on.
mkfifo "$room/pipe"
"$program" "${job[@]}" < "$room/pipe" > "$room/out" 2> "$room/err" &
stopped=$!
exec 9> "$room/pipe"
head -c 100 "$table" >&9
sleep 0.1
kill -STOP "$stopped"
sleep 0.1
tail -c +101 "$table" >&9
exec 9>&-
kill -CONT "$stopped"
wait "$stopped"
compare "a program that is stopped and goes on" 0 $? "" "$report"

# No thread to be had: jobs run one after the other, and reports, limits and rejections are the same. Each is of a job that has more than
# one thread otherwise.
intervals=("${job[@]}" --crit 2.7055 --rank-at 1/4,1/2)
"$program" "${intervals[@]}" < "$table" > "$room/threads" 2> "$room/err"
"$program" certify --formula "stack.loss ~ ." --lo 0 --hi 1 < "$table" > "$room/whole.json" 2> "$room/err"
sed 's/"loss_hi":"[^"]*"/"loss_hi":"7"/2' "$room/whole.json" > "$room/bent.json"
"$program" check < "$room/whole.json" > "$room/whole" 2> "$room/err"
"$program" check < "$room/bent.json" > "$room/out" 2> "$room/bent"
[ $? -eq 8 ] || wrong "a loss that is changed" "it isn't rejected"
"$program" "${intervals[@]}" --pivots 6 < "$table" > "$room/out" 2> "$room/limit"
[ $? -eq 6 ] || wrong "an interval with too few pivots" "it isn't stopped"

# alone NAME STATUS LINE REPORT INPUT COMMAND WORD..: the program under a command that lets it have no thread
alone() {
  local name=$1 status=$2 line=$3 wanted=$4 input=$5
  shift 5
  "$@" < "$input" > "$room/out" 2> "$room/err"
  compare "$name" "$status" $? "$line" "$wanted"
}

if [ "$(id -u)" -eq 0 ] && command -v setpriv > "$room/nothing.out" && command -v prlimit > "$room/nothing.out"; then
  chmod 755 "$room" && cp "$program" "$room/program" && chmod 755 "$room/program"
  single=(setpriv --reuid=65534 --regid=65534 --clear-groups prlimit --nproc=1 "$room/program")
  alone "no thread to be had" 0 "" "$room/threads" "$table" "${single[@]}" "${intervals[@]}"
  alone "an interval's limit without a thread" 6 "$(cat "$room/limit")"$'\n' "$nothing" "$table" "${single[@]}" "${intervals[@]}" --pivots 6
  alone "a check without a thread" 0 "" "$room/whole" "$room/whole.json" "${single[@]}" check
  alone "a rejection without a thread" 8 "$(cat "$room/bent")"$'\n' "$nothing" "$room/bent.json" "${single[@]}" check
else
  echo "streams: no setpriv and prlimit as root, so a run without threads was not tried" >&2
fi

# An address space that is too small for a table of 16,384 records and 100 columns, and enough for small jobs, whose threads it leaves no
# stacks: want of memory is told, and a report is whole.
narrow() { (ulimit -v 65536 && exec "$program" "$@"); }
narrow sample --number 1 --rows 16384 --columns 100 --lo 1/2 --hi 1/2 < "$nothing" > "$room/out" 2> "$room/err"
compare "an address space that is too small" 5 $? $'quantreg: memory: OutOfMemory\n' "$nothing"
narrow "${job[@]}" < "$table" > "$room/out" 2> "$room/err"
compare "a small address space" 0 $? "" "$report"
narrow "${intervals[@]}" < "$table" > "$room/out" 2> "$room/err"
compare "threads without room for their stacks" 0 $? "" "$room/threads"

exit "$failed"
