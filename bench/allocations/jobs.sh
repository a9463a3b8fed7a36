#!/usr/bin/env bash
# Refuses each request for memory in turn in a small run of each kind: all quantiles of a line, scores of any size, rank intervals, a prediction, a rank
# test, a path in lambda, a certificate, and its check, where it is whole, spoilt in two places, and cut. It prints nothing where all is well, unless it is asked to.
#
# usage: jobs.sh PROGRAM [--figures]
set -u
program=$1 figures=${2:-}
here=$(dirname "$0")
for tool in cc cmp mktemp sed stat; do
  command -v "$tool" > /dev/null || { echo "allocations: skipped, since no command $tool was found" >&2; exit 0; }
done
[ -x "$program" ] || { echo "allocations: no program at $program" >&2; exit 1; }
room=$(mktemp -d) || exit 1
trap 'rm -rf "$room"' EXIT
failed=0

# job NAME STATUS INPUT WORD..
job() {
  local name=$1
  shift
  if ! "$here/run.sh" "$program" "$@" > "$room/figures" 2> "$room/faults"; then
    failed=1
    echo "allocations: $name:" >&2
    cat "$room/faults" >&2
  fi
  [ "$figures" != --figures ] || echo "$name: $(cat "$room/figures")"
}

printf 'y,x\n0,0\n2,1\n3,3\n' > "$room/line"
printf 'y,x\n0,0\n2,1\n3,3\n,4\n' > "$room/beyond"
printf 'y\n1\n2\n3\n4\n5\n' > "$room/five"
printf 'y,w\n1,1\n2,170141183460469231731687303715884105725\n' > "$room/heavy"
line=(--formula "y ~ x" --lo 0 --hi 1)
"$program" certify "${line[@]}" < "$room/line" > "$room/whole" || exit
sed 's/"value":"3\/5"/"value":"4\/5"/' "$room/whole" > "$room/dual"
sed 's/"coef":\["0","1"\]/"coef":["0","2"]/' "$room/whole" > "$room/coef"
head -c 300 "$room/whole" > "$room/cut"

job "a line over all quantiles" 0 "$room/line" process "${line[@]}"
job "scores past 128 bits" 0 "$room/heavy" ranks --formula "y ~ 1" --weights w
job "an interval of one value" 0 "$room/five" process --formula "y ~ 1" --lo 1/2 --hi 1/2 --crit 0 --rank-at 1/2
job "intervals of both columns of a line" 0 "$room/line" process --formula "y ~ x" --lo 1/2 --hi 1/2 --crit 6/7 --rank-at 1/2
job "a prediction" 0 "$room/beyond" predict "${line[@]}"
job "a rank test" 0 "$room/line" test --formula "y ~ x" --tested 2
job "a path in lambda" 0 "$room/line" path --formula "y ~ x" --tau 1/2 --lo 1/4 --hi 2
job "a certificate" 0 "$room/line" certify "${line[@]}"
job "its check" 0 "$room/whole" check
job "the check of another dual value" 8 "$room/dual" check
job "the check of another coefficient" 8 "$room/coef" check
job "the check of a part" 1 "$room/cut" check
exit "$failed"
