#!/usr/bin/env bash
# Refuses each request for memory of a run in turn, and looks at what the run leaves: status 5, nothing on standard output
# and the line of want of memory on standard error, or nothing there where the words weren't taken from the system yet. A run
# may also go on without the memory, as where a vector asks for room to spare; it then leaves what it does with all memory.
#
# usage: run.sh PROGRAM STATUS INPUT WORD..    STATUS is that of the run with all memory
set -eu
program=$1 wanted=$2 input=$3
shift 3
folder=$(mktemp -d)
trap 'rm -rf "$folder"' EXIT
cc -O2 -shared -fPIC -o "$folder/refuse.so" "$(dirname "$0")/refuse.c"

# ran NAME WORD..: runs the program with its outputs in files of that name, and sets the status
ran() {
  local name=$1
  shift
  status=0
  LD_PRELOAD=$folder/refuse.so "$program" "$@" < "$input" > "$folder/$name.out" 2> "$folder/$name.err" || status=$?
}

REQUESTS=$folder/requests ran whole "$@"
if [ "$status" -ne "$wanted" ]; then
  echo "with all memory: status $status, and not $wanted" >&2
  exit 1
fi
requests=$(cat "$folder/requests")
refused=0 silent=0 whole=0 other=0
for ((number = 1; number <= requests; number++)); do
  REFUSE=$number ran one "$@"
  told=$(< "$folder/one.err")
  if [ "$status" -eq 5 ] && [ ! -s "$folder/one.out" ] && [ "$told" = "quantreg: memory: OutOfMemory" ]; then
    refused=$((refused + 1))
  elif [ "$status" -eq 5 ] && [ ! -s "$folder/one.out" ] && [ -z "$told" ]; then
    silent=$((silent + 1))
  elif [ "$status" -eq "$wanted" ] && cmp -s "$folder/one.out" "$folder/whole.out" && cmp -s "$folder/one.err" "$folder/whole.err"; then
    whole=$((whole + 1))
  else
    other=$((other + 1))
    echo "request $number: status $status, $(stat -c %s "$folder/one.out") bytes printed, told: $told" >&2
  fi
done
echo "$requests requests, each refused in one run: $refused with status 5 and its line, $silent before the words were taken," \
  "$whole as with all memory, $other otherwise"
[ "$other" -eq 0 ]
