#!/bin/sh
# Times the reading of tables, by the program beside this script over the libraries of a gate. See README.md.
#
# usage: run.sh [FOLDER]    FOLDER keeps the program
set -eu
here=$(cd "$(dirname "$0")" && pwd)
work=${1:-$(mktemp -d)}
mkdir -p "$work/src"
cp "$here/table_bench.txt" "$work/src/main.rt"
"$here/../over.sh" "$work" data_frame itoa anyhow
"$work/program"
