#!/bin/sh
# Times starts and exchanges, by the program beside this script over the libraries of a gate. See README.md.
#
# usage: run.sh [FOLDER]    FOLDER keeps the program
set -eu
here=$(cd "$(dirname "$0")" && pwd)
work=${1:-$(mktemp -d)}
mkdir -p "$work/src"
cp "$here/inverse_bench.txt" "$work/src/main.rt"
"$here/../over.sh" "$work" frac_core loss_model basis_inverse anyhow
"$work/program"
