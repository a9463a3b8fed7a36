#!/bin/sh
# Gives a benchmark's program proofs of functions that it has in common with what tests share.
#
# usage: take_proofs.sh FOLDER MODULE/FUNCTION/FILE..    FOLDER/src/main.rt is the program
set -eu
from=$(cd "$(dirname "$0")/../crates/test_kit/proofs" && pwd)
folder=$1
shift
for proof in "$@"; do
    to=$folder/proofs/${proof#*/}
    mkdir -p "${to%/*}"
    sed "s/Rattle.test_kit.proofs.${proof%%/*}/Rattle.program.proofs/" "$from/$proof.antt" >"$to.antt"
done
