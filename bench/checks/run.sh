#!/bin/sh
# Times the check of a certificate, by the program beside this script over the libraries of a gate. See README.md.
#
# usage: run.sh [FOLDER]    FOLDER keeps the program
set -eu
here=$(cd "$(dirname "$0")" && pwd)
work=${1:-$(mktemp -d)}
mkdir -p "$work/src"
cp "$here/check_bench.txt" "$work/src/main.rt"
"$here/../over.sh" "$work" frac_core rq_fan loss_model rank_model cert_text cert_checker anyhow
python3 "$here/make_certificate.py" 16384 10 100 >"$work/certificate.json"
cd "$work"
./program
