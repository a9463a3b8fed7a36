#!/usr/bin/env bash
# Theorems of Coq from a certificate of quantreg:
#
#     check.sh FIT.json [--folder FOLDER] [--coqchk]
#
# It writes Fit.v into the folder, FIT.coq beside the certificate where none is named, tells what checking it takes, has coqc check it, and
# prints the theorems and the axioms that they rest on. With --coqchk Coq's separate checker then reads what coqc compiled. The status is 0
# where all of that passes, 1 where the certificate is refused, with the reason, and 2 where something is missing.
here=$(cd "$(dirname "$0")" && pwd) || exit 2
fit='' folder='' coqchk=''
while [ $# -gt 0 ]; do
  case $1 in
    --folder) folder=$2; shift ;;
    --coqchk) coqchk=yes ;;
    *) fit=$1 ;;
  esac
  shift
done
[ -f "$fit" ] || { echo "usage: check.sh FIT.json [--folder FOLDER] [--coqchk]" >&2; exit 2; }
for tool in python3 coqc ${coqchk:+coqchk}; do
  command -v "$tool" > /dev/null || { echo "check.sh: no command $tool was found (Debian: apt install coq)" >&2; exit 2; }
done

folder=${folder:-${fit%.json}.coq}
mkdir -p "$folder" || exit 2
python3 "$here/fit_of.py" < "$fit" > "$folder/Fit.v" || exit 2
cp "$here"/{Statement,Soundness,Ranks}.v "$folder" && cd "$folder" || exit 2
for file in Statement Soundness Ranks; do
  coqc -q -Q . Quantreg "$file.v" || exit 2
done

if ! coqc -q -Q . Quantreg Fit.v > said 2>&1; then
  cat said
  line=$(sed -n 's/^File "[^"]*", line \([0-9]*\),.*/\1/p' said | tail -n 1)
  theorem=$(sed -n "1,${line:-1}s/^Theorem \([a-z_0-9]*\).*/\1/p" Fit.v | tail -n 1)
  reason=$(tr -s '[:space:]' ' ' < said | sed -n 's/.* with "\(Refused (\)\{0,1\}\([A-Za-z0-9 ]*\).*/\2/p')
  echo "refused: $theorem: $reason"
  exit 1
fi
cat said
if [ "$coqchk" ]; then
  coqchk -silent -Q . Quantreg -bytecode-compiler yes \
    -norec Quantreg.Fit -norec Quantreg.Statement -norec Quantreg.Soundness -norec Quantreg.Ranks || exit 1
  echo "coqchk: accepted, over the standard library as it is installed"
fi
echo "accepted: the theorems stand in $folder/Fit.v, in the words of $folder/Statement.v"
