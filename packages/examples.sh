#!/usr/bin/env bash
# Runs the examples of the README and of the companions with what is installed, and compares what they print with these pages.
#
#   packages/examples.sh program PREFIX     the program below PREFIX, its man pages, its completion of bash, its pages, the checker and the tables
#   packages/examples.sh python PYTHON      the package quantreg_exact of that python; the figures where matplotlib is there
#   packages/examples.sh r                  the package quantreg.exact of the R on the path
#
# The status is 1 where something differs, and a line tells what.
cd "$(dirname "$0")/.." || exit 1
top=$PWD
room=$(mktemp -d) || exit 1
trap 'rm -rf "$room"' EXIT

wrong() { echo "examples: $1"; exit 1; }

# What a page has between its first line LANGUAGE of a code block and the end of that.
block() { awk -v first="\`\`\`$2" '$0 == first { on = 1; next } /^```/ { if (on) exit } on' "$1"; }

same() { [ -s "$1" ] && diff "$1" "$2" || wrong "$3 prints something else"; }

program_examples() {
  local bin=$1/bin share=$1/share page target job=(--formula "stack.loss ~ ." --lo 1/2 --hi 1/2)
  "$bin/quantreg" process "${job[@]}" < examples/stackloss.csv > "$room/shown" || wrong "the program has no report"
  same crates/quantreg/stdout "$room/shown" "the program"
  for page in quantreg quantreg-check quantreg-table; do
    gzip -t "$share/man/man1/$page.1.gz" || wrong "the man page of $page is missing"
    ! command -v man > "$room/nothing" || MANPATH=$share/man man "$page" > "$room/page" && grep -q NAME "$room/page" || wrong "man doesn't show $page"
  done
  [ "$(bash -c "source '$share/bash-completion/completions/quantreg'; complete -p quantreg")" = "complete -o default -F _quantreg quantreg" ] ||
    wrong "bash completes nothing of quantreg"
  for page in $(cd "$share/doc/quantreg" && find . -name "*.md"); do
    for target in $(grep -o '](\([^()#:]*\)[)#]' "$share/doc/quantreg/$page" | tr -d '](#)'); do
      [ -e "$share/doc/quantreg/$(dirname "$page")/$target" ] || wrong "the page $page has a link to $target, which isn't there"
    done
  done
  grep -q "^program $(sha256sum < "$bin/quantreg" | cut -d " " -f 1)$" "$share/doc/quantreg/provenance" || wrong "the record has another sum"
  if command -v python3 > "$room/nothing"; then
    "$bin/quantreg" certify "${job[@]}" < examples/stackloss.csv > "$room/fit.json"
    "$bin/quantreg-check" --table examples/stackloss.csv "$room/fit.json" > "$room/told" || wrong "the checker refuses a certificate: $(cat "$room/told")"
    is_tabled "$bin/quantreg-table" < "$room/shown"
  fi
}

# Whether the command makes decimals of the report of stackloss.
is_tabled() {
  "$1" --csv --digits 2 > "$room/table" && [ "$(tail -n 1 "$room/table")" = "0.50,0.50,-39.69,0.83,0.57,-0.06,21.04,21.04" ] || wrong "quantreg-table prints something else: $(cat "$room/table")"
}

python_examples() {
  cp examples/stackloss.csv "$room" && cd "$room" || exit 1
  "$1" -c 'from quantreg_exact import fit; print(fit("stack.loss ~ .", "stackloss.csv", "1/2").coef_at("1/2")["Air.Flow"])' > fitted
  [ "$(cat fitted)" = 287/345 ] || wrong "the package of Python fits something else: $(cat fitted)"
  is_tabled "$(dirname "$1")/quantreg-table" < "$top/crates/quantreg/stdout"
  if "$1" -c 'import matplotlib' 2> nothing; then
    block "$top/companions/python/README.md" python > example.py
    block "$top/companions/python/README.md" text > wanted
    MPLBACKEND=Agg "$1" example.py > shown
    same wanted shown "the example of the package of Python"
    [ -s process.png ] || wrong "the example of the package of Python draws nothing"
  fi
}

r_examples() {
  # compare_rq is of R's own quantreg, which isn't asked for here; nor is its data set engel, which stands among the examples.
  block companions/r/README.md r | grep -v compare_rq | sed "s|^data(engel, .*|engel <- read.csv(\"$top/examples/engel.csv\")|" > "$room/example.R"
  block companions/r/README.md text | grep -v '^\[1\] "same"' > "$room/wanted"
  cd "$room" && Rscript example.R > shown || wrong "the example of the package of R stops"
  same wanted shown "the example of the package of R"
  [ -s process.png ] || wrong "the example of the package of R draws nothing"
}

case $1 in
  program) program_examples "$2" ;;
  python) python_examples "$2" ;;
  r) r_examples ;;
  *) wrong "which?" ;;
esac
