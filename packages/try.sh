#!/usr/bin/env bash
# Makes the packages of a program, installs them in folders of their own and runs their examples: what can be done without root and without
# a network. clean_debian.sh does the rest.
#
#   packages/try.sh PROGRAM
#
# What a missing tool leaves out is told by a line, and the status is 1 where something fails.
cd "$(dirname "$0")/.." || exit 1
room=$(mktemp -d) || exit 1
trap 'rm -rf "$room"' EXIT
# a copy, which stays as it is while this runs
program=$room/program/quantreg
mkdir "$room/program" && cp "$1" "$program" || exit 1
export PYTHONDONTWRITEBYTECODE=1
unset QUANTREG PYTHONPATH
failed=0

skip() { echo "packages: skipped: $1, since $2 was not found"; }

# part NAME WORD..: runs the words, and prints what they print where they fail
part() {
  local name=$1 started=$SECONDS
  shift
  if "$@" > "$room/said" 2>&1; then
    echo "packages: $name: passed in $((SECONDS - started)) s"
  else
    cat "$room/said"
    echo "packages: $name: FAILED"
    failed=1
  fi
}

# refused LINE WORD..: the words end with status 1 and a line that begins so
refused() {
  local line=$1
  shift
  "$@" 2> "$room/line" && { echo "not refused: $line"; return 1; }
  [[ $(cat "$room/line") == "packages: $line"* ]] || { echo "another line: $(cat "$room/line")"; return 1; }
}

# Only the program that the gate has noted is packed, by a build of one of the makers, which all begin so. The gate's own script notes it, in a
# folder that stands in for the repository.
refusals() {
  local gate=$room/tree/crates/quantreg/out
  local build=("$python" packages/build.py rpackage --out "$room/refused" --program "$gate/quantreg")
  mkdir -p "$gate" "$room/tree/.ci" && cp .ci/passed "$room/tree/.ci" || return
  refused "there is no program at" "${build[@]}" || return
  cp "$program" "$gate/quantreg" || return
  refused "the gate hasn't passed this program" "${build[@]}" || return
  "$room/tree/.ci/passed" && grep -q "^program $(sha256sum < "$program" | cut -d " " -f 1)$" "$gate/passed" || return
  "${build[@]}" && tar -xOzf "$room"/refused/quantreg.exact_*.tar.gz quantreg.exact/inst/provenance | grep -v '^files ' | diff "$gate/passed" - || return
  printf 'x' >> "$gate/quantreg"
  refused "$gate/quantreg isn't the program that the gate has passed" "${build[@]}" || return
  sed -i '/^gate /d' "$gate/passed"
  refused "$gate/passed is no note of the gate" "${build[@]}"
}

# From another folder, by another path and at another time the packages have the same bytes.
made_twice() {
  local what=$1
  "$python" packages/build.py "$what" --unproved --program "$program" --out "$room/one" || return
  mkdir -p "$room/other/folder" && cp "$program" "$room/other/renamed" || return
  (cd / && umask 077 && TZ=Asia/Tokyo "$python" "$OLDPWD/packages/build.py" "$what" --unproved --program "$room/other/renamed" --out "$room/other/folder") || return
  diff -r "$room/one" "$room/other/folder"
}

deb_example() {
  dpkg-deb -x "$room"/one/quantreg_*_amd64.deb "$room/deb" && packages/examples.sh program "$room/deb/usr"
}

wheel_example() {
  "$pandas" -m venv --system-site-packages "$room/env" || return
  "$room/env/bin/python" -m pip install --quiet --no-index --no-deps --disable-pip-version-check "$room"/one/quantreg_exact-*.whl || return
  "$room/env/bin/quantreg" check < /dev/null 2> "$room/line"
  grep -q '^quantreg: certificate: NotJson' "$room/line" || { echo "the command of the wheel says $(cat "$room/line")"; return 1; }
  packages/examples.sh python "$room/env/bin/python"
}

# Without a program the package says which one brings it, and with the Debian package on the path it runs.
r_example() {
  mkdir "$room/library" && R CMD INSTALL --library="$room/library" "$room"/one/quantreg.exact_*.tar.gz || return
  export R_LIBS="$room/library"
  Rscript -e 'quantreg.exact::find_quantreg(tempfile("none"))' 2>&1 | grep -q "the Debian package quantreg brings it" || { echo "R says nothing of the package"; return 1; }
  mkdir "$room/bin" && ln -s "$program" "$room/bin/quantreg" && PATH="$room/bin:$PATH" packages/examples.sh r
}

python_without_a_program() {
  "$pandas" -c 'import sys; sys.path.insert(0, "companions/python"); from quantreg_exact import find_program; find_program("/nowhere/quantreg")' 2>&1 |
    grep -q "the Debian package quantreg brings it, and so does the wheel"
}

# The first python3 that has these modules.
python_with() {
  local it
  for it in python3 /usr/bin/python3; do
    "$it" -c "import $1" 2> /dev/null && { command -v "$it"; return; }
  done
}

python=$(python_with tomllib)
[ -n "$python" ] || { skip "all packages" "a python3 from 3.11 on"; exit 0; }
part "programs that are refused" refusals
part "the package of R, made twice" made_twice rpackage
part "the wheel, made twice" made_twice wheel
if command -v dpkg-deb > /dev/null; then
  part "the Debian package, made twice" made_twice deb
  part "the Debian package in a folder" deb_example
else
  skip "the Debian package" "dpkg-deb"
fi
pandas=$(python_with pandas,venv,ensurepip)
if [ -n "$pandas" ]; then
  part "the wheel in an environment" wheel_example
  part "a package of Python without a program" python_without_a_program
else
  skip "the wheel in an environment" "a python3 with pandas and venv"
fi
if command -v Rscript > /dev/null; then part "the package of R in a library" r_example; else skip "the package of R in a library" "Rscript"; fi
exit "$failed"
