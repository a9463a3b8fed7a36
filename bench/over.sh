#!/bin/sh
# Builds a benchmark's program, as it is built for use, over the libraries that a gate left in crates/*/out/rlib: nothing below the
# program is proved again, only its own few functions are. A benchmark is no part of what is proved and handed in.
#
# usage: over.sh FOLDER CRATE..    FOLDER/src/main.rt is the program, FOLDER/proofs what it has of proofs, and FOLDER/program what is
# made. The crates are those that it names, of this repository or of the kit.
# The environment may name another folder of crates by LIBRARIES, say that of another checkout.
set -eu
here=$(cd "$(dirname "$0")" && pwd)
libraries=$(cd "${LIBRARIES:-$here/../crates}" && pwd)
kit=$(dirname "$(rt doc)")
folder=$1
shift

fail() {
    echo "over.sh: $1" >&2
    exit 1
}

# The crates of the repository below those that are named, themselves included.
below=$(for crate in "$@"; do "$here/below.sh" "$crate"; done | sort -u)
named=$(printf '%s\n' "$@")
set --
for crate in $below; do
    built=$libraries/$crate/out/rlib/$crate.rlib
    [ -f "$built/format" ] || fail "$crate has no library in $libraries: rt ci leaves one where it proves the crate, and none where an earlier proof is kept"
    changed=$(find "$libraries/$crate" -name out -prune -o -name '*.rt' -newermc "$built" -print -quit -o -name '*.antt' -newermc "$built" -print -quit)
    [ -z "$changed" ] || echo "over.sh: $changed is newer than the library of $crate, which is of an older source unless rt ci has passed since" >&2
    set -- "$@" -L "dependency=$libraries/$crate/out/rlib"
done
for crate in $named; do
    if [ -d "$here/../crates/$crate" ]; then
        set -- "$@" --extern "$crate=$libraries/$crate/out/rlib/$crate.rlib"
    else
        set -- "$@" --extern "$crate=$kit/rlibs/$crate.rlib"
    fi
done

cd "$folder"
{
    "$kit/bin/rattle" build --crate-name program src/main.rt --extern "std=$kit/rlibs/std.rlib" "$@" -L "dependency=$kit/rlibs" \
        --antt-project "$kit/rattle/logic/antt-project.json" --logic-built "$kit/logic_built" --incremental incremental --jobs 1 \
        --links program= --toolchain "$kit/toolchain" -o program.o &&
        "$kit/bin/rattle-link" --target x86_64-unknown-linux-gnu --toolchain "$kit/toolchain" -o program program.o \
            "$kit/c/libos_c.a" "$kit/c/liblibc_c.a"
} >log 2>&1 || {
    cat log >&2
    fail "the program was not built"
}
