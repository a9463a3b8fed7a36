#!/usr/bin/env bash
# Installs packages in a bare Debian and runs their examples there: what a user without our toolchain does. It wants root, debootstrap and a
# mirror of Debian.
#
#   packages/clean_debian.sh DIR [OUT]      DIR is made, and may be deleted afterwards; OUT has the packages, packages/out if left out
cd "$(dirname "$0")/.." || exit 1
root=$1 out=${2:-packages/out}
[ -n "$root" ] && [ ! -e "$root" ] || { echo "clean_debian: name a folder that isn't there yet"; exit 2; }
for it in "$out"/quantreg_*_amd64.deb "$out"/quantreg_exact-*.whl "$out"/quantreg.exact_*.tar.gz; do
  [ -f "$it" ] || { echo "clean_debian: there is no $it: run make packages first"; exit 2; }
done

inside() { chroot "$root" env -i HOME=/root PATH=/usr/sbin:/usr/bin:/sbin:/bin LC_ALL=C.UTF-8 DEBIAN_FRONTEND=noninteractive "$@"; }
install_from_debian() { inside apt-get install -y --no-install-recommends "$@" > "$root/apt.log" 2>&1 || { cat "$root/apt.log"; exit 1; }; }
passed() { echo "clean_debian: $1: passed"; }

debootstrap --variant=minbase bookworm "$root" > "$root.log" 2>&1 || { cat "$root.log"; exit 1; }
mv "$root.log" "$root/debootstrap.log"
mount --bind /proc "$root/proc" || exit 1
trap 'umount "$root/proc"' EXIT
mkdir -p "$root/try/packages" "$root/try/companions/python" "$root/try/companions/r" "$root/try/crates/quantreg" "$root/packages"
cp packages/examples.sh "$root/try/packages" && cp -r examples "$root/try" && cp crates/quantreg/stdout "$root/try/crates/quantreg" || exit 1
for it in python r; do cp "companions/$it/README.md" "$root/try/companions/$it"; done
cp "$out"/quantreg* "$root/packages" || exit 1

inside apt-get update > "$root/apt.log" 2>&1
install_from_debian man-db bash-completion
inside sh -c 'command -v rt || command -v python3 || command -v R' && { echo "clean_debian: it isn't bare"; exit 1; }
install_from_debian $(cd "$root" && ls ./packages/quantreg_*_amd64.deb)
inside /try/packages/examples.sh program /usr || exit 1
inside bash -c 'source /usr/share/bash-completion/bash_completion; _completion_loader quantreg; complete -p quantreg' | grep -q _quantreg || exit 1
passed "the Debian package by apt, without Python"

install_from_debian python3-pandas python3-venv
inside /try/packages/examples.sh program /usr || exit 1
passed "the checker of the Debian package"
inside sh -c 'python3 -m venv --system-site-packages /env && /env/bin/pip install --no-index /packages/*.whl' > "$root/pip.log" 2>&1 || { cat "$root/pip.log"; exit 1; }
inside mv /usr/bin/quantreg /usr/bin/set-aside
inside /try/packages/examples.sh python /env/bin/python || exit 1
passed "the wheel by pip, with python3-pandas alone and no other program"
install_from_debian python3-matplotlib
inside /try/packages/examples.sh python /env/bin/python || exit 1
passed "its figures, with python3-matplotlib"

install_from_debian r-base-core
inside sh -c 'R CMD INSTALL /packages/quantreg.exact_*.tar.gz' > "$root/r.log" 2>&1 || { cat "$root/r.log"; exit 1; }
inside Rscript -e 'quantreg.exact::find_quantreg()' 2>&1 | grep -q "the Debian package quantreg brings it" || { echo "clean_debian: R says nothing of the package"; exit 1; }
inside mv /usr/bin/set-aside /usr/bin/quantreg
inside /try/packages/examples.sh r || exit 1
passed "the package of R by R CMD INSTALL, with the program of the Debian package"
inside apt-get remove -y quantreg > "$root/apt.log" 2>&1 && [ ! -e "$root/usr/share/quantreg" ] || { echo "clean_debian: something is left of the Debian package"; exit 1; }
passed "its removal"
