# demo: the main job on a table in about three minutes, with nothing proved; try is the same
# program: proves and builds the program, in about an hour, and runs it on the table
# check: the gate, as .ci/run runs it
# wrong: tries the wrong bodies that rest beside the crates, or those of CRATES, over the libraries that a gate has left
# install: puts the proved program, its man page and its completion of bash below PREFIX
# packages: those of Debian, Python and R, of the program that the gate has passed, in packages/out; deb, wheel, rpackage: one of them
#
# demo and program take TABLE=FILE.csv and FORMULA="y ~ x", and fit the median. program and check tell after each crate how many are done.

PREFIX ?= /usr/local
TABLE ?= examples/stackloss.csv
FORMULA ?= stack.loss ~ .
PROGRAM = crates/quantreg/out/quantreg
JOB = process --formula "$$FORMULA" --lo 1/2 --hi 1/2
export TABLE FORMULA

.PHONY: demo try program check wrong install deb wheel rpackage packages toolchain

demo: toolchain
	@echo "unproved: this run shows the job in about three minutes, and proves nothing"
	@(cd crates/quantreg && rt try -- $(JOB)) < "$$TABLE"
	@echo "the proved program: make program, in about an hour; its manual: docs/MANUAL.md, or man docs/quantreg.1"

try: demo

program: toolchain
	@echo "this proves the program crate by crate, for about an hour the first time"
	@.ci/progress program
	@(cd crates/quantreg && rt run -- $(JOB)) < "$$TABLE"
	@echo "the proved program is $(CURDIR)/$(PROGRAM); its manual: docs/MANUAL.md, or man docs/quantreg.1"

check: toolchain
	@.ci/progress check

wrong: toolchain
	.ci/wrong --try $(CRATES)

install: program
	install -D -m 755 $(PROGRAM) $(DESTDIR)$(PREFIX)/bin/quantreg
	install -D -m 644 docs/quantreg.1 $(DESTDIR)$(PREFIX)/share/man/man1/quantreg.1
	install -D -m 644 companions/bash/quantreg $(DESTDIR)$(PREFIX)/share/bash-completion/completions/quantreg

deb wheel rpackage packages:
	@packages/build.py $@

toolchain:
	@command -v rt > /dev/null || { echo "quantreg needs the Rattle toolchain: no command rt was found"; exit 1; }
