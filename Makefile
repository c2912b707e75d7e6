# make sheet   proves and builds the sheet program and prints the sheet of cases/a.casebook, or of another:
#              make sheet CASEBOOK=path
# make test    everything: `rt ci`, which proves from nothing, tries the must-fail edits and runs the programs (what a
#              run passed on this machine is not proved again), then all other tests
# make command builds the command for people as target/bin/yenuslap
# make prove   the quick form: proves what has changed since the last time
# make bench   times the engine beside the plain implementation of rust/reference and prints the ratios
# make outputs renews what the plain implementation writes: the files that the programs cases, ground_cases and sheet
#              are run with, and the casebooks and sheets of cases/
# make figures writes docs/FIGURES.md: lines counted now; times and ratios of the last `make test` and `make bench`

.PHONY: sheet test command prove bench outputs figures

CASEBOOK ?= cases/a.casebook

# `rt run` builds the sheet program and runs it on its file stdin.
sheet:
	@(cd crates/sheet && rt run) > /dev/null
	@install -D -m 755 crates/sheet/out/sheet target/bin/sheet
	@target/bin/sheet < $(CASEBOOK)

test:
	@tools/kept target/test.log tools/test

command:
	@(cd crates/engine && rt lib) >&2
	@install -D -m 644 crates/engine/out/libengine.a target/staticlib/libengine.a
	@cd rust && CARGO_TARGET_DIR=../target/rust cargo build --release --offline --quiet -p yenuslap
	@mkdir -p target/bin && cp target/rust/release/yenuslap target/bin/yenuslap

prove:
	rt all check

bench:
	(cd crates/engine && rt lib)
	install -D -m 644 crates/engine/out/libengine.a target/staticlib/libengine.a
	(cd crates/sheet && rt run) > /dev/null
	install -D -m 755 crates/sheet/out/sheet target/bin/sheet
	cd rust && CARGO_TARGET_DIR=../target/rust cargo build --release --offline -p reference --example plain_sheet
	cd rust && CARGO_TARGET_DIR=../target/rust cargo build --release --offline -p reference --example bench
	tools/kept target/bench.txt target/rust/release/examples/bench

outputs:
	cd rust && CARGO_TARGET_DIR=../target/rust cargo build --release --offline --quiet -p reference --bins
	target/rust/release/store_outputs .
	target/rust/release/ship_cases cases

figures:
	@tools/figures
