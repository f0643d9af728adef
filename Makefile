# make run      builds and runs the program `bench` on its sample input
# make test     the gate: quick checks, then everything proved; ends in 'N passed, 0 failed'
# make planted  tries every planted bug: the prover must refuse each
# make reference  builds the independent implementation (target/reference)
# make compare N=1000 SEED=1  plays N random sessions and misread lines on both, and compares what they print
# make embed    builds a C program over the static library, and compares it with bench
# make speed    counts the instructions per tick and per byte of both

RUSTC := $(shell command -v rustc 2>/dev/null || ls $(HOME)/.cargo/bin/rustc 2>/dev/null)

.PHONY: run test quick planted reference tools compare speed embed

test: quick
	@scripts/proved

quick: tools reference
	@scripts/stands-alone
	@scripts/reference-agrees
	@scripts/must-not-compile

run: tools
	@(cd crates/bench && rt run <stdin) >target/run.log 2>&1 || { cat target/run.log; exit 1; }
	@crates/bench/out/bench <crates/bench/stdin

planted: tools
	@scripts/planted

compare: tools reference
	@for name in bench messages sessions speed; do \
	    (cd crates/$$name && rt run <stdin) >target/run.log 2>&1 || { tail -n 5 target/run.log; exit 1; }; \
	done
	@scripts/compare $(N) $(SEED)

embed: tools
	@mkdir -p target
	@(cd crates/embed && rt lib) >target/lib.log 2>&1 || { tail -n 5 target/lib.log; exit 1; }
	@(cd crates/bench && rt run <stdin) >target/run.log 2>&1 || { tail -n 5 target/run.log; exit 1; }
	@scripts/embed

speed: tools reference
	@(cd crates/speed && rt run <stdin) >target/run.log 2>&1 || { tail -n 5 target/run.log; exit 1; }
	@scripts/speed

reference: target/reference

target/reference: $(wildcard reference/*.rs)
	@mkdir -p target
	@$(RUSTC) --edition 2021 -O -o $@ reference/main.rs

tools:
	@command -v rt >/dev/null || { echo "make: the Rattle kit (rt) is not on the PATH"; exit 1; }
	@test -n "$(RUSTC)" || { echo "make: rustc is neither on the PATH nor in ~/.cargo/bin"; exit 1; }
	@mkdir -p target
