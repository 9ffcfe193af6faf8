# make run: prove, build and run the program on its sample input.
# make test: the gate. Its last line is 'N passed, 0 failed'.
# make bench: what a line through a window costs, beside plain Rust; docs/performance.md has the figures.
# make examples: build the static library, and the programs in C and Rust that use it, and run them. It wants cc and cargo.
# make cases SEED=.. COUNT=..: so many random cases of this seed, with the model's answers, in out/cases, and what occurs in them; then
# they are played on the proved library.
# make fuzz MINUTES=..: cases of fresh seeds, for so long, or without MINUTES until it is stopped.
.PHONY: run test bench examples cases fuzz conformance

SEED = 1
COUNT = 1000
MINUTES =

run:
	cd crates/invoice && rt run < stdin

test:
	scripts/model_answers.sh
	.ci/run

bench:
	@command -v cargo > /dev/null || { echo "make bench wants cargo, which https://rustup.rs installs" >&2; exit 1; }
	cd crates/bench_calls && rt lib
	cd bench && cargo run --release -- ../docs/performance.svg

examples:
	scripts/examples.sh

# both programs that play cases
conformance:
	scripts/build_model.sh
	cd crates/conformance && rt run < stdin > /dev/null

cases: conformance
	scripts/conformance.py cases $(SEED) $(COUNT)

fuzz: conformance
	scripts/conformance.py fuzz $(MINUTES)
