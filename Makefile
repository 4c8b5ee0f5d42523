# make run: proves the program depot and the crates below it (a line for each; the prover's notes go to target/log/prove), builds it and
#   runs it on examples/depot_m.txt. CASE=curve takes examples/curve.txt. The program lends lists of 512, so that a larger model, as
#   CASE=case9 with its 980 words, is answered with "refused 12 1": make model shows those too.
# make model: shows the model file of the same CASE as text, with its values at the start (host/examples/model.rs), of any size; needs cargo.
# make solve: solves the CASE with Ipopt and checks the point (examples/ipopt, docs/SOLVER.md); OPTIONS are Ipopt's, NAME=VALUE, and the
#   check's tolerances, tolerance.RESIDUAL=VALUE. make carrier: the same with 1e-4 for the objective and 1e-8 for both balances.
# make test: the gate. make listing: public contracts, the definitions that they cite and the theorems of docs/PROOF.md, one sorted text for diff.
# make fmt: lays out every Rattle and Rust file. make lint: says which are not laid out, and what shellcheck finds where it is there.
# make replay: the stored answers of the original Rust, held to the definitions (some minutes; not in the gate).
# make differential, files, platform, bench: the original Rust, or a reading of the papers, beside the port; SOURCE=FOLDER is the folder
#   that holds its crates/tellegen/src, and tests/oracle/README.md names what else they need. N: how many cases; SEED. make answers: writes
#   the answers of crates/oracle_answers anew.
.PHONY: run listing model solve carrier case archives test fmt lint replay differential files platform answers bench
# A case that is not there is said before anything is proved.
.NOTPARALLEL:
SOURCE =
N = 10000
SEED = 1998

# the tests that the gate runs after rt ci
TESTS = tests/gate-paths tests/limit tests/boundary/run tests/depot/run

CASE ?= depot_m
# the archives for C
ARCHIVES := $(shell grep -v '^\#' include/archives.txt)
LIBRARIES = $(ARCHIVES:%=target/staticlib/lib%.a)

run: case
	@tests/prove depot
	@cd crates/depot && rt run < ../../target/$(CASE).bin 2> ../../target/log/run || { tail -n 20 ../../target/log/run >&2; exit 1; }

model: case archives
	@cargo run --quiet --offline --locked --release --manifest-path host/Cargo.toml --target-dir target/host --example model \
		< target/$(CASE).bin

solve: case archives
	@cc -std=c11 -O2 -I include $$(pkg-config --cflags ipopt) examples/ipopt/solve.c $(LIBRARIES) $$(pkg-config --libs ipopt) -lm \
		-o target/solve
	@target/solve $(OPTIONS) < target/$(CASE).bin

carrier: override OPTIONS += constr_viol_tol=1e-9 tolerance.objective=1e-4 tolerance.active_balance=1e-8 tolerance.reactive_balance=1e-8
carrier: solve

case:
	@[ -f examples/$(CASE).txt ] || { echo "no examples/$(CASE).txt; CASE is one of:" $(basename $(notdir $(wildcard examples/*.txt))) >&2; exit 2; }
	@mkdir -p target
	@examples/pack examples/$(CASE).txt > target/$(CASE).bin

archives:
	@tests/boundary/archives

test:
	@tests/gate $(TESTS)

fmt:
	@tests/layout
	@cargo fmt --manifest-path host/Cargo.toml
	@cargo fmt --all --manifest-path tests/Cargo.toml

lint:
	@tests/lint

listing:
	@tests/listing

replay:
	@tests/oracle/replay

differential:
	@tests/differential/run "$(SOURCE)" $(N) $(SEED)

files:
	@tests/differential/run "$(SOURCE)" files $(N) $(SEED)

platform:
	@tests/differential/run "$(SOURCE)" platform $(N) $(SEED)

answers:
	@tests/differential/run "$(SOURCE)" store $(SEED)

bench:
	@tests/bench/run "$(SOURCE)"
