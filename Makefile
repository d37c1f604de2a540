# make test      the gate: layout, proofs, must-fail edits, stored runs, comparisons; its last line is 'N passed, M failed'
# make run       proves and builds the programs, and shows them on two machines; last, which weight each label carried
# make compare   compares any number of cases with the second program: make compare CASES=100000 SEED=7
# make bench     compares speed with C and writes docs/SPEED.md (needs valgrind; clang where there is one)

CASES = 20000
SEED = 1
COMPARE = target/compare
BUILD_COMPARE = tools/build board && rustc --edition 2021 -O -D warnings --cfg board -L target/staticlib -l static=board -o $(COMPARE) second/src/main.rs
PROGRAMS = --list target/bin/list --step target/bin/step

define CHECKS
tests/proved
tests/rules-table
tests/header
machines/make.py --check
tools/build list step
tests/programs.py
$(BUILD_COMPARE)
tests/stack
$(COMPARE) self --cases 1000 --seed 1
$(COMPARE) power --seed 1
$(COMPARE) programs $(PROGRAMS) --cases 500 --seed 1
$(COMPARE) board --cases 3000 --seed 1
make --no-print-directory -C examples check
endef
export CHECKS

.PHONY: test run compare bench

test:
	@printf '%s\n' "$$CHECKS" | tests/gate

run:
	@examples/show

compare:
	tools/build list step
	$(BUILD_COMPARE)
	$(COMPARE) programs $(PROGRAMS) --cases $(CASES) --seed $(SEED)
	$(COMPARE) board --cases $(CASES) --seed $(SEED)

bench:
	tools/build bench
	bench/run
