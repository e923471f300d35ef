# `make try` shows the program before any proof, `make demo` builds it and shows it; `make test` is what CI does first.
# TABLE=FILE keeps what it cost, PROOFS=FILE what each proof took. `make more-edits` tries the edits that `make test` leaves out, all or
# (`make more-edits CRATES="wire disk"`) those of some crates, over the libraries of the last `make test` or of rt lib, and writes .ci/edits_tried.tsv.
# MINUTES=30 begins none after half an hour.
PROGRAM = crates/timestore/out/timestore
BENCH = crates/bench/out/bench
# The most processor minutes that `make test` may take, on the reference machine of .ci/ci_cost.py. A machine that takes longer for the crates that
# tell its speed is given as much longer.
BUDGET = 200

.PHONY: demo test more-edits build try examples pages bench trials torture torture-short soak hostile try-refused planted rates lib install library-test library-bench rados-test rados-bench

test:
	@command -v rt >/dev/null || { echo "the Rattle kit's command rt is not on PATH" >&2; exit 1; }
	@for it in crates/*/out/rlib; do [ -e "$$it/stamp" ] || rm -rf "$$it"; done # rt ci would put back what an earlier one left
	.ci/ci_cost.py --limit $(BUDGET) $(if $(TABLE),--table $(TABLE)) $(if $(PROOFS),--proofs $(PROOFS)) .ci/rt_once.py ci
	$(MAKE) torture-short

more-edits:
	.ci/more_edits.py --write $(if $(MINUTES),--minutes $(MINUTES)) $(CRATES)

build:
	@command -v rt >/dev/null || { echo "the Rattle kit's command rt is not on PATH" >&2; exit 1; }
	cd crates/timestore && ../../.ci/rt_once.py run < stdin > /dev/null

try:
	@command -v rt >/dev/null || { echo "the Rattle kit's command rt is not on PATH" >&2; exit 1; }
	@echo "The example script on a store in memory. Nothing is proved here: make demo proves it first."
	cd crates/timestore && ../../.ci/rt_once.py try < stdin

demo: build
	@dir=$$(mktemp -d) && set -x && \
	$(PROGRAM) format $$dir && \
	$(PROGRAM) run $$dir < crates/timestore/stdin && \
	$(PROGRAM) at $$dir 1 7 100 && \
	{ $(PROGRAM) at $$dir 1 7 101 || true; } && \
	$(PROGRAM) between $$dir 1 7 0 101 && \
	rm -r $$dir

# The program as its users meet it: its words, fed line by line, two at once, and its calls of the system.
trials: build
	tests/command_line.py $(PROGRAM)
	tests/answers_at_once.py $(PROGRAM)
	tests/two_processes.py $(PROGRAM)
	tests/system_calls.py $(PROGRAM)

# docs/TORTURE.md. Random scripts, stops at each device call, kills, full disks, forged files and refused calls, compared with a small machine
# and a plain reader. `make torture MINUTES=10 SEED=1`
torture: build
	torture/torture.py $(PROGRAM) --minutes $(or $(MINUTES),10) --seed $(or $(SEED),1)

# A part of all of it, in a minute and a half, of the program as it was built: it fails where that is not there.
torture-short:
	@[ -x $(PROGRAM) ] || { echo "not tested: there is no program $(PROGRAM); make build makes it" >&2; exit 1; }
	torture/refusals.py $(PROGRAM) --seconds 25
	torture/forged.py $(PROGRAM) --seconds 20
	torture/between.py $(PROGRAM) --seconds 20
	torture/torture.py $(PROGRAM) --minutes 0.4

# Many threads over one store for some minutes, and then all that they were told compared with a small machine. FOLDER=DIR makes the store there.
soak: build
	cd crates/bench && ../../.ci/rt_once.py run > /dev/null
	torture/soak.py $(BENCH) $(PROGRAM) --minutes $(or $(MINUTES),10) --seed $(or $(SEED),1) $(if $(FOLDER),--folder $(FOLDER))

# Each call of the system refused in turn; each check of opening broken, and pairs of them; each byte of a small store; a job with commits
# between stopped at each device call, and again; kills, full disks, folders without rights.
hostile: build
	torture/refusals.py $(PROGRAM)
	torture/forged.py $(PROGRAM)
	torture/between.py $(PROGRAM)
	torture/files.py $(PROGRAM)

# The kit refuses the Nth growth of the example script on the store in memory (docs/TORTURE.md); a newer kit takes N=1.. for each one, and
# HOW=--fail-io or HOW=--short-io for its input and output.
try-refused:
	cd crates/timestore && ../../.ci/rt_once.py try $(or $(HOW),--fail-alloc) $(or $(N),1) < stdin

# Faults planted one at a time in a copy of the sources, and the test that finds each.
planted:
	torture/planted.py $(NAMES)

# Lines a second; and, where valgrind is there, instructions a line, which do not depend on what else the machine does, and the growths of views.
rates: build
	bench/rates.py $(PROGRAM) $(if $(FOLDER),--folder $(FOLDER))
	if command -v valgrind >/dev/null; then bench/rates.py $(PROGRAM) --instructions && tests/growths.py $(PROGRAM); fi

# Every example of the documents, its answers compared; the small store of docs/FORMAT.md byte by byte; and that the man page and the completions
# are what the program's help gives.
examples: build pages
	tests/using_test.py $(PROGRAM) README.md docs/TUTORIAL.md docs/USING.md
	tests/format_test.py $(PROGRAM) docs/FORMAT.md
	library/man/from_help.py $(PROGRAM)

# What needs no program: that each example of a page crates/NAME/CALLING.md is a test; that pages, and lines of code and proofs, are no longer
# than they may be; that the table of docs/WRONG_BODIES.md has the edits that there are, and each edit fits the code.
pages:
	tests/pages_test.py
	docs/wrong_bodies.py > /dev/null

# All that is measured, in one command, for a machine at rest. FOLDER=DIR measures the disk of DIR.
bench: build
	cd crates/bench && ../../.ci/rt_once.py run > /dev/null
	bench/store_bench.py $(BENCH) --program $(PROGRAM) $(if $(FOLDER),--folder $(FOLDER))
	bench/shared_bench.py $(BENCH) $(if $(FOLDER),--folder $(FOLDER))
	bench/program_bench.py $(PROGRAM) $(FOLDER)
	bench/rates.py $(PROGRAM) $(if $(FOLDER),--folder $(FOLDER))
	bench/status_growth.py $(PROGRAM) $(if $(FOLDER),--folder $(FOLDER))
	bench/copies.py $(PROGRAM)

# The store in the process of its user, docs/LIBRARY.md: `make lib` proves and builds it, the others take it as it was built.
lib:
	$(MAKE) -C library core
	$(MAKE) -C library

install:
	$(MAKE) -C library install $(if $(PREFIX),PREFIX=$(PREFIX))

library-test:
	$(MAKE) -C library test test-applications

# FOLDER="DIR DIR" measures the file systems of these.
library-bench:
	$(MAKE) -C library bench $(if $(FOLDER),FOLDER="$(FOLDER)")

# The host for a Ceph pool, library/hosts/rados/README.md: on a cluster of three object stores, which is started on loopback and ended.
rados-test:
	$(MAKE) -C library/hosts/rados test

rados-bench:
	$(MAKE) -C library/hosts/rados bench
