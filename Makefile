# The commands that people expect. `make help` lists them.
# The scripts read these variables from the environment, as they were typed: neither make nor a shell ever reads their text.
RECORD ?= 1 7 3 6 4
N ?= 6
K ?= 5
override RECORD := $(value RECORD)
override N := $(value N)
override K := $(value K)
override LIBRARY := $(value LIBRARY)
override PREFIX := $(value PREFIX)
override LIBDIR := $(value LIBDIR)
override DESTDIR := $(value DESTDIR)
export RECORD N K LIBRARY PREFIX LIBDIR DESTDIR
# started by make, too, the programs' output is all that stands on standard output
MAKEFLAGS += --no-print-directory

.PHONY: help build test wrong sheet plain compare weights record plans programs library install demo explore bench docs

help: ## this list
	@awk -F ':.*## ' '/^[a-z]+:.*## / { printf "make %-8s %s\n", $$1, $$2 }' Makefile

sheet: ## the plan sheet of a record: make sheet RECORD='1 7 3 6 4'
	@tools/run_program.py sheet

plain: ## the plain layout of the same code, a line for each node: make plain RECORD='1 7 3 6 4'
	@tools/run_program.py plain

compare: ## the costs of the plain layout and of ours: make compare RECORD='2 2 255 120'
	@tools/run_program.py compare

weights: ## a record's messages by their nodes that are not zero: make weights RECORD='1 7 3 6 3'
	@tools/run_program.py weights

record: ## a record for n nodes of which k are needed that carries bytes, and what it costs: make record N=6 K=5
	@tools/run_program.py record

plans: ## every accepted record of kind 1 with p up to 31, a line `p α n k` for each
	@tools/prove.py small_plans
	@crates/small_plans/out/small_plans

programs: ## prove and compile all programs that the documents use, `cases` among them: crates/NAME/out/NAME
	@tools/prove.py sheet plain compare weights record small_plans cases

library: ## prove the calls and make the library, static and shared, for every x86-64 and for newer processors, in target/lib
	@tools/build_library.sh

build: ## the same, and build the Rust crate over it
	@bindings/rust/build.sh --release

install: ## the library with header, pkg-config file and manual page, for the users of this machine: make install PREFIX=/usr/local DESTDIR=
	@tools/install.sh

test: ## the gate: everything proved, wrong programs refused, outputs compared, C, Rust and Python, documents
	.ci/run

wrong: ## further wrong programs, each of which must be refused
	tests/wrong_programs.sh

demo: library ## the image store at work: 15 nodes, 5 MB, five nodes lost and a sixth wrong, rebuilt, updated, checked
	@examples/demo.sh

explore: ## the learners' page in a browser, or its path where there is none
	@docs/explore/open.sh

bench: ## our times beside those of other libraries, in one run, as ratios, threads in Python, and the store beside zfec and par2; beside another build, too: make bench LIBRARY=path/to/libbalanced.a
	bench/run.sh
	bench/python.py
	bench/store.py

docs: programs library ## draw the pictures anew and check what the documents show and cite
	docs/make_pictures.py
	tests/check_claims.py
	tests/documents.py
