# Short commands for daily work. `make` lists them.
SHELL := /bin/bash
PREFIX ?= /usr/local
LIB ?= out/lib

help:	## lists the commands
	@sed -n 's/^\([a-z-]*\):.*## /\1	/p' $(MAKEFILE_LIST) | expand -t 12

try:	## replays a script by mcstep, without proofs
	cd crates/mcstep && rt try < stdin

quick:	## the checks that take a second each
	.ci/shelves && .ci/readme && .ci/definitions && .ci/versions && .ci/plays && .ci/edits && .ci/calls && .ci/prototypes

calls:	## writes what each language declares of the table c/calls.txt
	.ci/calls --write

gate:	## all proofs and tests, in a clean clone of what is committed
	rm -rf out/gate && git clone --quiet . out/gate && cd out/gate && .ci/run

lib:	## builds the library with its proofs into LIB (out/lib)
	c/build $(LIB)

test-c:	## tests C and C++ over LIB
	.ci/door-c $(LIB) && .ci/door-cxx $(LIB)

test-rust:	## tests the crates cefrodil and cefrodil-map over LIB
	.ci/door-rust $(LIB)

test-server:	## tests the server over LIB
	.ci/server $(LIB)

models:	## tries the models of what threads share
	.ci/models

mutants:	## tries wrong bodies that the gate leaves out; CRATES="NAME .." of these crates
	.ci/mutants $(CRATES)

bench:	## measures, and writes the tables of PERFORMANCE and README, on an idle machine
	bench/report

install:	## unpacks the release into PREFIX (/usr/local)
	c/unpack $(DESTDIR)$(PREFIX)

.PHONY: help try quick calls gate lib test-c test-rust test-server models mutants bench install
