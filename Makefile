# make quick:     builds ./globs without a proof, in about a minute
# make test:      runs all tests that need no proof, in minutes; with ONLY='NAME..', only those that cover these crates
# make globs:     proves `globs` and each library that it uses, and builds ./globs
# make prove:     proves everything, tests what was proved, and tries the wrong bodies
# make explain:   proves and builds ./globs_explain, which explains an expression
# make library:   builds the C library and the extension of the Python module in target/library; `make globs` or `make prove` has to
#                 run before
# make bench:     measures matches beside grep and rg, and walks beside find and fd (bench/README.md)
# make install:   installs what was built, with its manual pages and completions, below PREFIX (packaging/README.md)
# make uninstall: removes it
# make dist:      packs what was built, with the C library, for users who don't have the kit (packaging/README.md)
# docs/GATE.md says how long they take.

.PHONY: quick test globs prove explain library bench install uninstall dist

quick:
	./quick globs
	BUILT=target/unproved tests/rows globs
	cp target/unproved/globs globs

test:
	tests/run $(ONLY)

globs:
	./prove globs
	cp crates/globs/out/globs globs

prove:
	./prove wax_token
	rt ci
	tests/run --proved
	tests/repository
	tests/targets
	tests/wrong-bodies

explain:
	./prove globs_explain
	cp crates/globs_explain/out/globs_explain globs_explain

library:
	./library

bench: globs explain library
	cd crates/wax_vectors && rt run </dev/null
	bench/table
	bench/run
	bench/families
	bench/lists
	bench/compare
	bench/python
	bench/rust
	bench/folders
	bench/walk
	bench/filters
	bench/hostile
	bench/sets
	bench/shards

install:
	packaging/install

uninstall:
	packaging/install --remove

dist:
	packaging/dist
