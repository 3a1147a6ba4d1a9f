# make run: proves and builds the program, shows that the examples are canonical and compiled, and compiles one. make test: the gate.
EXAMPLE := examples/two-by-two

.PHONY: run canonical checked test clean

run: canonical checked
	./bddl compile $(EXAMPLE)/domain.bddl $(EXAMPLE)/problem.bddl

canonical: bddl
	for game in examples/*; do \
	  ./bddl fmt-domain $$game/domain.bddl | cmp - $$game/domain.bddl || exit 1; \
	  ./bddl fmt-problem $$game/problem.bddl | cmp - $$game/problem.bddl || exit 1; \
	done

checked: bddl
	for game in examples/*; do \
	  ./bddl compile $$game/domain.bddl $$game/problem.bddl > /dev/null || exit 1; \
	done

bddl: crates.txt $(wildcard crates/*/src/*.rt crates/*/src/*/*.rt crates/*/specs/*.antt)
	cd crates && rt all check --jobs $(shell nproc)
	cd crates/bddl_cli && rt run -- compile ../../$(EXAMPLE)/domain.bddl ../../$(EXAMPLE)/problem.bddl
	cp crates/bddl_cli/out/bddl_cli $@

test:
	.ci/run

clean:
	rm -rf bddl crates/*/out
