# The two commands of the README: `make` proves the library, builds it for C and runs what is made with it; `make test` passes the tests.
.PHONY: all test bench clean

all:
	bash tools/build
	bash examples/run
	target/bin/show < crates/show/stdin

test:
	bash tests/run

# The library beside C for the same jobs, as ratios. Not a test: it takes minutes and an idle machine.
bench:
	bash bench/run

clean:
	rm -rf target crates/*/out
