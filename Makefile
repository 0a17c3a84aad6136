# `make run` proves, builds and runs the tape program on the example in the repository; `make sets` does so with the program that tells
# the uncertainty set of each reading; `make test` is the gate.
.PHONY: run sets test

run:
	cd crates/tape && rt run < stdin

sets:
	cd crates/sets && rt run < stdin

test:
	bash .ci/run
