# make run: prove, build and run the program on its example; make test: the gate.
.PHONY: run test

run:
	cd crates/labelplan && rt run </dev/null
	crates/labelplan/out/labelplan examples/approach.plan

test:
	.ci/run
