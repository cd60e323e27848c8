# A day file's run, the gate, and the tools that hold the program against another one.
.PHONY: run test format tools daybook soak bench

# Prove, build and run the program on the example day file.
run:
	cd crates/daybook && rt run < stdin

# The merge gate: the reference's own tests and the expected output of the vectors, then every proof, every must-fail edit, every
# program and every test.
test:
	tools/test-reference
	tools/check-vectors
	tools/gate

format:
	for crate in crates/*/; do (cd $$crate && rt fmt) || exit 1; done

# The reference, the generator of day files and the driver, in target/tools.
tools:
	tools/build target/tools

# The proved program, in crates/daybook/out.
daybook:
	cd crates/daybook && rt run < /dev/null > /dev/null

# Play DAYS random days, from the seed SEED on, through the proved program and the reference; stop at the first difference.
DAYS ?= 1000
SEED ?= 1
soak: tools daybook
	target/tools/soak crates/daybook/out/daybook target/tools/reference $(SEED) $(DAYS)

# The cost of a call, in instructions and in time, against the reference.
bench: tools daybook
	tools/bench/run crates/daybook/out/daybook target/tools/reference
