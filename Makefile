.PHONY: demo program test

# The worked listing, by the program unproved: about a minute.
demo:
	@bash demo.sh

# The proved program at out/vxcat.
program:
	@bench/program

# The gate: every proof, must-fail edit, test and program.
test:
	rt ci
