.PHONY: run test bench controller
# Builds `holds` and prints hold lists: of the example wall, and of the wall with chalk smears, without and with filling.
# What the build says goes to standard error.
run:
	@tools/build holds
	target/bin/holds < examples/wall.pgm
	target/bin/holds < examples/chalk.pgm
	target/bin/holds 5 < examples/chalk.pgm
# The whole gate: proofs, must-fail edits, programs, tests.
test:
	bash .ci/run
# Measurements against peers in C; not a part of the gate.
bench:
	bash bench/run
# The calls for firmware on an emulated Cortex-M0+, against x86-64; not a part of the gate.
controller:
	bash controller/run
