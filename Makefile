program = crates/fulmarlead/out/fulmarlead

# Proves and builds the program, and runs it on plant K.
run:
	@cd crates/fulmarlead && rt run < ../../samples/plant_k.words

# Runs the program that grows a map and solves, on plant K and four readings.
map:
	@cd crates/map_program && rt run < stdin

# The gate.
test:
	.ci/run

# Runs the program on every sample and compares the line that it prints.
samples: run
	@for f in samples/*.words; do $(program) < $$f | diff - $${f%.words}.out && echo "$$f as told"; done

# Times the exchange beside the same loop in C.
bench:
	bench/run

.PHONY: run map test samples bench
