# All want the Rattle toolchain's command `rt` on the path.

# A first look: the example of images, by a program that is built without being proved. OUT=FOLDER keeps what it makes.
look:
	@echo "look: groups 54 images. The program is built without proofs, which takes about a minute on an idle machine."
	@DENSEWH=$(CURDIR)/tools/unproved.sh examples/images/run.sh $(OUT)
	@echo "look: not proved yet. make demo proves the program and builds it, with about an hour of processor time."

# Proves and builds the program, and runs it on two examples: one clustering, and a store of a day's batches
# in a folder of its own.
demo:
	@tools/demo.sh
	cd crates/densewh && rt run -- once l1 1 1 2 < ../../examples/three.csv
	cd "$$(mktemp -d)" && $(CURDIR)/crates/densewh/out/densewh init l1 1 1 3 100 && $(CURDIR)/crates/densewh/out/densewh serve < $(CURDIR)/examples/rooms_day.session

# Proves everything, tries the edits that must fail, and runs all tests and programs.
test:
	bash .ci/run

.PHONY: look demo test
