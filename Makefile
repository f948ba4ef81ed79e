# `make run` replays the first example, unproved; `make build` makes the proved program; `make test` is the gate.

.PHONY: run build test examples

# Builds without a proof and replays examples/first.script.
run:
	@.ci/try examples/first.script

# Proves what both programs need, crates side by side, and builds them, as crates/NAME/out/NAME of firecracker and snapshot_editor.
build:
	@.ci/build

# Every proof, every edit that must fail, every test, and each program's stored run; and the rules of what they may cost.
test:
	@.ci/run
	@.ci/rules

# Every script whose output is stored, with the proved program over real files, and each way to fail; and a snapshot at each
# event of a disk's requests.
examples: build
	@examples/check && examples/disk/sweep
