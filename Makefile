# The commands of README.md.
.PHONY: test inspect

# The gate: every proof, every must-fail edit, every program and test.
test:
	bash .ci/run

# An account of the sample of frames, as heard in a van of eight heads.
inspect:
	@mkdir -p crates/inspect/out
	@cd crates/inspect && rt run -- 8 <stdin >out/inspect.log 2>&1 || { cat out/inspect.log; exit 1; }
	@cd crates/inspect && ./out/inspect 8 <stdin
