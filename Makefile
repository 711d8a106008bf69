.PHONY: help run test programs lib curves compare damage exhaustive root power list bench

# This list.
help:
	@awk '/^# / { what = substr($$0, 3) } /^[a-z]+:/ { printf "make %-12s%s\n", substr($$1, 1, length($$1) - 1), what }' Makefile

# The auditor's question, on an example.
run:
	@bash scripts/run

# Prove and test everything, from nothing.
test:
	@bash scripts/test

# The programs that bin/ runs: audit, makelog, plot.
programs:
	@bash scripts/programs

# The C interface as an archive, for this machine or for TARGET=..
lib:
	@bash scripts/lib $(TARGET)

# The plots of the manual, from the library's answers.
curves: lib
	@bash scripts/curves

# Random inputs against the Rust, some minutes.
compare: lib
	@compare/run random

# Damaged logs through audit, held against a reader of their own, some minutes.
damage: lib programs
	@compare/run audit

# Every f32 from 0 to 1 for each easing, against the Rust. It goes on where it was stopped.
exhaustive: lib
	@compare/run exhaustive

# The square root at every f32 from 0 to 1, against the processor's own.
root: lib
	@compare/run root

# Wrong answers that the short run has to notice.
power: lib
	@compare/run power

# The fixed list of the Rust's answers that `replay` compares.
list: lib
	@compare/run list crates/replay/data/answers.list

# Times beside the Rust's.
bench: lib
	@compare/run bench
