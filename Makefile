# make run: proves and builds the session program and plays the paper's example. make test: the one test; the audit, then `rt ci`, then the
# look at what each edit is refused for and the witnesses; the last line is the verdict of rt ci, held back until all else is through. Both
# say what they are doing, a line a step with its seconds, on standard error. make agree N=..: more worlds. make bench: what a run costs.
.PHONY: run test audit agree bench

N ?= 1000000

run:
	@sh tools/build session spell
	@build/rust/release/spell to-session examples/two-sector-read/session.txt build/session.bin
	@build/bin/session <build/session.bin

test: audit
	@sh tools/gate

audit:
	@rt version
	@. tools/steps && logged audit 'audit: the text' sh tools/audit && cat build/log/audit

agree:
	@sh tools/build library rust
	@build/rust/release/agree --worlds $(N)

bench:
	@sh tools/bench
