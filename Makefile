# The three commands of README.md: `make run` does the main job, `make test` is the gate, `make check` is for the edit loop.
.PHONY: run test check fmt

# Proves and builds programs, so that tools/run finds them: each is run once, on nothing.
built = mkdir -p target && for name in $(1); do (cd crates/$$name && rt run < /dev/null) > target/$$name.log 2>&1 || { cat target/$$name.log >&2; exit 1; }; done

# Standard input through vescline, or a stored line's bytes where there is none: make run < capture
run:
	@$(call built,vescline)
	@if [ -t 0 ]; then tools/run vescline < crates/vescline/stdin; else tools/run vescline; fi

# The very last line is that of `rt ci`: N passed, 0 failed. It checks the layout too.
test:
	@! awk '/^```rust/ {on = 1; next} /^```/ {on = 0} on && NF' README.md | grep -vxFf crates/example/src/main.rt || { echo "README.md shows code that crates/example does not have" >&2; exit 1; }
	@! awk '/^ *pub fn / {on = 1} on && /^ *requires/ {print FILENAME ":" FNR} /\{$$/ {on = 0}' crates/*/src/*.rt | grep . || { echo "a public function has a requires" >&2; exit 1; }
	@tools/ci

# Proves every crate that changed and runs the programs, without the must-fail edits.
check:
	@rt all test

fmt:
	@for crate in crates/*/; do (cd $$crate && rt fmt) || exit 1; done

# Tries the compiler's back end: by the interpreter, and with the compiler's assumptions checked.
.PHONY: try
try:
	@tools/try

# What follows asks the Rust, and needs cargo and Debian's packages: oracle/README.md.
.PHONY: oracle answers compare variants speed

oracle:
	@oracle/setup
	@cd oracle/answers && cargo build --release --offline --quiet

# Makes the stored cases and the Rust's answers to them anew.
answers: oracle
	@target/oracle/build/release/answers crates/replay numbers unpackers commands replies streams gateway late readers faults

# Compares with the Rust over fresh random cases; so many ENCODES twice, commands written and command frames read, and SEQUENCES of calls three times, without the gateway feed, with it, and over late frames: make compare SEED=7 DECODES=2000000 ENCODES=200000 SEQUENCES=20000 READS=1000000
SEED ?= 1
DECODES ?= 20000
ENCODES ?= 2000
SEQUENCES ?= 400
READS ?= 20000
compare: oracle
	@$(call built,replay vescline)
	@target/oracle/build/release/answers compare $(SEED) $(DECODES) $(ENCODES) $(SEQUENCES) $(READS) tools/run replay
	@oracle/lines $(SEED)

# Shows that the same comparison finds wrong variants of the Rust, and of the references for the gateway feed, the masks and the reader of command frames, each by name.
variants: oracle
	@$(call built,replay)
	@SEED=$(SEED) oracle/variants $(DECODES) $(ENCODES) $(SEQUENCES) $(READS)

# Times vescline against the Rust: docs/SPEED.md.
speed:
	@[ "$$(uname -m)" = x86_64 ] || { echo "make speed: programs are built for x86-64, and this is $$(uname -m)" >&2; exit 1; }
	@$(MAKE) --no-print-directory oracle
	@$(call built,vescline)
	@oracle/speed
