# make test: the gate. make run: proves and builds what it needs, and runs the worked canal.
# make trials, make trials-doors, make trials-selftest, make bench and make bench-growth are no part of the gate; the gate has a short run of the trials,
# and makes the calls of bench once for what they answer.
.PHONY: test run trials trials-doors trials-selftest bench bench-doors bench-growth rust session cabinet library examples drill guide picture

test:
	@./.ci/gate

# The session program: target/bin/session, which bin/session starts. No command of rt builds a program and stops there, so this one is run on its stored
# input too. Without that input it would read the terminal; what rt says comes on standard error.
session:
	@cd crates/session && rt run < stdin > /dev/null
	@install -D crates/session/out/session target/bin/session

rust:
	@cargo build --quiet --offline --release --manifest-path rust/Cargo.toml

# The static library for C and Rust: target/staticlib/libcabinet.a. rt names it after the crate of the exports, C callers link it as they always did.
define staticlib
@cd crates/cabinet_c && rt lib
@install -D -m 644 crates/cabinet_c/out/libcabinet_c.a target/staticlib/libcabinet.a
endef
cabinet:
	$(staticlib)

# What links the library has it proved where a crate has changed since. LIB: a folder with another libcabinet.a; then nothing is proved.
ifdef LIB
library:
else
LIB = target/staticlib
library: target/staticlib/libcabinet.a
target/staticlib/libcabinet.a: crates.txt $(shell find crates \( -name must-fail -o -name out \) -prune -o -type f -print)
	$(staticlib)
endif
linked = CABINET_LIB_DIR=$(abspath $(LIB)) cargo build --quiet --offline --release --manifest-path rust/Cargo.toml

examples: library
	@tests/examples $(LIB)

# SCRIPT: any file of drill commands.
SCRIPT ?= examples/worked-canal.drill
drill: library
	@$(linked) -p drill
	@rust/target/release/drill --echo $(SCRIPT)

# The guide's chapter on refusals, from rust/explain/refusals.txt.
guide: rust
	@rust/target/release/explain --guide docs/GUIDE.md

# The two pictures in docs/; or of CANAL, any file of decimal numbers, of drill commands (.drill) or of bytes, beside it.
picture: library
	@$(linked) -p picture
ifeq ($(origin CANAL),command line)
	@rust/target/release/picture $(CANAL) --to $(basename $(CANAL)).svg
	@echo $(basename $(CANAL)).svg
else
	@rust/target/release/picture examples/worked-canal.drill --to docs/worked-canal.svg
	@rust/target/release/picture examples/full-order.txt --to docs/full-order.svg
	@echo docs/worked-canal.svg docs/full-order.svg
endif

# CANAL: any file of decimal numbers.
CANAL ?= examples/worked-canal.txt
run: session rust
	@rust/target/release/pack $(CANAL) | bin/session

# For longer: make trials TRIALS='--seed 7 --sessions 200000'
TRIALS ?= --sessions 6000
trials: session rust
	@rust/target/release/trials --under target/bin/session $(TRIALS)

# The library's functions beside the reference, and whole cabinets. For longer: make trials-doors DOORS='--seed 7 --scripts 100000 --steps 50000000'
DOORS ?=
trials-doors: library
	@$(linked) -p trials --features doors --bin trials-doors
	@rust/target/release/trials-doors $(DOORS)

trials-selftest: rust
	@cd rust && target/release/trials-selftest

bench: session rust bench-doors
	@cd rust && target/release/bench ../target/bin/session

bench-doors: library
	@$(linked) -p bench --features doors --bin bench-doors
	@rust/target/release/bench-doors

# How the time of a close grows. BEFORE: a folder with an earlier libcabinet.a, which is then measured beside ours; both as shared objects, so that
# both are called alike, and each with its calls to itself bound to itself. For longer: make bench-growth GROWTH='--times 61'
GROWTH ?=
shared = gcc -shared -Wl,-Bsymbolic -o target/growth/$(1).so -Wl,--whole-archive $(2)/libcabinet.a -Wl,--no-whole-archive
bench-growth: library
	@$(linked) -p bench --features doors --bin bench-growth
ifdef BEFORE
	@mkdir -p target/growth
	@$(call shared,before,$(BEFORE))
	@$(call shared,after,$(LIB))
	@rust/target/release/bench-growth --before target/growth/before.so --after target/growth/after.so $(GROWTH)
else
	@rust/target/release/bench-growth $(GROWTH)
endif
