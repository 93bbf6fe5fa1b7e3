# make run: apdu-dump on the samples. make test: the whole gate (tools/gate).
.PHONY: run test oracle words lib apdu_dump replay mutants kit

run: apdu_dump
	@bin/apdu-dump < samples/frames.txt

test: kit
	@tools/gate

# The program in words, target/words/replay, over the static library; where there is no rustc it is left out, and said.
words: lib
	@oracle/build-words

# The port, by the program in words, against the given Rust, 200,000 requests with a fixed seed; K14's writes in every room; the stored list in numbers against its sources; then the program in numbers against 01 read a second time, the same requests.
oracle: words replay
	@oracle/compare 1 200000
	@oracle/no-room
	@oracle/list
	@oracle/in-numbers 1 200000

# Wrong versions of the code, each tried with the prover (docs/MUTANTS.md); CRATES="numbers tags" tries those alone, PART=1/3 a third of them. It takes hours, and is no part of the gate.
mutants: kit
	@python3 tools/mutants $(PART) $(CRATES)

# What a crate is proved and built from.
sources := crates.txt $(shell find crates/*/src crates/*/specs crates/*/proofs -type f)

# The static library and its C header, in one folder; built again where a file of a crate has changed, and proved by the kit as it is built.
lib: target/lib/libthaolisem.a
target/lib/libthaolisem.a: $(sources) bindings/c/thaolisem.h | kit
	@mkdir -p target/lib
	@(cd crates/thaolisem_c && rt lib) > target/lib.log 2>&1 || { tail -n 40 target/lib.log; exit 1; }
	@cp bindings/c/thaolisem.h target/lib/
	@cp crates/thaolisem_c/out/libthaolisem_c.a $@
	@echo "target/lib: libthaolisem.a thaolisem.h"

# Programs, proved and built, and run once on no input; what has not changed since, or what `rt ci` has built, is not proved again.
apdu_dump: crates/apdu_dump/out/apdu_dump
replay: crates/replay/out/replay
crates/apdu_dump/out/apdu_dump crates/replay/out/replay: $(sources) | kit
	@mkdir -p target
	@(cd crates/$(@F) && rt run) < /dev/null > target/$(@F).log 2>&1 || { tail -n 40 target/$(@F).log; exit 1; }
	@touch $@

kit:
	@command -v rt >/dev/null || { echo "Thaolisem needs the Rattle kit: its command 'rt' is not on the PATH"; exit 1; }
