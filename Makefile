# make demo: shows what there is. make test: everything that must hold; its last line is 'N passed, 0 failed'.
# make native: the proved library for this machine, in target/native. make install PREFIX=..: header, library, pkg-config file.
# make compare COUNT=..: as many cases as you like through the library and the second implementation; COUNT=1 FIRST=.. replays one.
# make bench: ratios to the peer, OpenSSL and Botan, into docs/BENCH.md, and the time of a decoding. make fuzz SECONDS=..: arbitrary inputs
# until the time is over. make secret-branches: which jumps and addresses depend on secrets.
.PHONY: demo test native install compare bench fuzz secret-branches
COUNT ?= 10000
FIRST ?= 0
SECONDS ?= 60
PREFIX ?= /usr/local
LIBRARY = target/native/libstanquivol.a
LINKED = STANQUIVOL_LIB=$(abspath $(dir $(LIBRARY)))

demo:
	@echo 'Proving the programs and all that they stand on (the first time some minutes) ..'
	@scripts/build-program sizes setup seal open
	@echo 'The sets, as the program sizes prints them for the set bytes 16, 11 and 26:'
	@printf '16\n11\n26\n' | scripts/run-program sizes
	@scripts/demo

# Tables and stored vectors are what the scripts make; the peer's own tests; the library against the peer; the C interface,
# the Rust bindings and the installed library, with their examples; the programs on whole inputs and files; then the gate
# itself.
test:
	scripts/field-tables --check
	scripts/sha512-constants --check
	scripts/bytes-vectors --check
	scripts/reader-vectors --check
	scripts/hash-vectors --check
	scripts/code-vectors --check
	scripts/stored-cases --check
	scripts/call-vectors --check
	cargo test --quiet --release --offline --manifest-path peer/Cargo.toml
	$(MAKE) --no-print-directory compare
	$(LINKED) cargo test --quiet --release --offline --manifest-path compare/Cargo.toml
	tests/c-interface
	tests/stack-residue
	tests/rust-bindings
	tests/install
	scripts/build-program sizes setup seal open
	tests/sizes
	tests/programs
	scripts/gate

native:
	scripts/native-library stanquivol $(LIBRARY)

install: native
	@scripts/install $(LIBRARY) '$(PREFIX)' '$(DESTDIR)'

compare: native
	$(LINKED) cargo run --quiet --release --offline --manifest-path compare/Cargo.toml -- $(COUNT) $(FIRST)

bench: native
	scripts/bench-decode
	scripts/bench

fuzz: native
	scripts/fuzz $(SECONDS)

secret-branches:
	scripts/named-library stanquivol target/named/libstanquivol.a
	STANQUIVOL_LIB=$(CURDIR)/target/named scripts/secret-branches
