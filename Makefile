.PHONY: run library test bench fuzz

SECONDS = 60

library = target/staticlib/libcapi.a
player = rust/player/target/release/glintbasket
build = cargo build --quiet --release --offline --manifest-path

# What the library is made of; definitions and proofs too, since it is built only of what is proved.
sources = crates.txt $(wildcard crates/*/src/* crates/*/specs/* crates/*/proofs/*.antt crates/*/proofs/*/*.antt)

# Builds the proved library, the player and the second program, and plays a first session.
run: $(library)
	$(build) rust/player/Cargo.toml
	$(build) rust/reference/Cargo.toml
	$(player) play sessions/first.session

test:
	.ci/run

# Debian's librust-vm-memory-dev, where it is installed.
vm_memory = $(wildcard /usr/share/cargo/registry/vm-memory-*)

# Times of the emulator's calls against memcpy, plain Rust and, where it is installed, vm-memory.
# A lock file that is left over may name versions that Debian no longer has.
bench: $(library)
ifneq ($(vm_memory),)
	rm -f rust/bench/vm-memory/Cargo.lock
	$(build) rust/bench/vm-memory/Cargo.toml --config rust/bench/vm-memory/debian.toml
	rust/bench/vm-memory/target/release/glint-bench-vm-memory
else
	@echo "# vm-memory (Debian's librust-vm-memory-dev) is not installed, and so not compared"
	$(build) rust/bench/Cargo.toml
	rust/bench/target/release/glint-bench
endif

# Generated calls on the emulator and on the second program, for SECONDS, from new seeds.
fuzz: $(library)
	$(build) rust/differential/Cargo.toml
	rust/differential/target/release/glint-differential --seconds $(SECONDS)

# The proved library, made anew where a source has changed. It proves again only the crates that a change touches, and those above them.
library: $(library)

$(library): $(sources)
	cd crates/capi && rt lib
	mkdir -p $(dir $@)
	cp crates/capi/out/libcapi.a $@
