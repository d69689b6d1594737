# `make` proves what it builds: build/libsawmauve.a, and build/sawmauve over it. No network.
PREFIX = /usr/local
DESTDIR =
VERSION = 0.3.0
CARGO = cd sawmauve && CARGO_TARGET_DIR=../build/cargo SAWMAUVE_LIB=../build SAWMAUVE_KIT="$$(rt version)" cargo
CROSSCHECK = $(subst cd sawmauve,cd crosscheck,$(CARGO))
CRATES := $(shell find crates \( -name out -o -name 'must-fail*' \) -prune -o -type f -print) crates.txt
RUST := $(shell find sawmauve/src -type f) sawmauve/Cargo.toml sawmauve/Cargo.lock sawmauve/build.rs
PLACE = $(DESTDIR)$(PREFIX)
DIST = sawmauve-$(VERSION)-x86_64-linux
BINARY = build/sawmauve

.PHONY: all sample test command-test bench install dist clean

all: build/libsawmauve.a build/sawmauve

build/libsawmauve.a: $(CRATES) scripts/archive.sh
	sh scripts/archive.sh

build/sawmauve: build/libsawmauve.a $(RUST)
	$(CARGO) build --quiet --release --offline
	cp build/cargo/release/sawmauve $@

# The sample month, published and read back.
sample: all
	build/sawmauve publish examples/month.log -o build/month.file
	build/sawmauve show build/month.file

# The gate.
test:
	.ci/run

# The gate's part in Rust: form and tests of the command, with overflow checks, and of the second build and the comparison.
command-test: all
	$(CARGO) fmt --check
	$(CARGO) clippy --quiet --offline --all-targets -- -D warnings
	$(CARGO) test --quiet --offline
	$(CROSSCHECK) fmt --check
	$(CROSSCHECK) clippy --quiet --release --offline --all-targets -- -D warnings
	$(CROSSCHECK) test --quiet --release --offline

bench: all
	sh scripts/bench.sh
	sh scripts/command-speed.sh

install: all
	install -D -m 755 $(BINARY) "$(PLACE)/bin/sawmauve"
	install -D -m 644 include/sawmauve.h "$(PLACE)/include/sawmauve.h"
	install -D -m 644 build/libsawmauve.a "$(PLACE)/lib/libsawmauve.a"
	install -D -m 644 sawmauve/sawmauve.1 "$(PLACE)/share/man/man1/sawmauve.1"
	mkdir -p "$(PLACE)/lib/pkgconfig"
	printf '%s\n' 'prefix=$(PREFIX)' 'Name: sawmauve' 'Description: The berth meter book' 'Version: $(VERSION)' \
	    'Cflags: -I$${prefix}/include' 'Libs: -L$${prefix}/lib -lsawmauve' > "$(PLACE)/lib/pkgconfig/sawmauve.pc"

# For machines without the kit: x86-64 with Linux 3.2 or later. The binary is static and needs no C library of theirs.
dist: all
	rm -rf build/$(DIST)
	$(CARGO) rustc --quiet --release --offline --bin sawmauve --target x86_64-unknown-linux-gnu -- -C target-feature=+crt-static
	$(MAKE) install BINARY=build/cargo/x86_64-unknown-linux-gnu/release/sawmauve DESTDIR= PREFIX="$(CURDIR)/build/$(DIST)"
	sed -i 's|^prefix=.*|prefix=$${pcfiledir}/../..|' build/$(DIST)/lib/pkgconfig/sawmauve.pc
	cp -R examples build/$(DIST)/examples
	printf '%s\n' 'sawmauve $(VERSION), proved by '"$$(rt version)"'.' '' \
	    'For x86-64 with Linux 3.2 or later. bin/sawmauve is static and needs no C library;' \
	    'lib/libsawmauve.a links with any. `sha256sum -c SHA256SUMS` checks what is here.' '' \
	    '    bin/sawmauve publish examples/month.log -o month.file' '    bin/sawmauve show month.file' > build/$(DIST)/README
	cd build/$(DIST) && find . -type f ! -name SHA256SUMS -exec sha256sum {} + | sort -k 2 > SHA256SUMS
	cd build && tar --sort=name --owner=0 --group=0 --numeric-owner -czf $(DIST).tar.gz $(DIST)
	cd build && sha256sum $(DIST).tar.gz > $(DIST).tar.gz.sha256

clean:
	rm -rf build
