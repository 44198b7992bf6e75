# make try: compares two shipped descriptions by the program as it stands, not proved. make run: proves it and all that it uses, and
# compares. make lib: the static library for C and Rust. make test: the gate, which proves everything, tries to break it, runs the
# programs, and then all of make outside: the library from C and from Rust, the program and the library beside the reference, and the
# Rust side under valgrind. make fuzz: the library against the reference on drawn cases, for SECONDS from SEED. make vectors: the vectors
# of crates/vectors and what the reference answers to them, made again. make bench: how long a run of each program takes, and each call of
# the library beside plain Rust (docs/BENCHMARKS.md). make stack: the stack that each call of the library takes. make gx: the tool that
# shows, writes, checks and explains descriptions. make page: its sample pages, looked at in Chromium where that is installed. make
# install: gx with its manual page and completions, and the library with its header, below PREFIX.
.PHONY: try run lib test outside memory fuzz vectors bench stack gx page install installed lib-anew always

CC = gcc
CFLAGS = -O2 -Wall -Wextra -Werror -Iinclude
PREFIX = /usr/local
SECONDS = 600
SEED = $(shell date +%s)
VALGRIND = valgrind --quiet --error-exitcode=1

# The program as it stands, before it is proved. Only what it prints is shown; where it prints nothing, why.
try: SHELL := /bin/bash
try:
	@echo "Not proved yet, only run, in some half a minute; make run proves it first." >&2
	@set -o pipefail; mkdir -p target; cd crates/goltximen && rt try < ../../examples/pair.blocks > ../../target/try.log 2>&1; \
		grep -E '^(contained|not contained|refused|has|group)\b' ../../target/try.log || { tail -n 40 ../../target/try.log; exit 1; }

run: target/bin/goltximen
	@target/bin/goltximen < examples/pair.blocks

# Proves a program with all that it uses, side by side, and builds it; tools/prove tells how many crates are left. Where no source has
# changed since, it is not asked. The toolchain's own lines are in target/NAME.log.
target/bin/%: SHELL := /bin/bash
target/bin/%: always
	@mkdir -p target/bin
	@[ -e $@ ] || echo "Proving $* and all that it uses: 30 to 40 minutes of processor time from nothing, shared by $$(nproc) processors." >&2
	@[ -e target/$*.proved ] && [ -z "$$(find crates.txt crates -type f \( -name '*.rt' -o -name '*.antt' -o -name crates.txt \) \
		-newer target/$*.proved -print -quit)" ] || tools/prove $* >&2
	@cd crates/$* && rt run < stdin > ../../target/$*.log 2>&1 || \
		{ echo "NOT PROVED. The end of target/$*.log:"; tail -n 40 ../../target/$*.log; exit 1; }
	@cmp -s crates/$*/out/$* $@ || cp crates/$*/out/$* $@
	@touch target/$*.proved

# The crates that the library needs, itself among them.
LIBRARY = tac crates.txt | awk -F '[: ]+' '/^capi / { need[$$1] } $$1 in need { print "crates/" $$1; for (i = 2; i <= NF; i++) need[$$i] }'

# target/staticlib/libcapi.from says of which sources, by which kit, and as which bytes the library was made: where all is as it was,
# there is nothing to do.
SOURCES = cat target/staticlib/libcapi.kit; { find $$($(LIBRARY)) -name out -prune -o -type f -print0 | sort -z | xargs -0 sha256sum; \
	cat crates.txt; } | sha256sum
MADE = sha256sum target/staticlib/libcapi.a 2>&1

lib: SHELL := /bin/bash
lib:
	@mkdir -p target/staticlib
	@rt version > target/staticlib/libcapi.kit.new
	@cmp -s target/staticlib/libcapi.kit.new target/staticlib/libcapi.kit || cp target/staticlib/libcapi.kit.new target/staticlib/libcapi.kit
	@rm target/staticlib/libcapi.kit.new
	@{ $(SOURCES); $(MADE); } | cmp -s - target/staticlib/libcapi.from || $(MAKE) --no-print-directory lib-anew

# The sources are told as they were before: what changes meanwhile is proved the next time.
lib-anew:
	@{ $(SOURCES); } > target/staticlib/libcapi.begun
	cd crates/capi && rt lib
	@cmp -s crates/capi/out/libcapi.a target/staticlib/libcapi.a || cp crates/capi/out/libcapi.a target/staticlib/libcapi.a
	@{ cat target/staticlib/libcapi.begun; $(MADE); } > target/staticlib/libcapi.from
	@rm target/staticlib/libcapi.begun

always:

test:
	bash .ci/run

# The program that all of this goes by: proved and built here, where the gate has not just done so (.ci/run).
PROGRAM = target/bin/goltximen

outside: lib gx $(PROGRAM)
	mkdir -p target/c
	$(CC) $(CFLAGS) examples/compare.c target/staticlib/libcapi.a -o target/c/compare
	test "$$(target/c/compare)" = "not contained, entry 1; specimen of 2 entries"
	$(CC) $(CFLAGS) examples/build.c target/staticlib/libcapi.a -o target/c/build
	test "$$(target/c/build | tail -n 1)" = "normal form of 3 entries: 5,0,1,0 3,1,2,1 4,1,2,1"
	$(CC) $(CFLAGS) examples/excluding.c target/staticlib/libcapi.a -o target/c/excluding
	test "$$(target/c/excluding)" = "without the list: not contained; under it: contained"
	$(CC) $(CFLAGS) examples/named.c target/staticlib/libcapi.a -o target/c/named
	test "$$(target/c/named)" = "6 entries once unfolded: 5,0,1,0 1,1,7,0 2,1,8,0 5,0,2,0 1,4,7,0 2,4,8,0; contained"
	$(CC) $(CFLAGS) examples/narrowest.c target/staticlib/libcapi.a -o target/c/narrowest
	test "$$(target/c/narrowest)" = "narrowest of 4 entries: 3,0,1,1 4,0,1,9 5,0,1,0 1,3,7,0"
	$(CC) $(CFLAGS) examples/catalogue.c target/staticlib/libcapi.a -o target/c/catalogue
	test "$$(cd examples && ../target/c/catalogue supplier.blocks services/*.blocks service.txt | paste -s -d,)" = \
		"service.txt: refused 1 place 0,services/few-cores.blocks: contained,services/sealed.blocks: not contained,services/with-core.blocks: contained"
	$(CC) $(CFLAGS) examples/hierarchy.c target/staticlib/libcapi.a -o target/c/hierarchy
	test "$$(cd examples && ../target/c/hierarchy supplier.blocks services/*.blocks supplier.blocks | paste -s -d,)" = \
		"supplier.blocks: below services/few-cores.blocks services/with-core.blocks,services/few-cores.blocks: at the top,services/sealed.blocks: at the top,services/with-core.blocks: at the top,supplier.blocks: says the same as supplier.blocks"
	$(CC) $(CFLAGS) examples/desk.c target/staticlib/libcapi.a -o target/c/desk
	rm -f target/c/draft
	test "$$(target/c/desk target/c/draft | paste -s -d,)" = "add: 1 entries,add: 2 entries,name: 2 entries"
	test "$$(target/c/desk target/c/draft | paste -s -d,)" = \
		"take off: 1 entries,add: 2 entries,add: refused 5 place 3,go back: 2 entries,write: 2 entries,read: 2 entries"
	$(CC) $(CFLAGS) examples/delivered.c target/staticlib/libcapi.a -o target/c/delivered
	test "$$(target/c/delivered | paste -s -d,)" = "item 1 fits,item 2 does not fit,item 3 does not fit"
	$(CC) $(CFLAGS) examples/failing.c target/staticlib/libcapi.a -o target/c/failing
	test "$$(cd examples && ../target/c/failing supplier.blocks services/sealed.blocks | paste -s -d,)" = "entry 2 fails"
	$(CC) $(CFLAGS) examples/earning.c target/staticlib/libcapi.a -o target/c/earning
	test "$$(cd examples && ../target/c/earning supplier.blocks services/*.blocks pair.blocks | paste -s -d,)" = \
		"services/few-cores.blocks: contained, by 1 3,services/sealed.blocks: not contained,services/with-core.blocks: contained, by 1 2,pair.blocks: refused 3 input 2 place 1"
	$(CC) $(CFLAGS) examples/stored.c target/staticlib/libcapi.a -o target/c/stored
	test "$$(cd target/c && { ./stored to ../../examples/supplier.blocks supplier.stored; ./stored from supplier.stored supplier.back; \
		./stored from ../../examples/supplier.blocks refused; } | paste -s -d,)" = \
		"3 entries: 1 blocks, 1 stored,3 entries: 1 blocks, 1 stored,refused 3 place 1"
	cmp target/c/supplier.back examples/supplier.blocks
	$(CC) $(CFLAGS) examples/sheet.c target/staticlib/libcapi.a -o target/c/sheet
	test "$$(cd examples && ../target/c/sheet supplier.blocks pair.blocks | paste -s -d,)" = \
		"supplier.blocks: field sheet of 3 entries,pair.blocks: refused 3 place 1"
	$(CC) $(CFLAGS) examples/missing.c target/staticlib/libcapi.a -o target/c/missing
	test "$$(cd examples && ../target/c/missing supplier.blocks services/*.blocks | paste -s -d,)" = \
		"services/few-cores.blocks: nothing to add,services/sealed.blocks: to be added 5,0,1,0 1,1,7,0,services/with-core.blocks: nothing to add"
	cargo test --quiet --manifest-path rust/bindings/Cargo.toml
	cargo test --release --quiet --manifest-path rust/differential/Cargo.toml
	cargo test --release --quiet --manifest-path rust/bench/Cargo.toml
	cargo test --quiet --manifest-path rust/gx/Cargo.toml
	$(MAKE) installed
	$(MAKE) memory

# The tests of the Rust side, and twenty seconds of drawn cases, with each use of memory watched.
memory: lib
	cargo --config 'target."cfg(unix)".runner="$(VALGRIND)"' test --quiet --tests --manifest-path rust/bindings/Cargo.toml
	cargo build --release --quiet --manifest-path rust/differential/Cargo.toml --bin fuzz
	$(VALGRIND) rust/differential/target/release/fuzz 20 1

fuzz: lib
	cargo run --release --quiet --manifest-path rust/differential/Cargo.toml --bin fuzz -- $(SECONDS) $(SEED)

vectors: lib
	cargo run --release --quiet --manifest-path rust/differential/Cargo.toml --bin vectors -- crates/vectors

bench: target/bin/inspect target/bin/normals target/bin/fits target/bin/goltximen
	bash bench/run
	$(MAKE) lib
	cargo run --release --quiet --manifest-path rust/bench/Cargo.toml

stack: lib
	mkdir -p target/c
	$(CC) $(CFLAGS) bench/stack.c target/staticlib/libcapi.a -Wl,-z,now -o target/c/stack
	target/c/stack

# rust/gx/target/release/gx; its manual page is rust/gx/gx.1.
gx: lib
	cargo build --release --quiet --manifest-path rust/gx/Cargo.toml --bin gx

# Into PREFIX, below DESTDIR where that is given.
SHARE = $(DESTDIR)$(PREFIX)/share
install: gx
	install -Dm755 rust/gx/target/release/gx $(DESTDIR)$(PREFIX)/bin/gx
	install -Dm644 rust/gx/gx.1 $(SHARE)/man/man1/gx.1
	install -Dm644 include/goltximen.h $(DESTDIR)$(PREFIX)/include/goltximen.h
	install -Dm644 target/staticlib/libcapi.a $(DESTDIR)$(PREFIX)/lib/libgoltximen.a
	install -d $(DESTDIR)$(PREFIX)/lib/pkgconfig $(SHARE)/bash-completion/completions $(SHARE)/zsh/site-functions $(SHARE)/fish/vendor_completions.d
	sed 's|@PREFIX@|$(PREFIX)|' rust/gx/goltximen.pc.in > $(DESTDIR)$(PREFIX)/lib/pkgconfig/goltximen.pc
	rust/gx/target/release/gx completions bash > $(SHARE)/bash-completion/completions/gx
	rust/gx/target/release/gx completions zsh > $(SHARE)/zsh/site-functions/_gx
	rust/gx/target/release/gx completions fish > $(SHARE)/fish/vendor_completions.d/gx.fish
	install -d $(SHARE)/doc/goltximen
	install -m644 LICENSE LICENSE-MIT LICENSE-APACHE docs/FORMAT.md $(SHARE)/doc/goltximen

# What make install puts where: a program is linked with it, gx answers, and its manual page and completions are read.
installed: gx
	rm -rf target/installed
	$(MAKE) --no-print-directory install PREFIX=$(CURDIR)/target/installed > /dev/null
	bash rust/gx/installed.sh target/installed

# target/page/small.html, large.html, deep.html, hierarchy.html, a catalogue's table, and what they are made of.
page: lib
	bash rust/gx/page.sh
