# Builds, tests and installs the library. Proving takes minutes, so install proves only where the
# archive is missing.
.POSIX:
.PHONY: lib bench test install uninstall clean

PREFIX = /usr/local
DESTDIR =
archive = target/staticlib/libcegridom.a
to = $(DESTDIR)$(PREFIX)

lib:
	cd crates/cegridom && rt lib
	mkdir -p target/staticlib
	cp crates/cegridom/out/libcegridom.a $(archive)

bench:
	cd crates/bench && rt run <stdin >/dev/null
	mkdir -p target/bin
	cp crates/bench/out/bench target/bin/bench

test:
	tests/run

$(archive):
	$(MAKE) lib

install: $(archive)
	mkdir -p "$(to)/include" "$(to)/lib/pkgconfig"
	cp include/cegridom.h "$(to)/include/"
	cp $(archive) "$(to)/lib/"
	version=$$(sed -n 's/^#define CEGRIDOM_VERSION_STRING "\(.*\)"$$/\1/p' include/cegridom.h) && \
	sed -e 's|@PREFIX@|$(PREFIX)|' -e "s|@VERSION@|$$version|" cegridom.pc.in \
		>"$(to)/lib/pkgconfig/cegridom.pc"

uninstall:
	rm -f "$(to)/include/cegridom.h" "$(to)/lib/libcegridom.a" "$(to)/lib/pkgconfig/cegridom.pc"

clean:
	rm -rf target rust/target crates/*/out
