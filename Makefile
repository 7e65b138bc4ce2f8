# `make install PREFIX=..` puts the command, the header, the library for C, its pkg-config file, the man page and the
# editor's syntax file in place. The archive is proved and built first if it isn't there, which takes long.
PREFIX ?= /usr/local
ARCHIVE ?= target/staticlib/libengine.a
COMMAND ?= cli/target/release/matgravel
VERSION := $(shell sed -n 's/^version = "\(.*\)"/\1/p' cli/Cargo.toml)
TO = $(DESTDIR)$(PREFIX)

.PHONY: build install install-files cargo
build: $(ARCHIVE)
	MATGRAVEL_LIB=$(dir $(abspath $(ARCHIVE))) cargo build --release --offline --manifest-path cli/Cargo.toml --target-dir cli/target

$(ARCHIVE): | cargo
	tools/build.sh engine

# Asked before anything is proved.
cargo:
	@command -v cargo >/dev/null || { echo "make: cargo, which builds the command, is not on the path" >&2; exit 1; }

install: build install-files

# The files alone, from where they were built.
install-files:
	install -D -m 755 $(COMMAND) $(TO)/bin/matgravel
	install -D -m 644 include/matgravel.h $(TO)/include/matgravel.h
	install -D -m 644 $(ARCHIVE) $(TO)/lib/libmatgravel.a
	install -d $(TO)/lib/pkgconfig
	sed 's|@PREFIX@|$(abspath $(PREFIX))|; s|@VERSION@|$(VERSION)|' cli/share/matgravel.pc.in > $(TO)/lib/pkgconfig/matgravel.pc
	install -D -m 644 cli/share/matgravel.1 $(TO)/share/man/man1/matgravel.1
	install -D -m 644 cli/share/matgravel.vim $(TO)/share/vim/vimfiles/syntax/matgravel.vim
