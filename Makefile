# make install [PREFIX=/usr/local] [DESTDIR=] [PROCESSOR=]
#     installs what dist/ has: the program, with its manual page and completions for bash, zsh and fish, and the library for C, with what
#     pkg-config and CMake find it by. Nothing is built. PROCESSOR is x86_64 or aarch64, and is that of this machine where it is not named.
# make uninstall [PREFIX=/usr/local] [DESTDIR=]
#     removes these files, and the folders of this name that are empty then.
PREFIX = /usr/local
PROCESSOR := $(shell uname -m)
to = $(DESTDIR)$(PREFIX)
made = dist/$(PROCESSOR)
version := $(shell sed -n 's/^Version: //p' bindings/c/promql.pc)
soname := $(shell sed -n 's/^soname=//p' bindings/c/promql.pc)
library = libpromql.so.$(version)
files = bin/promql include/promql.h include/promql_form.h lib/libpromql.a lib/$(library) lib/$(soname) lib/libpromql.so \
    lib/pkgconfig/promql.pc $(addprefix lib/cmake/promql/, promql-config.cmake promql-config-version.cmake promql_targets.cmake) \
    share/man/man1/promql.1 share/bash-completion/completions/promql \
    share/zsh/site-functions/_promql share/fish/vendor_completions.d/promql.fish \
    share/doc/promql/LICENSE share/doc/promql/LICENSE.LGPL-2.1 share/doc/promql/NOTICE

.PHONY: help install uninstall
help:
	@sed -n 's/^# \{0,1\}//p' Makefile

install:
	@test -f "$(made)/promql" || { echo "make install: no release is for the processor $(PROCESSOR): dist/ has $(notdir $(patsubst %/,%,$(wildcard dist/*/)))" >&2; exit 1; }
	install -d "$(to)/bin" "$(to)/include" "$(to)/lib/pkgconfig" "$(to)/share/doc/promql"
	install -m 755 "$(made)/promql" "$(to)/bin"
	install -m 644 dist/promql.h dist/promql_form.h "$(to)/include"
	install -m 644 "$(made)/libpromql.a" "$(to)/lib"
	install -m 644 "$(made)/libpromql.so" "$(to)/lib/$(library)"
	ln -sf $(library) "$(to)/lib/$(soname)"
	ln -sf $(library) "$(to)/lib/libpromql.so"
	install -m 644 bindings/c/promql.pc "$(to)/lib/pkgconfig"
	install -m 644 LICENSE LICENSE.LGPL-2.1 NOTICE "$(to)/share/doc/promql"
	umask 022 && PYTHONDONTWRITEBYTECODE=1 bin/manuals "$(to)/share"
	umask 022 && ! command -v cmake >/dev/null || cmake -DTO="$(to)/lib/cmake/promql" -P bindings/c/install_package.cmake

uninstall:
	cd "$(to)" && rm -f $(files)
	@cd "$(to)" && rmdir share/doc/promql lib/cmake/promql 2>/dev/null || true
