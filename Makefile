# Installs the proved program, the tools, their manual, the examples and the dissector, and packs them for machines that have no Rattle kit. Nothing is
# built here: `./build` proves and builds the program, and so does the gate.
#
#   make install PREFIX=/usr/local      DESTDIR= is put before each path. For other machines too, run './build --older' before
#   make uninstall PREFIX=/usr/local
#   make dist GATE=FILE                 normd-VERSION-linux-x86_64.tar.gz in out/; FILE has what the gate printed
#   make deb                            normd_VERSION_amd64.deb in out/
#   make manual                         prints the keys and the tools' help into the manual pages again
PREFIX = /usr/local
DESTDIR =
INSTALL = install

program = crates/normd/out/normd
sources = find crates crates.txt -name out -prune -o -type f \( -name '*.rt' -o -name '*.antt' -o -name crates.txt \)
root = $(DESTDIR)$(PREFIX)
bin = $(root)/bin
man = $(root)/share/man
share = $(root)/share/normd
documents = $(root)/share/doc/normd
examples = $(documents)/examples
completions = $(root)/share/bash-completion/completions
# Each tool gets the name normd-TOOL. It finds its modules, the table of keys and the program from where it lies.
tools = send receive profile journal pcap bridge
modules = $(wildcard tools/norm_*.py)
GATE =

help:
	@sed -n '1,/^PREFIX/s/^# \{0,1\}//p' Makefile

proved:
	@test -x $(program) || { echo "make: the proved program is not there: run './build' first." >&2; exit 1; }
	@newer=$$($(sources) -newer $(program) -print | head -n 1); test -z "$$newer" || \
		{ echo "make: $$newer is newer than the proved program: run './build' first." >&2; exit 1; }

older: proved
	@! grep -q x86-64-v3 $(program) || { echo "make: the proved program is for processors with AVX2 alone: run './build --older' first." >&2; exit 1; }

install: proved
	$(INSTALL) -d $(bin) $(man)/man1 $(man)/man5 $(share)/tools $(examples)/profiles $(documents)/systemd $(completions)
	$(INSTALL) -m 755 $(program) $(bin)/normd
	for tool in $(tools); do \
		$(INSTALL) -m 755 tools/$$tool $(share)/tools/$$tool && ln -sf ../share/normd/tools/$$tool $(bin)/normd-$$tool || exit 1; \
	done
	$(INSTALL) -m 755 examples/cast $(share)/tools/cast
	ln -sf ../share/normd/tools/cast $(bin)/normd-cast
	$(INSTALL) -m 644 $(modules) crates/norm_base/specs/Keys.antt $(share)/tools
	$(INSTALL) -m 644 tools/norm.lua $(share)/norm.lua
	$(INSTALL) -m 644 man/*.1 $(man)/man1
	$(INSTALL) -m 644 man/norm-script.5 $(man)/man5/norm-script.5
	$(INSTALL) -m 644 packaging/normd.bash $(completions)/normd
	for name in $(tools:%=normd-%) normd-cast; do ln -sf normd $(completions)/$$name || exit 1; done
	$(INSTALL) -m 644 $$(find examples -maxdepth 1 -type f ! -name cast) $(examples)
	$(INSTALL) -m 755 examples/cast $(examples)/cast
	$(INSTALL) -m 644 examples/profiles/* $(examples)/profiles
	$(INSTALL) -m 644 examples/systemd/* $(documents)/systemd
	$(INSTALL) -m 644 LICENSE CHANGELOG.md $(documents)

uninstall:
	rm -f $(bin)/normd $(man)/man5/norm-script.5 $(completions)/normd
	for name in $(tools:%=normd-%) normd-cast; do rm -f $(bin)/$$name $(completions)/$$name; done
	for page in man/*.1; do rm -f $(man)/man1/$${page#man/}; done
	rm -rf $(share) $(documents)

dist: older
	packaging/dist $(GATE)

deb: older
	packaging/deb

manual:
	man/keys --write
	man/tools --write

.PHONY: help proved older install uninstall dist deb manual
