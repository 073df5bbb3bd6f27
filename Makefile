# Installs the built program `milkhour`, with its man page, completions for bash and zsh, syntax for vim and pygments, what editors need
# to start its language server, and the schemas of its documents. The exact program is `milkhour step`.
#
#   make                      builds the programs, as README does
#   make install              PREFIX=/usr/local by default; DESTDIR stands before all paths
#   make uninstall            removes what `make install` with the same PREFIX and DESTDIR has put there
#   make dist                 packs the built program, the pages and the examples into out/; `make install` works where that is unpacked

PREFIX = /usr/local
DESTDIR =

built = crates/milkhour/out/milkhour
shared := $(shell find share -type f | LC_ALL=C sort)
prefix = $(DESTDIR)$(PREFIX)
packed = milkhour-$(shell $(built) --version | sed 's/.* //')-$(shell uname -sm | tr 'A-Z ' 'a-z-')
pages = README.md CHANGELOG.md CONTRIBUTING.md LICENSE Makefile docs examples share

all:
	cd crates/step_main && rt run -- check data/program data/proof data/certs
	cd crates/milkhour && rt run -- verify data/count.spl

install:
	@test -x $(built) || { echo "$(built) isn't there: make builds it" >&2; exit 1; }
	install -D -m 755 $(built) "$(prefix)/bin/milkhour"
	for file in $(shared); do install -D -m 644 "$$file" "$(prefix)/$$file" || exit 1; done

uninstall:
	rm -f "$(prefix)/bin/milkhour"
	for file in $(shared); do rm -f "$(prefix)/$$file" || exit 1; done

dist:
	@test -x $(built) || { echo "$(built) isn't there: make builds it" >&2; exit 1; }
	rm -rf out/$(packed)
	install -D -m 755 $(built) out/$(packed)/$(built)
	cp -r $(pages) out/$(packed)
	tar -C out -czf out/$(packed).tar.gz --sort=name --owner=0 --group=0 --numeric-owner $(packed)
	rm -rf out/$(packed)

.PHONY: all install uninstall dist
