# Makes dmlw ready, tries it and installs it. What is installed: the program that ./dmlw runs (that of release/, else it is proved and built), the manual page,
# completions, the examples and the pages.
#
#   make                                       unpacks the program, or builds it, so that ./dmlw runs at once
#   make check                                 tries the program in about a minute
#   make install                               installs it under /usr/local
#   make install PREFIX=/usr DESTDIR=room      under room/usr, for a package
#   make uninstall                             with the same words: removes what install wrote
PREFIX ?= /usr/local
DESTDIR ?=
ROOT = $(DESTDIR)$(PREFIX)
SHARE = $(ROOT)/share
DOC = $(SHARE)/doc/dmlw
EXAMPLES = $(notdir $(wildcard examples/*.sh examples/*.script examples/*.xz))
# The pages keep their places, so that each finds what it names.
PAGES = README.md CONTRIBUTING.md $(wildcard docs/*.md docs/lab/*.md)

.PHONY: all check help install uninstall

all:
	@program=$$(./dmlw --which) && echo "./dmlw is ready: it runs $$program"
	@echo "make check tries it, make install installs it under $(PREFIX)"

help:
	@sed -n 's/^#   //p' Makefile

check:
	@bench/check.py

install:
	program=$$(./dmlw --which) && install -D -m 755 "$$program" "$(ROOT)/lib/dmlw/dmlw"
	install -D -m 755 packaging/dmlw.sh "$(ROOT)/bin/dmlw"
	packaging/man.sh "$$(./dmlw --which)" | install -D -m 644 /dev/stdin "$(SHARE)/man/man1/dmlw.1"
	install -D -m 644 packaging/dmlw.bash "$(SHARE)/bash-completion/completions/dmlw"
	install -D -m 644 packaging/_dmlw "$(SHARE)/zsh/site-functions/_dmlw"
	install -D -m 644 packaging/dmlw.fish "$(SHARE)/fish/vendor_completions.d/dmlw.fish"
	install -d "$(SHARE)/dmlw/examples"
	for it in $(PAGES); do install -D -m 644 "$$it" "$(DOC)/$$it"; done
	install -m 644 examples/*.script examples/*.xz "$(SHARE)/dmlw/examples"
	install -m 755 examples/*.sh "$(SHARE)/dmlw/examples"

uninstall:
	rm -f "$(ROOT)/bin/dmlw" "$(ROOT)/lib/dmlw/dmlw" "$(SHARE)/man/man1/dmlw.1"
	rm -f "$(SHARE)/bash-completion/completions/dmlw" "$(SHARE)/zsh/site-functions/_dmlw" "$(SHARE)/fish/vendor_completions.d/dmlw.fish"
	for it in $(EXAMPLES); do rm -f "$(SHARE)/dmlw/examples/$$it"; done
	for it in $(PAGES); do rm -f "$(DOC)/$$it"; done
	for it in "$(SHARE)/dmlw/examples" "$(SHARE)/dmlw" "$(DOC)/docs/lab" "$(DOC)/docs" "$(DOC)" "$(ROOT)/lib/dmlw"; do rmdir "$$it" 2>/dev/null || true; done
