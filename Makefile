# What is made of this repository beside its proofs; CONTRIBUTING.md says how it is proved.
PREFIX ?= /usr/local

.PHONY: all dist deb install uninstall man check check-tools

all:
	./tivrenan build

# an archive in dist/ that runs without sources and without the kit
dist:
	tools/dist.sh

# a package of Debian in dist/, of what `make install` puts, with its units
deb:
	tools/deb.sh

install:
	tools/install.sh $(PREFIX)

uninstall:
	tools/uninstall.sh $(PREFIX)

man:
	docs/write_man.py

# what no contract reaches: tools, page, guide, desks, each where what it needs is installed
check:
	tools/tests/all.py

# of that the programs for offices, and what installs and packs
check-tools:
	tools/tests/all.py manual install folder deb backup services cluster report batch take faults forms fetch
