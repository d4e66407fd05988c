# make             proves and builds the programs, which takes long where nothing is kept
# make test        what the gate runs: every proof, the examples and the tests beside the proofs; one last line over all
# make check       the examples and the tests beside the proofs alone, in a minute or two
# make examples    shows how the program's reports of the examples differ from those that are stored, asks, and stores them
# make install     puts all below PREFIX (and DESTDIR); PROGRAM and LITERALS name proved programs that were built elsewhere
# make uninstall   takes it away
# make deb         makes a Debian package in out/
PREFIX = /usr/local
BUILT = crates/malpas/out/malpas
PROGRAM = $(BUILT)
LITERALS_BUILT = crates/malpas_literals/out/malpas_literals
LITERALS = $(LITERALS_BUILT)
export PREFIX DESTDIR PROGRAM LITERALS

all:
	./malpas < examples/copy.mal > /dev/null
	./malpas_literals < examples/copy.mal > /dev/null

test:
	.ci/run

check:
	examples/check
	.ci/unittests tools
	.ci/unittests editors
	.ci/unittests packaging
	.ci/unittests bench

examples:
	examples/renew

# Each program is proved and built where it is to be installed and is not there.
ready:
	@[ "$(PROGRAM)" != "$(BUILT)" ] || ./malpas < examples/copy.mal > /dev/null
	@[ "$(LITERALS)" != "$(LITERALS_BUILT)" ] || ./malpas_literals < examples/copy.mal > /dev/null

install: ready
	@packaging/install install

uninstall:
	@packaging/install uninstall

deb: ready
	@packaging/deb

.PHONY: all test check examples ready install uninstall deb
