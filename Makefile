# The commands of this repository. They need `rt`, the command of the Rattle toolchain, and python3 on PATH; `compare`, `fuzz`
# and `bench` also `rustc`, the Rust compiler, and `compare` and `fuzz` Python 3.11.

PREFIX = /usr/local
# Programs that were built already, to be installed in place of those that tests/support/build prints.
SWIMSIM =
SWIMD =
# Words for tests/all, as --with-edits.
WITH =

BIN = $(DESTDIR)$(PREFIX)/bin
MAN = $(DESTDIR)$(PREFIX)/share/man/man1
DOC = $(DESTDIR)$(PREFIX)/share/doc
UNIT = $(DESTDIR)$(PREFIX)/lib/systemd/system

.PHONY: help build run demo check test edits compare fuzz bench install uninstall

help:
	@echo 'make run        plays examples/first.swim: by the proved swimsim where that was built, and else by its sources, as'
	@echo '                they are before any proof, in about a minute'
	@echo 'make demo       shows a group of five at work and its page; one of them is killed, and their journal files tell of it;'
	@echo '                where no proved programs were built, by their sources as they are, within three minutes'
	@echo 'make build      proves and builds swimsim and swimd if need be, which takes half an hour at first and says how far'
	@echo '                it is, and prints where they lie'
	@echo 'make check      for people at work: checks what changed since it was last proved here and what stands on it, with the'
	@echo '                tests of those, and runs the short parts of tests/; it takes what was proved before as it is'
	@echo 'make test       rt ci (every proof and test), and the parts of tests/ that run the built programs, in 40 to 75 minutes'
	@echo '                with four processors; tests/all --list names them, and tests/all --only NAME runs one'
	@echo 'make edits      tries wrong bodies, each of which the prover has to refuse: some 45 minutes behind a make test'
	@echo 'make compare    runs swimsim and tests/reference on random scripts, and swimd on random configurations and'
	@echo '                control lines beside models of both, and compares what they write'
	@echo 'make fuzz       gives both programs mutations of valid scripts, datagrams, configurations and control lines, for ten'
	@echo '                minutes, and compares what they write with what models and the reference say'
	@echo 'make bench      measures swimsim and the node beside tests/reference, and swimd beside that and the least responder;'
	@echo '                counts instructions, where valgrind is on PATH; and compares all with the last run of this machine'
	@echo 'make install    puts programs, man pages, examples and the service of systemd below PREFIX (/usr/local, or'
	@echo '                make install PREFIX=..); make install SWIMD=.. SWIMSIM=.. installs programs that were built elsewhere'
	@echo 'make uninstall  removes them again'
	@echo 'make help       this list'

build:
	@tests/support/build swimsim swimd

run:
	@tests/support/play examples/first.swim

demo:
	@tests/swimd/demo

check:
	@tests/all --short

test:
	@tests/all $(WITH)

edits:
	@tests/edits/run

compare:
	@tests/swimsim/compare
	@tests/swimd/compare

fuzz:
	@tests/fuzz/run --seconds 600

bench:
	@tests/bench/all

install:
	@set -e; simulator='$(SWIMSIM)'; test -n "$$simulator" || simulator=$$(tests/support/build swimsim); \
	daemon='$(SWIMD)'; test -n "$$daemon" || daemon=$$(tests/support/build swimd); \
	install -d '$(BIN)' '$(MAN)' '$(UNIT)' '$(DOC)/swimsim/examples' '$(DOC)/swimd/examples'; \
	install "$$simulator" '$(BIN)/swimsim'; \
	install "$$daemon" '$(BIN)/swimd'; \
	install -m 644 man/swimsim.1 man/swimd.1 '$(MAN)'; \
	install -m 644 examples/*.swim examples/*.stdout '$(DOC)/swimsim/examples'; \
	install -m 644 examples/*.toml '$(DOC)/swimd/examples'; \
	install -m 644 docs/OPERATING.md docs/CHECKING.md docs/FORMATS.md docs/PROTOCOL.md docs/healing.svg docs/trace.svg \
		'$(DOC)/swimd'; \
	for unit in swimd.service swimd-web.service; do \
		sed 's|/usr/local/bin/|$(PREFIX)/bin/|' "contrib/$$unit" > '$(UNIT)'"/$$unit"; \
		chmod 644 '$(UNIT)'"/$$unit"; \
	done

uninstall:
	@rm -f '$(BIN)/swimsim' '$(BIN)/swimd' '$(MAN)/swimsim.1' '$(MAN)/swimd.1' '$(UNIT)/swimd.service' \
		'$(UNIT)/swimd-web.service'
	@rm -rf '$(DOC)/swimsim' '$(DOC)/swimd'
