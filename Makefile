# Builds, runs, tests and measures the tape server and the dump client. It needs the Rattle kit's `rt` in PATH, and
# Python 3.11. `make` alone lists the targets.

SERVER := crates/rmtd/out/rmtd
CLIENT := crates/rdump/out/rdump
SIMULATOR := crates/rsim/out/rsim
FEED := crates/bench_feed/out/bench_feed
RATIOS := out/bench.tsv
PROGRAMS := rmtd rdump rsim
TOOL_TESTS := $(addprefix tests.tools.,test_further test_gate test_promises test_texts test_bench)
# The logic of the kit with which all here is proved, as `rt version` prints it.
LOGIC := dac8208d650f15bf

PREFIX ?= /usr/local
DESTDIR ?=
SBIN = $(DESTDIR)$(PREFIX)/sbin
BIN = $(DESTDIR)$(PREFIX)/bin
MAN = $(DESTDIR)$(PREFIX)/share/man
# man/night.8 describes all scripts of etc/, and is installed under the name of each.
SCRIPTS := new-reels night take-dumpdates tapes to-shelf
DOC = $(DESTDIR)$(PREFIX)/share/doc/rdump

.PHONY: help build run try quick test edits check texts bench deb install uninstall clean kit
.NOTPARALLEL:

help: ## list these targets
	@sed -n 's/^\([a-z]*\):.*## /  make \1\t/p' $(MAKEFILE_LIST) | expand -t 18

build: kit ## prove and build the three programs, crates side by side; it prints first how long that is likely to take
	@python3 -m tests.tools.build $(PROGRAMS)

run: kit ## show a conversation with the server, turn by turn; if it is not built, from its sources without their proofs
	@python3 -m tests.tools.run

try: kit ## compile a program without its proofs, as out/try/PROGRAM: make try PROGRAM=rdump
	@python3 -m tests.tools.unproved $(or $(PROGRAM),$(error make try needs a program: make try PROGRAM=rdump))

quick: kit ## compile the three programs without their proofs, and test these from outside; it names what it skips
	@python3 -m tests.tools.unproved $(PROGRAMS)
	@python3 -m tests $(foreach it,$(PROGRAMS),--$(it) out/try/$(it))

# The programs that are tested are those that `rt ci` has just proved and built.
test: texts ## prove all crates and their tests from nothing, and test the built programs from outside; it ends with the minutes of each
	@python3 -m tests.tools.gate

edits: kit ## try the wrong bodies that the prover has to refuse, many at once: make edits, or make edits CRATE=tape
	@python3 -m tests.tools.further $(CRATE)

check: texts ## make test, and make edits beside the tests from outside, as .ci/run does
	@python3 -m tests.tools.gate --edits

texts: kit ## look at the documents, the edits and the Python, and test the tools
	@for it in flake8 "mypy --strict"; do \
		if command -v $${it%% *} > /dev/null; then $$it tests bench packaging/deb.py || exit 1; else echo "skipped: $${it%% *} is not installed"; fi; done
	python3 -m tests.tools.promises
	python3 -m tests.tools.homes
	python3 -m tests.tools.imports
	python3 -m tests.tools.examples
	python3 -m tests.tools.messages
	python3 -m tests.tools.links
	python3 -m unittest -q $(TOOL_TESTS)

bench: build ## long streams, reels in folders, dumps beside a floor over the loopback and over lines of 1 and 10 Gbit/s, long files, many reels, a long reel and its sum, long schedules, and bytes in pieces; it ends with a table of ratios and processor seconds, which make bench JSON=FILE also writes to FILE as JSON
	@python3 -m tests.tools.build bench_feed
	rm -f $(RATIOS)
	python3 -m bench.stdio $(SERVER)
	python3 -m bench.reels $(SERVER)
	python3 -m bench.dates $(CLIENT)
	python3 -m bench.sums $(CLIENT)
	python3 -m bench.list $(CLIENT)
	python3 -m bench.dump $(SERVER) $(CLIENT)
	python3 -m bench.network $(SERVER) $(CLIENT)
	python3 -m bench.instructions $(SERVER) $(CLIENT)
	python3 -m bench.feed $(FEED)
	python3 -m bench.schedules $(SIMULATOR)
	python3 -m bench.threads --soak $(SERVER)
	@python3 -m bench.table $(if $(JSON),--json $(JSON))

install: build ## install the programs, their manual pages and the documents under PREFIX, below DESTDIR; what `make test` has proved and built is not proved again
	install -d $(SBIN) $(BIN) $(MAN)/man8 $(MAN)/man5 $(MAN)/man1 $(DOC)
	install $(SERVER) $(CLIENT) $(SBIN)
	install $(SIMULATOR) $(BIN)
	install -m 644 man/rmtd.8 man/rdump.8 $(MAN)/man8
	for it in $(SCRIPTS); do install -m 644 man/night.8 $(MAN)/man8/$$it.8 || exit 1; done
	install -m 644 man/rdump.5 $(MAN)/man5
	install -m 644 man/rsim.1 $(MAN)/man1
	install -m 644 docs/*.md $(DOC)
	@found=$$(command -v rdump); test "$${found:-$(PREFIX)/sbin/rdump}" = $(PREFIX)/sbin/rdump || \
		echo "rdump: PATH finds $$found first, not $(PREFIX)/sbin/rdump: see README.md"

deb: build ## pack the programs as two Debian packages, out/deb/rmtd_*.deb and out/deb/rdump_*.deb; what `make test` has proved and built is not proved again
	rm -rf out/deb
	@python3 packaging/deb.py $(SERVER) $(CLIENT) $(SIMULATOR) out/deb

uninstall: ## remove what `make install` put there, with the same PREFIX and DESTDIR; the folders stay
	rm -f $(SBIN)/rmtd $(SBIN)/rdump $(BIN)/rsim $(MAN)/man5/rdump.5 $(MAN)/man1/rsim.1
	rm -f $(patsubst %,$(MAN)/man8/%.8,rmtd rdump $(SCRIPTS))
	rm -f $(patsubst docs/%,$(DOC)/%,$(wildcard docs/*.md))

clean: ## remove all that was built
	rm -rf out crates/*/out

kit:
	@command -v rt > /dev/null || { echo "make: the Rattle kit's command rt is not in PATH" >&2; exit 1; }
	@found=$$(rt version | sed -n '1s/.* logic //p'); test "$$found" = $(LOGIC) || \
		{ echo "make: all here is proved with a Rattle kit of logic $(LOGIC), and rt in PATH has logic $${found:-unknown}" >&2; exit 1; }
