# `make` builds, `make install` puts it in place; `make run` is the main job, `make test` the gate.
.PHONY: all install uninstall test run console fuzz bench

# The archive, the shared library, the console and the thin program; what has to be proved first is said, and how long that takes.
all:
	@host/build.sh

# Under PREFIX, with DESTDIR in front of every place that is written to.
PREFIX ?= /usr/local
DESTDIR ?=
install: all
	@PREFIX='$(PREFIX)' DESTDIR='$(DESTDIR)' host/install.sh install

# Takes exactly that away again.
uninstall:
	@PREFIX='$(PREFIX)' DESTDIR='$(DESTDIR)' host/install.sh uninstall

test:
	@.ci/run

# The thin program on an example: FEED=.. for another.
FEED ?= examples/figure-3-2.opm
run:
	@host/rows.sh $(FEED)

# The console on an example, for a person: FEED=.. for another.
console:
	@host/prove.sh odm
	@host/console.sh $(FEED)

# A million generated feeds, texts, tables and values, the product against the second program; another seed each time, printed.
fuzz:
	@host/prove.sh odm
	@host/compare.sh --seed $$(date +%s) --feeds 1000000 --texts 1000000 --tables 1000000 --words 1000000

# Times as ratios, side by side in one run: BEFORE=COMMIT has the archive of an earlier commit beside them.
bench:
	@host/prove.sh odm
	@host/bench.sh
