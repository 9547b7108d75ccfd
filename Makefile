# `make` proves and builds the program, leaves it at bin/nehumiro, and runs the first session of the README with it on real files.
# `make test` is the gate, `rt ci`: every proof, every must-fail edit, every test and the program's stored run.
# `make wrong` tries the wrong bodies of crates/NAME/wrong, which the gate leaves out; `make wrong NAME=nb_delta` those of one crate.
# `make try` runs the script of the first session with no proof, in some minutes, and leaves nothing.
# `make bench` runs all measurements of bin/nehumiro; `make bench BENCH=PROGRAM` those of another program.

PROGRAM := bin/nehumiro

.PHONY: all test wrong try bench clean FORCE

all: $(PROGRAM)
	@folder=$$(mktemp -d) && trap 'rm -rf "$$folder"' EXIT && cp examples/first examples/look "$$folder/" && cd "$$folder" \
		&& $(CURDIR)/$(PROGRAM) run first && $(CURDIR)/$(PROGRAM) -R b.db a.0 a.1 && $(CURDIR)/$(PROGRAM) run look

# What is built is what `rt ci` proved. Whether that was this very text is known by a sum, and not by the files' times.
$(PROGRAM): FORCE
	@tools/gate.py program

test:
	@tools/gate.py

wrong:
	@tools/wrong.py $(NAME)

try:
	@tools/try.sh

bench:
	@bench/run.sh $(BENCH)

clean:
	rm -rf bin crates/*/out

# `make install` puts the program that `make` left, its manual pages and the examples under PREFIX, in the folder DESTDIR where a package is made.
# `make docs` compares the manual pages with docs/REFERENCE.md, and runs what docs/MANUAL.md shows; `make pages` makes the pages anew.

PREFIX ?= /usr/local
ROOT := $(DESTDIR)$(PREFIX)
SHARE := $(ROOT)/share

.PHONY: install docs pages

install:
	@test -x $(PROGRAM) || { echo 'there is no $(PROGRAM): run make first' >&2; exit 1; }
	install -D -m 755 $(PROGRAM) $(ROOT)/bin/nehumiro
	install -D -m 644 -t $(SHARE)/man/man1 docs/man/nehumiro.1
	install -D -m 644 -t $(SHARE)/man/man5 docs/man/nehumiro.5
	install -D -m 644 -t $(SHARE)/doc/nehumiro $(wildcard LICENSE) docs/MANUAL.md docs/REFERENCE.md docs/FORMATS.md
	install -d $(SHARE)/doc/nehumiro/examples
	cp examples/* $(SHARE)/doc/nehumiro/examples/
	chmod -R a+rX $(SHARE)/doc/nehumiro/examples

docs:
	tools/pages.py --check
	! LC_ALL=C.UTF-8 man --warnings -l docs/man/nehumiro.1 docs/man/nehumiro.5 2>&1 >/dev/null | grep .
	tools/shown.py $(PROGRAM)

pages:
	tools/pages.py
