# Everything that one does with this repository. To build and prove it needs the command `rt` of rattle-kit-13b or 13f on the PATH.

PROGRAM := bin/dervlask
PAGE := man/dervlask.1
LICENSES := LICENSE-APACHE LICENSE-MIT NOTICE
PREFIX := /usr/local
SOURCES := crates.txt HANDLES $(shell find crates -name out -prune -o -type f \( -name '*.rt' -o -name '*.antt' \) -print)

define needs_rt
@command -v rt > /dev/null || { echo 'the command rt of rattle-kit-13b or 13f is not on the PATH'; exit 1; }
endef

.PHONY: help run build test edits pages install uninstall bench figures

help:
	@echo 'make run        builds the program before any proof, shows the surrogate of a message, and keeps nothing'
	@echo 'make build      proves and builds the program, and leaves it at $(PROGRAM); the first time takes 35 minutes'
	@echo 'make install    does the same, and copies the program, its man page and its licenses below PREFIX, which is $(PREFIX)'
	@echo 'make uninstall  takes these files away'
	@echo 'make test       proves everything, tries wrong bodies, and runs all tests; the first time takes longer still'
	@echo 'make edits      tries the wrong bodies whose contracts changed, over what make test built, and writes docs/EDITS.md;'
	@echo '                CRATES="mail_wire mail_store" for those of some crates alone'
	@echo 'make pages      writes docs/SPECIFICATION.md from the comments of the definitions (needs python3)'
	@echo 'make bench      measures the program (needs python3, valgrind and GNU time)'
	@echo 'make figures    does the same, and writes the figures into docs/PERFORMANCE.md'
	@echo 'The time was measured on a quiet machine of four processors.'

# rt try proves nothing, and takes the program away when it has run
run:
	$(needs_rt)
	@echo 'The message:'
	@sed 's/^/    /' crates/dervlask/stdin
	@echo 'Its surrogate, by the program as it is built before any proof (`make build` proves it):'
	@cd crates/dervlask && rt try -- downgrade < stdin
	@echo 'Nothing was proved by this, and the program is gone again.'

build: $(PROGRAM)

$(PROGRAM): $(SOURCES)
	$(needs_rt)
	tools/build_program

test:
	$(needs_rt)
	bash .ci/run

edits:
	$(needs_rt)
	tools/try_edits $(CRATES)

pages:
	tools/check_pages --write

install: $(PROGRAM)
	install -d $(DESTDIR)$(PREFIX)/bin $(DESTDIR)$(PREFIX)/share/man/man1 $(DESTDIR)$(PREFIX)/share/doc/dervlask
	install -m 755 $(PROGRAM) $(DESTDIR)$(PREFIX)/bin/dervlask
	install -m 644 $(PAGE) $(DESTDIR)$(PREFIX)/share/man/man1/dervlask.1
	install -m 644 $(LICENSES) $(DESTDIR)$(PREFIX)/share/doc/dervlask

uninstall:
	rm -f $(DESTDIR)$(PREFIX)/bin/dervlask $(DESTDIR)$(PREFIX)/share/man/man1/dervlask.1
	rm -f $(LICENSES:%=$(DESTDIR)$(PREFIX)/share/doc/dervlask/%)
	-rmdir $(DESTDIR)$(PREFIX)/share/doc/dervlask

bench: $(PROGRAM)
	python3 bench/run $(PROGRAM)

figures: $(PROGRAM)
	python3 bench/run --write $(PROGRAM)
