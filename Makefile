NM = crates/nm/out/nm
EXAMPLE = examples/base-and-day.session

.PHONY: build demo test slow bench install

# Proves what is not proved yet, and builds the program.
build:
	cd crates/nm && rt run -- session < ../../$(EXAMPLE) > /dev/null

# Assembles a day of the example: by the built program, or where there is none by a trial run of its source.
demo:
ifneq ($(wildcard $(NM)),)
	$(NM) session < $(EXAMPLE)
else
	@echo "$(NM) is not built yet: its source is tried instead, which takes about a minute" >&2
	@cd crates/nm && rt try -- session < ../../$(EXAMPLE)
	@echo "Nothing of this run was proved: it tried the source as it stands. Plain 'make' proves and builds $(NM)."
endif

$(NM):
	$(MAKE) build

# Every proof, test and program of the crates, and then the checks of the built program from outside.
test:
	rt ci
	tests/run

# The checks from outside that take long.
slow: $(NM)
	tests/run tests/slow/*.py

bench: $(NM)
	python3 bench/reading.py
	python3 bench/documents.py
	python3 bench/commits.py

ifdef PREFIX
install: $(NM)
	install -D -m 755 $(NM) "$(DESTDIR)$(PREFIX)/bin/nm"
	install -D -m 755 planner/nm-store "$(DESTDIR)$(PREFIX)/bin/nm-store"
	install -D -m 644 man/nm.1 "$(DESTDIR)$(PREFIX)/share/man/man1/nm.1"
	install -D -m 644 man/nm-store.1 "$(DESTDIR)$(PREFIX)/share/man/man1/nm-store.1"
	install -D -m 644 planner/nm-store.bash "$(DESTDIR)$(PREFIX)/share/bash-completion/completions/nm-store"
	@echo "installed $(PREFIX)/bin/nm and nm-store, and their man pages. binutils has a program nm too: the first on the PATH is run."
else
install:
	@echo "make install wants to be told where, as in: make install PREFIX=$$HOME/.local" >&2
	@echo "The program is then PREFIX/bin/nm. binutils has a program nm too: take a PREFIX that is not /usr." >&2
	@exit 1
endif
